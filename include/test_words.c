/* The version, held to the Rust package's, and the words for refusals, held to docs/FORMATS.md. */
#include "test.h"

#include <stdio.h>
#include <string.h>

/* Whether a file has a line that starts with one text and holds another. */
static int has_line(const char *file, const char *start, const char *words)
{
    static char line[4096];
    FILE *from = fopen(file, "r");
    int found = 0;
    while (from != NULL && !found && fgets(line, sizeof line, from) != NULL) {
        found = strncmp(line, start, strlen(start)) == 0 && strstr(line, words) != NULL;
    }
    if (from != NULL) {
        fclose(from);
    }
    return found;
}

static void test_version(const char *cargo)
{
    char parts[32];
    snprintf(parts, sizeof parts, "%d.%d.%d", RIBALTZEN_VERSION_MAJOR, RIBALTZEN_VERSION_MINOR,
             RIBALTZEN_VERSION_PATCH);
    expect(strcmp(parts, RIBALTZEN_VERSION) == 0, "the version is its parts");
    expect(has_line(cargo, "version = ", "\"" RIBALTZEN_VERSION "\""), "the version is the Rust package's");
}

/* "| 5 | Is every float finite? | the record |" */
static void test_questions(const char *formats)
{
    char row[8], words[256];
    uint32_t number;
    for (number = 1; number <= 13; number++) {
        snprintf(row, sizeof row, "| %u |", (unsigned)number);
        snprintf(words, sizeof words, "%s |", ribaltzen_refusal(number));
        expect(strstr(words, "? |") != NULL, "a refusal's words are a question");
        expect(has_line(formats, row, words), ribaltzen_refusal(number));
    }
}

void test_words(const char *cargo, const char *formats)
{
    const char *unknown = "a number that this version does not know";
    test_version(cargo);
    test_questions(formats);
    expect(strcmp(ribaltzen_refusal(0), "not refused") == 0, "0 is no refusal");
    expect(strcmp(ribaltzen_refusal(14), unknown) == 0 && strcmp(ribaltzen_refusal(UINT32_MAX), unknown) == 0,
           "other numbers have one text");
}
