/* Prints a plan as the program `plan` does: example [FILE], without a file from standard input.
 *
 * The input is a query as a record of kind 20, and then the sheet (docs/FORMATS.md); it may have any length. For a
 * refusal the question that was answered "no" goes to standard error. The status is 0 where an answer was printed, be
 * it a refusal; 1 where reading, writing or memory failed; 2 for wrong arguments.
 *
 *     gcc -std=c99 -O2 -Iinclude include/example.c crates/planner_c/out/libplanner_c.a -o example
 */
#include "ribaltzen.h"
#include "ribaltzen_tape.h"

#include <errno.h>
#include <inttypes.h>
#include <stdio.h>
#include <stdlib.h>
#include <string.h>

/* Ends the program for a fault that is not the input's. */
static void fail(const char *what)
{
    fprintf(stderr, "example: %s%s%s\n", what, errno != 0 ? ": " : "", errno != 0 ? strerror(errno) : "");
    exit(1);
}

/* Memory of so many bytes, and never NULL: the library wants an address even for none. */
static void *take(void *old, size_t bytes)
{
    void *memory = realloc(old, bytes > 0 ? bytes : 1);
    if (memory == NULL) {
        fail("memory");
    }
    return memory;
}

/* All bytes up to the end of a file. */
static uint8_t *read_all(FILE *from, size_t *length)
{
    size_t room = 65536, got;
    uint8_t *bytes = take(NULL, room);
    *length = 0;
    while ((got = fread(bytes + *length, 1, room - *length, from)) > 0) {
        *length += got;
        if (*length == room) {
            room *= 2;
            bytes = take(bytes, room);
        }
    }
    if (ferror(from)) {
        fail("the input");
    }
    return bytes;
}

/* ---- the query */

/* The length of a whole query at the start of the input, else 0. */
static size_t query_length(const uint8_t *input, size_t length)
{
    size_t query = length < 54 ? 0 : (size_t)ribaltzen_field(input, 4);
    if (query < 54 || query > length || (query - 54) % 4 != 0 || ribaltzen_field(input + 4, 2) != 20) {
        return 0;
    }
    return query;
}

/* The hidden layers of a whole query, aligned as the library asks. */
static uint32_t *hidden_layers(const uint8_t *query, size_t count)
{
    uint32_t *hidden = take(NULL, count * sizeof *hidden);
    size_t i;
    for (i = 0; i < count; i++) {
        hidden[i] = (uint32_t)ribaltzen_field(query + 54 + 4 * i, 4);
    }
    return hidden;
}

/* ---- the sheet, opened once */

/* A sheet with its finder, which serves every plan of it, or the number and offset of its refusal. */
struct opened {
    const uint8_t *sheet;
    size_t length, places, offset;
    uint32_t *finder;
    uint32_t number;
};

static struct opened open_sheet(const uint8_t *sheet, size_t length)
{
    struct opened opened = { sheet, length, 0, 0, NULL, 0 };
    const size_t room = ribaltzen_places(length);
    opened.finder = take(NULL, room * sizeof *opened.finder);
    opened.number = scene_open(sheet, length, opened.finder, room, &opened.offset, &opened.places);
    opened.finder = take(opened.finder, opened.places * sizeof *opened.finder); /* gives back what is not needed */
    return opened;
}

/* ---- the plan, once for each query */

/* A tape, or the number and offset of a refusal. */
struct answer {
    uint32_t number;
    size_t offset, length;
    uint8_t *tape;
};

/* Plans an opened sheet: with the scratch that it needs, and, where the output is too short, again with what is enough.
 * A viewer calls this for each view. It would keep the memory too, with scratch for its greatest depth. */
static struct answer plan(const struct opened *opened, const uint8_t *query, size_t query_length)
{
    const uint32_t root = (uint32_t)ribaltzen_field(query + 6, 4), depth = (uint32_t)ribaltzen_field(query + 10, 4);
    const size_t hidden_length = (query_length - 54) / 4;
    uint32_t *hidden = hidden_layers(query, hidden_length);
    struct answer answer = { 0, 0, 4096, NULL };
    size_t counts_length, marks_length, room;
    uint64_t *counts;
    uint8_t *marks;
    /* Its number is not needed: where it refuses, the plan is refused too. */
    ribaltzen_scratch(opened->sheet, opened->length, depth, &counts_length, &marks_length);
    counts = take(NULL, counts_length * sizeof *counts);
    marks = take(NULL, marks_length);
    do {
        room = answer.length;
        answer.tape = take(answer.tape, room);
        answer.number = scene_plan_with_finder(opened->sheet, opened->length, opened->finder, opened->places,
                                               root, depth,
                                               ribaltzen_float(query + 14), ribaltzen_float(query + 22), /* view: min */
                                               ribaltzen_float(query + 30), ribaltzen_float(query + 38), /* view: max */
                                               ribaltzen_float(query + 46),                              /* zoom */
                                               hidden, hidden_length, answer.tape, room,
                                               counts, counts_length, marks, marks_length,
                                               &answer.offset, &answer.length);
    } while (answer.number == RIBALTZEN_OUTPUT_TOO_SHORT && answer.length > room);
    free(hidden);
    free(counts);
    free(marks);
    return answer;
}

/* ---- the text */

/* Floats are printed as the 16 hexadecimal digits of their patterns. */
static void print_floats(const double *values, size_t count)
{
    size_t i;
    for (i = 0; i < count; i++) {
        uint64_t pattern;
        memcpy(&pattern, &values[i], sizeof pattern);
        printf(" %016" PRIx64, pattern);
    }
}

static void print_proxy(const struct ribaltzen_proxy *proxy)
{
    const double bbox[4] = { proxy->min_x, proxy->min_y, proxy->max_x, proxy->max_y };
    if (proxy->label == RIBALTZEN_NO_LABEL) {
        printf("proxy none");
    } else {
        printf("proxy %" PRIu32, proxy->label);
    }
    print_floats(bbox, 4);
}

static void print_record(const struct ribaltzen_record *record)
{
    const struct ribaltzen_totals *totals = &record->of.totals;
    switch (record->kind) {
    case RIBALTZEN_BATCH:
        printf("batch %" PRIu32, record->of.batch.number);
        print_floats(record->of.batch.x_axis, 2);
        print_floats(record->of.batch.y_axis, 2);
        print_floats(record->of.batch.translation, 2);
        break;
    case RIBALTZEN_TEXT:
        printf("text %" PRIu32, record->of.text.number);
        print_floats(record->of.text.position, 2);
        break;
    case RIBALTZEN_POINT:
        printf("point %u %u", (unsigned)record->of.point.layer, (unsigned)record->of.point.node_type);
        print_floats(record->of.point.position, 2);
        break;
    case RIBALTZEN_PROXY:
        print_proxy(&record->of.proxy);
        break;
    case RIBALTZEN_TOTALS:
        printf("totals %" PRIu64 " %" PRIu64 " %" PRIu64 " %" PRIu64 " %" PRIu64 " %" PRIu64 " %" PRIu64,
               totals->detail_cells, totals->detail_objects, totals->culled_references, totals->skipped_references,
               totals->culled_batches, totals->skipped_batches, totals->dropped_proxies);
        break;
    }
    putchar('\n');
}

static void print_tape(const uint8_t *tape, size_t length)
{
    struct ribaltzen_cursor cursor = ribaltzen_records(tape, length);
    struct ribaltzen_record record;
    int more;
    while ((more = ribaltzen_next(&cursor, &record)) == 1) {
        print_record(&record);
    }
    if (more != 0) { /* no tape of the library's, but one that was stored could be damaged */
        errno = 0;
        fail(ribaltzen_damage(cursor.damage));
    }
}

static void print_refusal(uint32_t number, size_t offset)
{
    printf("refused %" PRIu32 " %zu\n", number, offset);
    fprintf(stderr, "%s No.\n", ribaltzen_refusal(number));
}

static void print_plan(const struct opened *opened, const uint8_t *query, size_t query_length)
{
    struct answer answer = plan(opened, query, query_length);
    if (answer.number == RIBALTZEN_PLANNED) {
        print_tape(answer.tape, answer.length);
    } else {
        print_refusal(answer.number, answer.offset);
    }
    free(answer.tape);
}

static void print_answer(const uint8_t *input, size_t length)
{
    size_t query = query_length(input, length);
    struct opened opened;
    if (query == 0) {
        puts("no query");
        return;
    }
    opened = open_sheet(input + query, length - query);
    if (opened.number == RIBALTZEN_OPENED) {
        print_plan(&opened, input, query);
    } else {
        print_refusal(opened.number, opened.offset);
    }
    free(opened.finder);
}

int main(int count, char **arguments)
{
    FILE *from = stdin;
    uint8_t *input;
    size_t length;
    if (count > 2) {
        fputs("usage: example [FILE]\n", stderr);
        return 2;
    }
    if (count == 2 && (from = fopen(arguments[1], "rb")) == NULL) {
        fail(arguments[1]);
    }
    input = read_all(from, &length);
    print_answer(input, length);
    free(input);
    if (fflush(stdout) != 0 || ferror(stdout)) {
        fail("the output");
    }
    return 0;
}
