/* The stored cases: for each, the scratch and the length after 12 are exact, and plans with finders are those without.
 * Each case is the length of an input and of its answer, 4 bytes each, and then both; an input is a query as a record
 * of kind 20 and then the sheet. What the answers are is held to the stored ones by oracle/compare with example.c. */
#include "ribaltzen_tape.h"
#include "test.h"

#include <stdio.h>
#include <stdlib.h>

/* The hidden layers of a stored query: none has more. */
static uint32_t hidden[256];

/* The query and the sheet of an input. Returns 0 where the first record is no whole query. */
static int split(const uint8_t *input, size_t length, struct asked *asked)
{
    size_t query = length < 54 ? 0 : (size_t)ribaltzen_field(input, 4), i;
    if (query < 54 || query > length || (query - 54) % 4 != 0 || ribaltzen_field(input + 4, 2) != 20) {
        return 0;
    }
    asked->sheet = input + query;
    asked->sheet_length = length - query;
    asked->root = (uint32_t)ribaltzen_field(input + 6, 4);
    asked->depth = (uint32_t)ribaltzen_field(input + 10, 4);
    for (i = 0; i < 4; i++) {
        asked->view[i] = ribaltzen_float(input + 14 + 8 * i);
    }
    asked->zoom = ribaltzen_float(input + 46);
    asked->hidden = hidden;
    asked->hidden_length = (query - 54) / 4;
    expect(asked->hidden_length <= 256, "the hidden layers have room");
    for (i = 0; i < asked->hidden_length && i < 256; i++) {
        hidden[i] = (uint32_t)ribaltzen_field(input + 54 + 4 * i, 4);
    }
    return asked->hidden_length <= 256;
}

/* Outputs of no byte, of half of the tape, of all but a byte and of all of it. */
static void expect_length_after_12(const struct asked *asked)
{
    size_t enough = 0, length = 0, outs[3], i;
    outs[0] = 0;
    expect(ask(asked, RIBALTZEN_MOST_TAPE, RIBALTZEN_MOST_COUNTS, RIBALTZEN_MOST_MARKS, &enough) == 0, "a plan");
    outs[1] = enough / 2;
    outs[2] = enough - 1;
    for (i = 0; i < 3; i++) {
        expect(ask(asked, outs[i], RIBALTZEN_MOST_COUNTS, RIBALTZEN_MOST_MARKS, &length) == 12, "too short an output");
        expect(length == enough, "after 12 the length is the one that is enough");
    }
    expect(ask(asked, enough, RIBALTZEN_MOST_COUNTS, RIBALTZEN_MOST_MARKS, &length) == 0, "enough is enough");
    expect(length == enough, "and all of it is filled");
}

static uint8_t *read_file(const char *name, size_t *length)
{
    const size_t room = (size_t)64 << 20;
    uint8_t *bytes = (uint8_t *)malloc(room);
    FILE *from = fopen(name, "rb");
    *length = 0;
    if (bytes != NULL && from != NULL) {
        *length = fread(bytes, 1, room, from);
    }
    if (from != NULL) {
        fclose(from);
    }
    return bytes;
}

void test_stored(const char *cases)
{
    size_t length, at = 0, opened = 0, planned = 0;
    uint8_t *bytes = read_file(cases, &length);
    while (length - at >= 8) {
        size_t input = (size_t)ribaltzen_field(bytes + at, 4), answer = (size_t)ribaltzen_field(bytes + at + 4, 4);
        struct asked asked;
        at += 8;
        if (input > length - at || answer > length - at - input) {
            break;
        }
        if (split(bytes + at, input, &asked)) {
            opened += (size_t)expect_finder(&asked);
            if (expect_scratch(&asked)) {
                expect_length_after_12(&asked);
                planned++;
            }
        }
        at += input + answer;
    }
    expect(at == length && planned > 500, "the stored cases are read to their end, and most are planned");
    expect(opened > planned, "sheets are opened, also those of refused queries");
    free(bytes);
}
