/* ribaltzen_scratch: its sizes are exactly what scene_plan asks for, and its refusals are scene_plan's. */
#include "test.h"

#include <stdlib.h>
#include <string.h>

static uint8_t lent_out[RIBALTZEN_MOST_TAPE], lent_marks[RIBALTZEN_MOST_MARKS];
static uint64_t lent_counts[RIBALTZEN_MOST_COUNTS];

uint32_t ask(const struct asked *asked, size_t out, size_t counts, size_t marks, size_t *length)
{
    size_t offset;
    return scene_plan(asked->sheet, asked->sheet_length, asked->root, asked->depth, asked->view[0], asked->view[1],
                      asked->view[2], asked->view[3], asked->zoom, asked->hidden, asked->hidden_length, lent_out, out,
                      lent_counts, counts, lent_marks, marks, &offset, length);
}

/* A number's place in the order in which questions are asked: 2 to 5 record by record, and 7 before 6. */
static int place_of(uint32_t number)
{
    static const int places[13] = { 9, 0, 1, 1, 1, 1, 3, 2, 4, 5, 6, 7, 8 }; /* a plan comes after all questions */
    return places[number <= 12 ? number : 0];
}

static int is_of_heads_or_depth(uint32_t number)
{
    return number == 1 || number == 2 || number == 7 || number == 10;
}

/* The number for a call with so much scratch. */
static uint32_t number_with(const struct asked *asked, size_t counts, size_t marks)
{
    size_t length;
    return ask(asked, RIBALTZEN_MOST_TAPE, counts, marks, &length);
}

int expect_scratch(const struct asked *asked)
{
    size_t counts = 99, marks = 99;
    uint32_t number = ribaltzen_scratch(asked->sheet, asked->sheet_length, asked->depth, &counts, &marks), answer;
    if (number != 0) {
        answer = number_with(asked, RIBALTZEN_MOST_COUNTS, RIBALTZEN_MOST_MARKS);
        expect(counts == 0 && marks == 0, "a refusal gives no sizes");
        expect(is_of_heads_or_depth(number), "a refusal is 1, 2, 7 or 10");
        expect(place_of(answer) <= place_of(number), "scene_plan refuses with that number or one asked before it");
        return 0;
    }
    expect(counts <= RIBALTZEN_MOST_COUNTS && marks <= RIBALTZEN_MOST_MARKS, "the sizes are within the greatest");
    answer = number_with(asked, counts, marks);
    expect(answer != RIBALTZEN_SCRATCH_TOO_SHORT, "the sizes are enough");
    expect(!is_of_heads_or_depth(answer), "what scene_plan refuses with 1, 2, 7 or 10 has no sizes");
    if (answer != RIBALTZEN_PLANNED) {
        return 0;
    }
    expect(counts == 0 || number_with(asked, counts - 1, marks) == 11, "a count less is too few");
    expect(marks == 0 || number_with(asked, counts, marks - 1) == 11, "a mark less is too few");
    return 1;
}

/* The same for a sheet and a depth, under a query of our own. */
static int expect_sheet(const uint8_t *sheet, size_t length, uint32_t depth)
{
    static const uint32_t hidden[1] = { 0 };
    struct asked asked = { NULL, 0, 0, 0, { 0.0, 0.0, 100.0, 100.0 }, 1.0, hidden, 0 };
    asked.sheet = sheet;
    asked.sheet_length = length;
    asked.depth = depth;
    return expect_scratch(&asked);
}

/* So many bare cells, at each depth of a range. */
static void test_cells(size_t cells, uint32_t least_depth, uint32_t most_depth, uint32_t number)
{
    static const double bbox[4] = { 0.0, 0.0, 1.0, 1.0 };
    static const uint16_t none[4] = { 0, 0, 0, 0 };
    struct bytes cell = { { 0 }, 0 };
    uint8_t *sheet = (uint8_t *)malloc(56 * cells + 1);
    size_t i, counts, marks;
    uint32_t depth;
    if (sheet == NULL) {
        abort();
    }
    put_cell(&cell, bbox, none);
    for (i = 0; i < cells; i++) {
        memcpy(sheet + 56 * i, cell.at, 56);
    }
    for (depth = least_depth; depth <= most_depth; depth++) {
        expect(ribaltzen_scratch(sheet, 56 * cells, depth, &counts, &marks) == number, "the number for bare cells");
        expect(number != 0 || (counts == cells * depth && marks == cells * (depth + 2)), "the sizes for bare cells");
        expect(expect_sheet(sheet, 56 * cells, depth) == (number == 0), "up to 4,096 bare cells are accepted");
    }
    free(sheet);
}

/* The longest sheet, and one byte more: zeros, whose first record is broken. */
static void test_longest_sheet(void)
{
    uint8_t *sheet = (uint8_t *)calloc(RIBALTZEN_MOST_SHEET + 1, 1);
    size_t counts, marks;
    if (sheet == NULL) {
        abort();
    }
    expect(ribaltzen_scratch(sheet, RIBALTZEN_MOST_SHEET + 1, 1, &counts, &marks) == 1, "a byte too many");
    expect(expect_sheet(sheet, RIBALTZEN_MOST_SHEET + 1, 1) == 0, "a byte too many is refused");
    expect(ribaltzen_scratch(sheet, RIBALTZEN_MOST_SHEET, 1, &counts, &marks) == 2, "a record of length 0");
    expect(expect_sheet(sheet, RIBALTZEN_MOST_SHEET, 1) == 0, "a record of length 0 is refused");
    free(sheet);
}

/* One record's head and zeros, so many bytes in all: only a length of 6 or more that ends with the sheet is sound. */
static void test_heads(void)
{
    static const uint8_t overlapping[11] = { 5, 0, 0, 0, 0, 6, 0, 0, 0, 0, 0 };
    size_t bytes, counts, marks;
    uint8_t length;
    for (bytes = 1; bytes <= 13; bytes++) {
        for (length = 0; length <= 14; length++) {
            uint8_t *sheet = (uint8_t *)calloc(bytes, 1);
            uint32_t number = length >= 6 && length == bytes ? RIBALTZEN_PLANNED : RIBALTZEN_BROKEN_RECORD;
            if (sheet == NULL) {
                abort();
            }
            sheet[0] = length;
            expect(ribaltzen_scratch(sheet, bytes, 1, &counts, &marks) == number, "the number for a head");
            expect(expect_sheet(sheet, bytes, 1) == 0, "a head alone is not accepted");
            free(sheet);
        }
    }
    expect(ribaltzen_scratch(overlapping, 11, 1, &counts, &marks) == 2, "a record is not shorter than its head");
}

/* Three bare heads, of which the first, the second or the last says a length that no sheet has. */
static void test_long_lengths(void)
{
    static const uint32_t lengths[4] = { 0xffffffff, 0xfffffffe, 0x80000000, 0x01000001 };
    size_t place, i, byte, counts, marks;
    for (place = 0; place < 18; place += 6) {
        for (i = 0; i < 4; i++) {
            uint8_t sheet[18] = { 6, 0, 0, 0, 0, 0, 6, 0, 0, 0, 0, 0, 6, 0, 0, 0, 0, 0 };
            expect(ribaltzen_scratch(sheet, 18, 1, &counts, &marks) == RIBALTZEN_PLANNED, "three bare heads");
            for (byte = 0; byte < 4; byte++) {
                sheet[place + byte] = (uint8_t)(lengths[i] >> (8 * byte));
            }
            expect(ribaltzen_scratch(sheet, 18, 1, &counts, &marks) == RIBALTZEN_BROKEN_RECORD, "a length past the end");
        }
    }
}

/* Changed and cut sheets, each in a block of its own that ends with it. */
static void test_changed_sheets(void)
{
    struct bytes sound = sheet_of_every_kind();
    size_t round, accepted = 0;
    for (round = 0; round < 20000; round++) {
        size_t length = round % 2 ? sound.length : random_below(sound.length + 1);
        uint8_t *sheet = (uint8_t *)malloc(length > 0 ? length : 1);
        if (sheet == NULL) {
            abort();
        }
        memcpy(sheet, sound.at, length);
        if (length > 0) {
            sheet[random_below(length)] = (uint8_t)random_below(256);
        }
        accepted += (size_t)expect_sheet(sheet, length, (uint32_t)random_below(51));
        free(sheet);
    }
    expect(accepted > 1000 && accepted < 19000, "some changed sheets are accepted, some refused");
}

void test_scratch(void)
{
    size_t cells;
    for (cells = 0; cells < 8; cells++) {
        test_cells(cells, 0, 48, 0);
        test_cells(cells, 49, 50, RIBALTZEN_TOO_DEEP);
        test_cells(cells, UINT32_MAX - 2, UINT32_MAX - 1, RIBALTZEN_TOO_DEEP);
    }
    test_cells(4096, 32, 33, 0);
    test_cells(4096, 47, 48, 0);
    test_cells(4097, 47, 50, RIBALTZEN_TOO_MANY_CELLS);
    expect(RIBALTZEN_MOST_COUNTS == 196608 && RIBALTZEN_MOST_MARKS == 204800, "the greatest scratch");
    test_longest_sheet();
    test_heads();
    test_long_lengths();
    test_changed_sheets();
}
