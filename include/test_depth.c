/* Deep sheets: a descent of 49 cells, planned to each depth that is answered, and refused at those that are not. */
#include "ribaltzen_tape.h"
#include "test.h"

static uint8_t sheet[16384], out[2048];
static size_t sheet_length;

/* Cell i lists the text, and reference i, which places cell i + 1 one unit to the right. */
static void make_descent(void)
{
    static const double origin[2] = { 1.0, 0.0 }, upright[2] = { 1.0, 0.0 }, whole[4] = { 0.0, 0.0, 100.0, 100.0 };
    static const uint16_t both[4] = { 0, 1, 0, 1 }, a_text[4] = { 0, 1, 0, 0 };
    struct bytes bytes = { { 0 }, 0 };
    uint32_t i;
    sheet_length = 0;
    put_text(&bytes, 1, 10.0, 20.0);
    for (i = 0; i < 49; i++) {
        put_cell(&bytes, whole, i < 48 ? both : a_text);
        if (i < 48) {
            bytes.length -= 4;
            put(&bytes, i, 4); /* its reference, in place of reference 0 */
            put_reference(&bytes, i + 1, origin, upright, whole);
        }
        memcpy(sheet + sheet_length, bytes.at, bytes.length);
        sheet_length += bytes.length;
        bytes.length = 0;
    }
}

static struct asked at_depth(uint32_t depth)
{
    static const uint32_t hidden[1] = { 0 };
    struct asked asked = { NULL, 0, 0, 0, { 0.0, 0.0, 100.0, 100.0 }, 1.0, hidden, 0 };
    asked.sheet = sheet;
    asked.sheet_length = sheet_length;
    asked.depth = depth;
    return asked;
}

static uint32_t plan_at(uint32_t depth, size_t *length)
{
    static const uint32_t hidden[1] = { 0 };
    static uint64_t counts[49 * 48];
    static uint8_t marks[49 * 50];
    size_t offset;
    return scene_plan(sheet, sheet_length, 0, depth, 0.0, 0.0, 100.0, 100.0, 1.0, hidden, 0, out, sizeof out, counts,
                      49 * 48, marks, 49 * 50, &offset, length);
}

/* At depth d the text of cells 0 to d - 1 is listed, and the box of cell d stands for the rest. */
static void expect_plan(uint32_t depth)
{
    struct ribaltzen_cursor cursor;
    struct ribaltzen_record record;
    size_t length = 0;
    uint32_t cell;
    expect(plan_at(depth, &length) == RIBALTZEN_PLANNED, "a depth up to 48 is planned");
    cursor = ribaltzen_records(out, length);
    memset(&record, 0, sizeof record);
    for (cell = 0; cell < depth; cell++) {
        expect(ribaltzen_next(&cursor, &record) == 1 && record.kind == RIBALTZEN_TEXT, "a text for each depth");
        expect(record.of.text.position[0] == 10.0 + cell, "a unit to the right of the one before");
    }
    expect(ribaltzen_next(&cursor, &record) == 1 && record.kind == RIBALTZEN_PROXY, "one box for the rest");
    expect(record.of.proxy.label == depth, "the box of the cell where the depth ends");
    expect(ribaltzen_next(&cursor, &record) == 1 && record.kind == RIBALTZEN_TOTALS, "and the totals");
    expect(record.of.totals.detail_cells == depth && record.of.totals.detail_objects == depth, "a cell for each depth");
}

void test_depth(void)
{
    uint32_t depth;
    size_t length = 99;
    make_descent();
    for (depth = 0; depth <= 48; depth++) {
        const struct asked asked = at_depth(depth);
        expect_plan(depth);
        expect(expect_scratch(&asked), "the scratch for a depth up to 48 is exact");
        expect(expect_finder(&asked), "with a finder a deep plan is the same");
    }
    for (depth = 49; depth <= 51; depth++) {
        const struct asked asked = at_depth(depth);
        expect(plan_at(depth, &length) == RIBALTZEN_TOO_DEEP && length == 0, "a depth above 48 is refused");
        expect(!expect_scratch(&asked), "and has no scratch");
        expect(expect_finder(&asked), "also with a finder");
    }
}
