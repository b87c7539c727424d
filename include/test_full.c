/* A full plan: the longest tape, with 100,000 proxies and 20,000 batches, and the count of proxies that did not fit. */
#include "ribaltzen_tape.h"
#include "test.h"

static uint8_t sheet[1 << 19], out[RIBALTZEN_MOST_TAPE];
static size_t sheet_length;

static void add(const struct bytes *bytes)
{
    memcpy(sheet + sheet_length, bytes->at, bytes->length);
    sheet_length += bytes->length;
}

static void add_number(uint32_t number)
{
    struct bytes bytes = { { 0 }, 0 };
    put(&bytes, number, 4);
    add(&bytes);
}

/* A cell that names one batch so many times, and so many references, 0 and up. */
static void add_cell(uint16_t batches, uint32_t batch, uint16_t references)
{
    struct bytes head = { { 0 }, 0 };
    uint16_t i;
    put_head(&head, 56 + 4 * ((size_t)batches + references), 5);
    put(&head, 1, 2); /* the box is there */
    put(&head, 1, 8); /* direct draw units */
    put_float(&head, 0.0);
    put_float(&head, 0.0);
    put_float(&head, 100.0);
    put_float(&head, 100.0);
    put(&head, batches, 2);
    put(&head, 0, 4); /* no texts and no nodes */
    put(&head, references, 2);
    add(&head);
    for (i = 0; i < batches; i++) {
        add_number(batch);
    }
    for (i = 0; i < references; i++) {
        add_number(i);
    }
}

/* Batch 0 is dense, 8 square pixels for each element, and so a proxy: 39,999 in the root and 60,000 in cell 1. Then
 * cell 2 lists batch 1 until 20,000 objects are there, and its own box is proxy 100,000. */
static void make_sheet(uint16_t references)
{
    static const double origin[2] = { 0.0, 0.0 }, upright[2] = { 1.0, 0.0 };
    static const double small[4] = { 0.0, 0.0, 32.0, 32.0 }, whole[4] = { 0.0, 0.0, 100.0, 100.0 };
    struct bytes items = { { 0 }, 0 };
    put_batch(&items, 1, 128, small);
    put_batch(&items, 1, 1, small);
    put_reference(&items, 1, origin, upright, whole);
    put_reference(&items, 2, origin, upright, whole);
    put_reference(&items, 2, origin, upright, whole);
    sheet_length = 0;
    add(&items);
    add_cell(39999, 0, references);
    add_cell(60000, 0, 0);
    add_cell(20001, 1, 0);
}

static uint32_t plan_into(size_t out_length, size_t *length)
{
    static const uint32_t hidden[1] = { 0 };
    uint64_t counts[6];
    uint8_t marks[12];
    size_t offset;
    return scene_plan(sheet, sheet_length, 0, 2, 0.0, 0.0, 100.0, 100.0, 1.0, hidden, 0, out, out_length, counts, 6,
                      marks, 12, &offset, length);
}

/* The tape in out: its proxies and its totals. */
static void expect_totals(size_t length, uint64_t dropped)
{
    struct ribaltzen_cursor cursor = ribaltzen_records(out, length);
    struct ribaltzen_record record;
    size_t proxies = 0;
    memset(&record, 0, sizeof record);
    while (ribaltzen_next(&cursor, &record) == 1) {
        proxies += record.kind == RIBALTZEN_PROXY;
    }
    expect(proxies == 100000 && record.kind == RIBALTZEN_TOTALS, "a full list, and the totals");
    expect(record.of.totals.detail_cells == 3 && record.of.totals.detail_objects == 20000, "as many objects as may be");
    expect(record.of.totals.dropped_proxies == dropped, "the proxies that were dropped");
}

/* With two references in the root just what is listed is called for; before a third the root's box is, too. */
static void test_references(uint16_t references, uint64_t dropped)
{
    size_t length = 0;
    make_sheet(references);
    expect(plan_into(RIBALTZEN_MOST_TAPE - 1, &length) == RIBALTZEN_OUTPUT_TOO_SHORT, "a byte too few");
    expect(length == RIBALTZEN_MOST_TAPE, "the longest tape is needed");
    expect(plan_into(RIBALTZEN_MOST_TAPE, &length) == RIBALTZEN_PLANNED, "the longest tape is enough");
    expect(length == RIBALTZEN_MOST_TAPE, "and is filled");
    expect_totals(length, dropped);
}

void test_full(void)
{
    test_references(2, 0);
    test_references(3, 1);
}
