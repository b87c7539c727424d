/* ribaltzen_tape.h on whole tapes: records of every kind, field by field. */
#include "ribaltzen_tape.h"
#include "test.h"

static int is_pair(const double pair[2], double x, double y)
{
    return pair[0] == x && pair[1] == y;
}

/* The plan of the sheet of every kind, field by field. */
static void test_records(const uint8_t *tape, size_t length)
{
    struct ribaltzen_cursor cursor = ribaltzen_records(tape, length);
    struct ribaltzen_record record;
    expect(ribaltzen_next(&cursor, &record) == 1 && record.kind == RIBALTZEN_BATCH && record.of.batch.number == 0
               && is_pair(record.of.batch.x_axis, 1.0, 0.0) && is_pair(record.of.batch.y_axis, 0.0, 1.0)
               && is_pair(record.of.batch.translation, 0.0, 0.0), "the batch");
    expect(ribaltzen_next(&cursor, &record) == 1 && record.kind == RIBALTZEN_TEXT && record.of.text.number == 0
               && is_pair(record.of.text.position, 5.0, 6.0), "the text");
    expect(ribaltzen_next(&cursor, &record) == 1 && record.kind == RIBALTZEN_POINT && record.of.point.layer == 3
               && record.of.point.node_type == 9 && is_pair(record.of.point.position, 1.0, 2.0), "the first point");
    expect(ribaltzen_next(&cursor, &record) == 1 && record.kind == RIBALTZEN_POINT
               && is_pair(record.of.point.position, 3.0, 4.0), "the point in view after it");
    expect(ribaltzen_next(&cursor, &record) == 1 && record.kind == RIBALTZEN_PROXY && record.of.proxy.label == 1
               && record.of.proxy.min_x == 70.0 && record.of.proxy.min_y == 80.0 && record.of.proxy.max_x == 72.0
               && record.of.proxy.max_y == 83.0, "the proxy");
    expect(ribaltzen_next(&cursor, &record) == 1 && record.kind == RIBALTZEN_TOTALS
               && record.of.totals.detail_cells == 1 && record.of.totals.detail_objects == 4
               && record.of.totals.dropped_proxies == 0, "the totals");
    expect(ribaltzen_next(&cursor, &record) == 0 && cursor.offset == length, "the end");
}

/* A tape with one record of each kind, in which the byte at place p of a body is p. */
static struct bytes counting_tape(void)
{
    static const size_t lengths[5] = { 58, 26, 26, 42, 62 };
    struct bytes tape = { { 0 }, 0 };
    uint16_t kind;
    size_t place;
    for (kind = 0; kind < 5; kind++) {
        put_head(&tape, lengths[kind], (uint16_t)(11 + kind));
        for (place = 6; place < lengths[kind]; place++) {
            put(&tape, place, 1);
        }
    }
    return tape;
}

/* Whether a field, in memory as on the tape, holds the bytes from a place on. */
static int counts_from(const void *field, size_t bytes, uint8_t place)
{
    const uint8_t *byte = (const uint8_t *)field;
    size_t i = 0;
    while (i < bytes && byte[i] == place + i) {
        i++;
    }
    return i == bytes;
}

/* Each field is read from its own bytes. */
static void test_fields(void)
{
#define EXPECT_FIELD(field, place) expect(counts_from(&record.of.field, sizeof record.of.field, place), #field)
    struct bytes tape = counting_tape();
    struct ribaltzen_cursor cursor = ribaltzen_records(tape.at, tape.length);
    struct ribaltzen_record record;
    expect(ribaltzen_next(&cursor, &record) == 1 && record.kind == RIBALTZEN_BATCH, "a batch of counting bytes");
    EXPECT_FIELD(batch.number, 6);
    EXPECT_FIELD(batch.x_axis, 10);
    EXPECT_FIELD(batch.y_axis, 26);
    EXPECT_FIELD(batch.translation, 42);
    expect(ribaltzen_next(&cursor, &record) == 1 && record.kind == RIBALTZEN_TEXT, "a text of counting bytes");
    EXPECT_FIELD(text.number, 6);
    EXPECT_FIELD(text.position, 10);
    expect(ribaltzen_next(&cursor, &record) == 1 && record.kind == RIBALTZEN_POINT, "a point of counting bytes");
    EXPECT_FIELD(point.layer, 6);
    EXPECT_FIELD(point.node_type, 8);
    EXPECT_FIELD(point.position, 10);
    expect(ribaltzen_next(&cursor, &record) == 1 && record.kind == RIBALTZEN_PROXY, "a proxy of counting bytes");
    EXPECT_FIELD(proxy.label, 6);
    EXPECT_FIELD(proxy.min_x, 10);
    EXPECT_FIELD(proxy.min_y, 18);
    EXPECT_FIELD(proxy.max_x, 26);
    EXPECT_FIELD(proxy.max_y, 34);
    expect(ribaltzen_next(&cursor, &record) == 1 && record.kind == RIBALTZEN_TOTALS, "totals of counting bytes");
    EXPECT_FIELD(totals.detail_cells, 6);
    EXPECT_FIELD(totals.detail_objects, 14);
    EXPECT_FIELD(totals.culled_references, 22);
    EXPECT_FIELD(totals.skipped_references, 30);
    EXPECT_FIELD(totals.culled_batches, 38);
    EXPECT_FIELD(totals.skipped_batches, 46);
    EXPECT_FIELD(totals.dropped_proxies, 54);
    expect(ribaltzen_next(&cursor, &record) == 0, "the end of the counting tape");
#undef EXPECT_FIELD
}

void test_tape(void)
{
    struct bytes sheet = sheet_of_every_kind();
    struct lent lent;
    expect(plan(&sheet, 4, 1.0, &lent) == RIBALTZEN_PLANNED, "a plan with records of every kind");
    test_records(lent.out, lent.length);
    test_fields();
}
