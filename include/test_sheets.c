/* Sheets and tapes for the tests, byte by byte as docs/FORMATS.md has them. */
#include "test.h"

#include <stdlib.h>
#include <string.h>

void put(struct bytes *to, uint64_t value, size_t bytes)
{
    size_t i;
    if (bytes > sizeof to->at - to->length) {
        abort(); /* a test wrote more than it has room for */
    }
    for (i = 0; i < bytes; i++) {
        to->at[to->length + i] = (uint8_t)(value >> (8 * i));
    }
    to->length += bytes;
}

void put_float(struct bytes *to, double value)
{
    uint64_t pattern;
    memcpy(&pattern, &value, 8);
    put(to, pattern, 8);
}

static void put_floats(struct bytes *to, const double *values, size_t count)
{
    size_t i;
    for (i = 0; i < count; i++) {
        put_float(to, values[i]);
    }
}

void put_head(struct bytes *to, size_t length, uint16_t kind)
{
    put(to, length, 4);
    put(to, kind, 2);
}

void put_batch(struct bytes *to, uint16_t layer, uint32_t elements, const double bbox[4])
{
    put_head(to, 46, 1);
    put(to, layer, 2);
    put(to, 0, 2);
    put(to, elements, 4);
    put_floats(to, bbox, 4);
}

void put_text(struct bytes *to, uint16_t layer, double x, double y)
{
    put_head(to, 26, 2);
    put(to, layer, 2);
    put(to, 0, 2);
    put_float(to, x);
    put_float(to, y);
}

void put_node(struct bytes *to, uint16_t layer, uint16_t node_type, const double *points, size_t count)
{
    put_head(to, 10 + 16 * count, 3);
    put(to, layer, 2);
    put(to, node_type, 2);
    put_floats(to, points, 2 * count);
}

void put_reference(struct bytes *to, uint32_t cell, const double origin[2], const double cos_sin[2],
                   const double bbox[4])
{
    static const double spacings[4] = { 0.0, 0.0, 0.0, 0.0 };
    put_head(to, 122, 4);
    put(to, 1, 2); /* columns */
    put(to, 1, 2); /* rows */
    put(to, 2, 2); /* the source box is there */
    put(to, 5, 2);
    put(to, cell, 4);
    put_floats(to, origin, 2);
    put_floats(to, spacings, 4);
    put_float(to, 1.0); /* magnification */
    put_floats(to, cos_sin, 2);
    put_floats(to, bbox, 4);
}

void put_cell(struct bytes *to, const double bbox[4], const uint16_t counts[4])
{
    uint32_t kind, number;
    put_head(to, 56 + 4 * ((size_t)counts[0] + counts[1] + counts[2] + counts[3]), 5);
    put(to, 1, 2); /* the box is there */
    put(to, 1, 8); /* direct draw units */
    put_floats(to, bbox, 4);
    for (kind = 0; kind < 4; kind++) {
        put(to, counts[kind], 2);
    }
    for (kind = 0; kind < 4; kind++) {
        for (number = 0; number < counts[kind]; number++) {
            put(to, number, 4);
        }
    }
}

struct bytes worked_sheet(void)
{
    static const double bbox[4] = { 0.0, 0.0, 100.0, 100.0 };
    static const uint16_t counts[4] = { 0, 1, 0, 0 };
    struct bytes sheet = { { 0 }, 0 };
    put_text(&sheet, 1, 10.0, 20.0);
    put_cell(&sheet, bbox, counts);
    return sheet;
}

/* "text 0 4024000000000000 4034000000000000", "totals 1 1 0 0 0 0 0" */
struct bytes worked_tape(void)
{
    struct bytes tape = { { 0 }, 0 };
    int i;
    put_head(&tape, 26, 12);
    put(&tape, 0, 4);
    put(&tape, 0x4024000000000000u, 8);
    put(&tape, 0x4034000000000000u, 8);
    put_head(&tape, 62, 15);
    for (i = 0; i < 7; i++) {
        put(&tape, i < 2, 8);
    }
    return tape;
}

struct bytes sheet_of_every_kind(void)
{
    static const double shape[4] = { 10.0, 10.0, 50.0, 60.0 }, points[6] = { 1.0, 2.0, 200.0, 2.0, 3.0, 4.0 };
    static const double origin[2] = { 70.0, 80.0 }, upright[2] = { 1.0, 0.0 };
    static const double small[4] = { 0.0, 0.0, 2.0, 3.0 }, whole[4] = { 0.0, 0.0, 200.0, 100.0 };
    static const uint16_t one_each[4] = { 1, 1, 1, 1 }, a_text[4] = { 0, 1, 0, 0 };
    struct bytes sheet = { { 0 }, 0 };
    put_batch(&sheet, 1, 1, shape);
    put_text(&sheet, 2, 5.0, 6.0);
    put_node(&sheet, 3, 9, points, 3);
    put_reference(&sheet, 1, origin, upright, small);
    put_cell(&sheet, whole, one_each);
    put_cell(&sheet, small, a_text);
    return sheet;
}
