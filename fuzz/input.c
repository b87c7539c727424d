/* Inputs of the fuzz target: what the program `plan` reads, a query as a record of kind 20 and then the sheet. Other bytes
 * are taken as a sheet under a query of our own. */
#include "target.h"

#include <string.h>

static double float_at(const uint8_t *from)
{
    uint64_t bits = ribaltzen_field(from, 8);
    double value;
    memcpy(&value, &bits, 8);
    return value;
}

/* The length of a whole query at the start, or 0. */
static size_t query_length(const uint8_t *data, size_t size)
{
    size_t length = size < 54 ? 0 : (size_t)ribaltzen_field(data, 4);
    return length < 54 || length > size || (length - 54) % 4 != 0 || ribaltzen_field(data + 4, 2) != 20 ? 0 : length;
}

struct input read_input(const uint8_t *data, size_t size)
{
    struct input in = { 0, 8, { -1e6, -1e6, 1e6, 1e6 }, 1.0, NULL, 0, NULL, 0, NULL, NULL };
    size_t length = query_length(data, size), i;
    if (length > 0) {
        in.root = (uint32_t)ribaltzen_field(data + 6, 4);
        in.depth = (uint32_t)ribaltzen_field(data + 10, 4);
        for (i = 0; i < 4; i++) {
            in.view[i] = float_at(data + 14 + 8 * i);
        }
        in.zoom = float_at(data + 46);
        in.hidden_length = (length - 54) / 4;
    }
    in.given_hidden = length > 0 ? data + 54 : data;
    in.hidden = take(4 * in.hidden_length);
    for (i = 0; i < in.hidden_length; i++) {
        in.hidden[i] = (uint32_t)ribaltzen_field(in.given_hidden + 4 * i, 4);
    }
    in.given = data + length;
    in.sheet_length = size - length;
    in.sheet = take(in.sheet_length);
    if (in.sheet_length > 0) {
        memcpy(in.sheet, in.given, in.sheet_length);
    }
    return in;
}

void return_input(const struct input *in)
{
    give_back(in->sheet, in->sheet_length);
    give_back(in->hidden, 4 * in->hidden_length);
}

void expect_as_given(const struct input *in)
{
    size_t i;
    expect(in->sheet_length == 0 || memcmp(in->sheet, in->given, in->sheet_length) == 0, "the sheet is as lent");
    for (i = 0; i < in->hidden_length; i++) {
        expect(in->hidden[i] == ribaltzen_field(in->given_hidden + 4 * i, 4), "the hidden layers are as lent");
    }
}

size_t cells_of(const struct input *in)
{
    size_t at = 0, cells = 0;
    while (at + 6 <= in->sheet_length) {
        size_t length = (size_t)ribaltzen_field(in->sheet + at, 4);
        if (length < 6 || length > in->sheet_length - at) {
            break;
        }
        cells += ribaltzen_field(in->sheet + at + 4, 2) == 5;
        at += length;
    }
    return cells;
}
