/* Calls of scene_plan: document 01's worked example, the memory and lengths that calls leave, and hostile bytes. */
#include "test.h"

#include <string.h>

uint32_t plan_with(const struct bytes *sheet, uint32_t depth, double zoom, size_t out, size_t counts, size_t marks,
                   struct lent *lent)
{
    static const uint32_t hidden[1] = { 7u * 65536u };
    memset(lent, 0xa5, sizeof *lent);
    return scene_plan(sheet->at, sheet->length, 0, depth, 0.0, 0.0, 100.0, 100.0, zoom, hidden, 1, lent->out, out,
                      lent->counts, counts, lent->marks, marks, &lent->offset, &lent->length);
}

uint32_t plan(const struct bytes *sheet, uint32_t depth, double zoom, struct lent *lent)
{
    return plan_with(sheet, depth, zoom, sizeof lent->out, 256, 256, lent);
}

/* The worked example in exactly what it needs and in more: an output of 88 bytes, 1 count, 3 marks. */
static void test_worked_example(void)
{
    struct bytes sheet = worked_sheet(), tape = worked_tape();
    struct lent lent;
    expect(plan(&sheet, 1, 1.0, &lent) == RIBALTZEN_PLANNED, "the worked example is planned");
    expect(lent.offset == 0 && lent.length == tape.length, "its length");
    expect(memcmp(lent.out, tape.at, tape.length) == 0, "its tape");
    expect(all(lent.out + tape.length, sizeof lent.out - tape.length, 0xa5), "output past the tape is as lent");
    expect(lent.counts[0] == 0 && all(lent.counts + 1, 8 * 255, 0xa5), "one count is named");
    expect(all(lent.marks, 3, 0) && all(lent.marks + 3, 253, 0xa5), "three marks are named");
    expect(plan_with(&sheet, 1, 1.0, 88, 1, 3, &lent) == RIBALTZEN_PLANNED, "the sizes that are needed are enough");
}

static void test_refusals(void)
{
    struct bytes sheet = worked_sheet(), empty = { { 0 }, 0 };
    struct lent lent;
    expect(plan_with(&sheet, 1, 1.0, 88, 0, 3, &lent) == RIBALTZEN_SCRATCH_TOO_SHORT, "a count too few");
    expect(lent.length == 0 && all(lent.out, 88, 0xa5) && all(lent.marks, 3, 0xa5), "11 touches nothing");
    expect(plan(&sheet, 1, 0.0, &lent) == RIBALTZEN_BAD_ZOOM, "zoom 0");
    expect(lent.offset == 0 && lent.length == 0, "9 has neither offset nor length");
    sheet.length--;
    expect(plan(&sheet, 1, 1.0, &lent) == RIBALTZEN_BROKEN_RECORD, "the cell is cut short");
    expect(lent.offset == 26 && lent.length == 0, "2 has the record's offset and no length");
    expect(plan_with(&empty, 1, 1.0, 62, 0, 0, &lent) == RIBALTZEN_PLANNED, "an empty sheet is planned");
    expect(lent.length == 62, "it gives totals only");
}

/* After 12 the length is the one that is enough, whatever was lent, and the second call with it is planned. */
static void test_length_after_12(const struct bytes *sheet, uint32_t depth)
{
    struct lent whole, lent;
    size_t out;
    expect(plan(sheet, depth, 1.0, &whole) == RIBALTZEN_PLANNED, "there is room for the tape");
    for (out = 0; out < whole.length; out++) {
        uint32_t number = plan_with(sheet, depth, 1.0, out, 256, 256, &lent);
        expect(number == RIBALTZEN_OUTPUT_TOO_SHORT && lent.offset == 0, "a shorter output is refused with 12");
        expect(lent.length == whole.length, "the length after 12 is the tape's");
        expect(all(lent.out, out, 0), "12 zeroes the lent output");
        expect(all(lent.out + out, sizeof lent.out - out, 0xa5), "12 leaves what was not lent");
        expect(memcmp(lent.counts, whole.counts, sizeof lent.counts) == 0, "12 leaves counts as a plan does");
        expect(memcmp(lent.marks, whole.marks, sizeof lent.marks) == 0, "12 leaves marks as a plan does");
    }
    out = lent.length;
    expect(plan_with(sheet, depth, 1.0, out, 256, 256, &lent) == RIBALTZEN_PLANNED, "the length after 12 is enough");
    expect(lent.length == out && memcmp(lent.out, whole.out, out) == 0, "and the tape fills it");
}

/* Changed and cut sheets: a number from 0 to 12, a length for a plan and after 12, an offset within the sheet. */
static void test_hostile_bytes(void)
{
    struct bytes sound = sheet_of_every_kind(), sheet;
    struct lent lent;
    size_t round, changes, seen[13] = { 0 };
    for (round = 0; round < 20000; round++) {
        const size_t out = random_below(sizeof lent.out + 1), counts = random_below(102), marks = random_below(102);
        const uint32_t depth = (uint32_t)random_below(51);
        uint32_t number;
        sheet = sound;
        for (changes = random_below(4); changes > 0; changes--) {
            sheet.at[random_below(sheet.length)] = (uint8_t)random_below(256);
        }
        sheet.length -= random_below(8) == 0 ? random_below(sheet.length) : 0;
        number = plan_with(&sheet, depth, 1.0, out, counts, marks, &lent);
        expect(number <= 12, "the number is 0 to 12");
        seen[number <= 12 ? number : 0]++;
        expect(number < 1 || number > 11 || lent.length == 0, "numbers 1 to 11 have no length");
        expect(number != 12 || lent.length > out, "after 12 more than the lent output is needed");
        expect(number != 0 || (lent.length >= 62 && lent.length <= out), "a plan lies within the output");
        expect(lent.offset == 0 || (number >= 2 && number <= 6), "only numbers 2 to 6 have an offset");
        expect(lent.offset == 0 || lent.offset < sheet.length, "an offset lies within the sheet");
    }
    expect(seen[0] > 100 && seen[2] > 100 && seen[6] > 100, "plans and refused sheets come up");
    expect(seen[10] > 100 && seen[11] > 100 && seen[12] > 100, "refused depths, scratch and outputs come up");
}

void test_plan(void)
{
    struct bytes worked = worked_sheet(), of_every_kind = sheet_of_every_kind();
    test_worked_example();
    test_refusals();
    test_length_after_12(&worked, 1);
    test_length_after_12(&of_every_kind, 4);
    test_hostile_bytes();
}
