/* scene_open and scene_plan_with_finder, held to scene_plan and to a finder made here, every lent byte compared. Memory
 * is lent in blocks of its own, so that the sanitizers see a read or write past it. */
#include "test.h"

#include <stdlib.h>
#include <string.h>

/* ---- calls */

/* A block of so many bytes, filled with A5; not NULL even for none. */
static void *block(size_t bytes)
{
    void *memory = malloc(bytes > 0 ? bytes : 1);
    if (memory == NULL) {
        abort();
    }
    memset(memory, 0xa5, bytes);
    return memory;
}

/* A block with a list's first places. What stands past the list is filled as above. */
static uint32_t *block_of(const uint32_t *list, size_t listed, size_t places)
{
    uint32_t *memory = (uint32_t *)block(places * sizeof *memory);
    memcpy(memory, list, (listed < places ? listed : places) * sizeof *memory);
    return memory;
}

/* How much of each buffer is lent. */
struct room {
    size_t out, counts, marks;
};

/* What a call answered, and the memory after it. */
struct call {
    uint32_t number;
    size_t offset, length;
    uint8_t *out, *marks;
    uint64_t *counts;
};

static struct call lend(const struct room *room)
{
    struct call call = { 99, 99, 99, NULL, NULL, NULL };
    call.out = (uint8_t *)block(room->out);
    call.counts = (uint64_t *)block(room->counts * 8);
    call.marks = (uint8_t *)block(room->marks);
    return call;
}

static void give_back(struct call *call)
{
    free(call->out);
    free(call->counts);
    free(call->marks);
}

static struct call plan_without(const struct asked *asked, const struct room *room)
{
    struct call call = lend(room);
    call.number = scene_plan(asked->sheet, asked->sheet_length, asked->root, asked->depth, asked->view[0],
                             asked->view[1], asked->view[2], asked->view[3], asked->zoom, asked->hidden,
                             asked->hidden_length, call.out, room->out, call.counts, room->counts, call.marks,
                             room->marks, &call.offset, &call.length);
    return call;
}

static struct call plan_by(const struct asked *asked, const uint32_t *finder, size_t places, const struct room *room)
{
    struct call call = lend(room);
    call.number = scene_plan_with_finder(asked->sheet, asked->sheet_length, finder, places, asked->root, asked->depth,
                                         asked->view[0], asked->view[1], asked->view[2], asked->view[3], asked->zoom,
                                         asked->hidden, asked->hidden_length, call.out, room->out, call.counts,
                                         room->counts, call.marks, room->marks, &call.offset, &call.length);
    return call;
}

/* ---- what must come of them */

/* A finder that is made here. */
struct list {
    uint32_t *places;
    size_t length;
};

/* The sheet's own, kind by kind, each in the order in which its records stand; empty where heads are broken. */
static struct list own_finder(const uint8_t *sheet, size_t length)
{
    struct list own = { NULL, 0 };
    size_t kind, at, counts, marks;
    own.places = (uint32_t *)block(ribaltzen_places(length) * sizeof *own.places);
    if (ribaltzen_scratch(sheet, length, 0, &counts, &marks) != 0) {
        return own;
    }
    for (kind = 1; kind <= 5; kind++) {
        for (at = 0; at < length; at += (size_t)ribaltzen_field(sheet + at, 4)) {
            if (ribaltzen_field(sheet + at + 4, 2) == kind && own.length < ribaltzen_places(length)) {
                own.places[own.length++] = (uint32_t)at;
            }
        }
    }
    return own;
}

/* Whether questions 1 to 7 are answered with yes: then the number is that of a later one, or a plan's. */
static int is_of_a_sound_sheet(uint32_t number)
{
    return number == RIBALTZEN_PLANNED || number > RIBALTZEN_TOO_MANY_CELLS;
}

/* Plans with and without the finder. Returns whether the first was refused with 13. */
static int expect_outcome(const struct asked *asked, const struct list *own, const uint32_t *finder, size_t places,
                          const struct room *room)
{
    uint32_t *lent = block_of(finder, places, places);
    struct call with = plan_by(asked, lent, places, room), without = plan_without(asked, room);
    const int is_own = places >= own->length && memcmp(finder, own->places, own->length * sizeof *finder) == 0;
    const int is_refused = is_of_a_sound_sheet(without.number) && !is_own;
    if (is_refused) {
        expect(with.number == RIBALTZEN_WRONG_FINDER, "a finder that is not the sheet's own is refused with 13");
        expect(with.offset == 0 && with.length == 0, "13 has neither offset nor length");
        expect(all(with.out, room->out, 0), "13 zeroes all of the output");
        expect(all(with.counts, room->counts * 8, 0), "13 zeroes all counts");
        expect(all(with.marks, room->marks, 0), "13 zeroes all marks");
    } else {
        expect(with.number == without.number, "the number is scene_plan's");
        expect(with.offset == without.offset && with.length == without.length, "offset and length are scene_plan's");
        expect(memcmp(with.out, without.out, room->out) == 0, "the output is scene_plan's");
        expect(memcmp(with.counts, without.counts, room->counts * 8) == 0, "counts are scene_plan's");
        expect(memcmp(with.marks, without.marks, room->marks) == 0, "marks are scene_plan's");
    }
    expect(memcmp(lent, finder, places * sizeof *lent) == 0, "the finder is only read");
    free(lent);
    give_back(&with);
    give_back(&without);
    return is_refused;
}

/* Opens a sheet with so many places. The number and offset are those of scene_plan where it refuses the sheet. */
static void expect_opening(const struct asked *asked, const struct list *own, size_t places)
{
    static const struct room none = { 0, 0, 0 };
    struct call without = plan_without(asked, &none);
    uint32_t *finder = (uint32_t *)block(places * sizeof *finder);
    size_t offset = 99, answered = 99;
    uint32_t number = scene_open(asked->sheet, asked->sheet_length, finder, places, &offset, &answered);
    if (!is_of_a_sound_sheet(without.number)) {
        expect(number == without.number && offset == without.offset, "a refused sheet is not opened");
        expect(answered == 0, "1 to 7 have no places");
        expect(all(finder, places * sizeof *finder, 0xa5), "1 to 7 leave the finder as lent");
    } else if (places < own->length) {
        expect(number == RIBALTZEN_WRONG_FINDER && offset == 0, "a finder that is short is refused with 13");
        expect(answered == own->length, "13 says how many places would be enough");
        expect(all(finder, places * sizeof *finder, 0), "13 zeroes all of the finder");
    } else {
        expect(number == RIBALTZEN_OPENED && offset == 0, "a finder that is long enough is filled");
        expect(answered == own->length, "as many places are filled as there are records");
        expect(memcmp(finder, own->places, own->length * sizeof *finder) == 0, "by kind and then by number");
        expect(all(finder + own->length, (places - own->length) * sizeof *finder, 0xa5), "the rest is as lent");
    }
    free(finder);
    give_back(&without);
}

/* ---- finders that are not the sheet's own */

/* A place that is not what it was: off by one either way, past the sheet, any, or another's. */
static void change_place(uint32_t *finder, size_t places, const struct asked *asked)
{
    const size_t at = random_below(places), other = random_below(places);
    const uint32_t before = finder[at];
    switch (random_below(5)) {
    case 0: finder[at]++; break;
    case 1: finder[at]--; break;
    case 2: finder[at] = (uint32_t)(asked->sheet_length + random_below(3)); break;
    case 3: finder[at] = (uint32_t)(random_below((size_t)1 << 31) << 1); break;
    default:
        finder[at] = finder[other];
        finder[other] = before;
    }
}

/* Own, longer, one short, changed in a place, empty and random, in one amount of memory. */
static void expect_finders(const struct asked *asked, const struct list *own, const struct room *room)
{
    const size_t longer = own->length + 1 + random_below(4);
    uint32_t *finder = block_of(own->places, own->length, longer);
    expect_outcome(asked, own, own->places, own->length, room);
    expect_outcome(asked, own, finder, longer, room);
    expect_outcome(asked, own, finder, 0, room);
    if (own->length > 0) {
        expect_outcome(asked, own, finder, own->length - 1, room);
        change_place(finder, own->length, asked);
        expect_outcome(asked, own, finder, longer, room);
        finder[random_below(own->length)] = (uint32_t)random_below((size_t)1 << 31);
        expect_outcome(asked, own, finder, own->length, room);
    }
    free(finder);
}

int expect_finder(const struct asked *asked)
{
    static const struct room none = { 0, 0, 0 };
    struct list own = own_finder(asked->sheet, asked->sheet_length);
    struct call without = plan_without(asked, &none);
    const int is_sound = is_of_a_sound_sheet(without.number);
    size_t counts, marks;
    struct room room;
    expect_opening(asked, &own, own.length);
    expect_opening(asked, &own, own.length + 1 + random_below(4));
    expect_opening(asked, &own, random_below(own.length + 1));
    ribaltzen_scratch(asked->sheet, asked->sheet_length, asked->depth, &counts, &marks);
    ask(asked, 0, RIBALTZEN_MOST_COUNTS, RIBALTZEN_MOST_MARKS, &room.out);
    room.counts = counts;
    room.marks = marks;
    expect_finders(asked, &own, &room); /* what is needed */
    room.out = random_below(room.out + 8);
    room.counts = random_below(2) ? counts + 2 : random_below(counts + 1);
    room.marks = random_below(2) ? marks + 3 : random_below(marks + 1);
    expect_finders(asked, &own, &room);
    free(own.places);
    give_back(&without);
    return is_sound;
}

/* ---- sheets */

/* Eight records that stand in no order of kinds, and where: two batches, two texts, a node, a reference, two cells. */
static struct bytes mixed_sheet(void)
{
    static const double shape[4] = { 10.0, 10.0, 50.0, 60.0 }, points[6] = { 1.0, 2.0, 200.0, 2.0, 3.0, 4.0 };
    static const double origin[2] = { 70.0, 80.0 }, upright[2] = { 1.0, 0.0 };
    static const double small[4] = { 0.0, 0.0, 2.0, 3.0 }, whole[4] = { 0.0, 0.0, 200.0, 100.0 };
    static const uint16_t of_all[4] = { 2, 2, 1, 1 }, a_text[4] = { 0, 1, 0, 0 };
    struct bytes sheet = { { 0 }, 0 };
    put_cell(&sheet, whole, of_all);
    put_reference(&sheet, 1, origin, upright, small);
    put_text(&sheet, 2, 5.0, 6.0);
    put_batch(&sheet, 1, 1, shape);
    put_cell(&sheet, small, a_text);
    put_node(&sheet, 3, 9, points, 3);
    put_text(&sheet, 2, 7.0, 8.0);
    put_batch(&sheet, 4, 1, shape);
    return sheet;
}

static uint32_t mixed_places[8] = { 228, 418, 202, 392, 334, 80, 0, 274 };
static const struct list mixed = { mixed_places, 8 };

/* Room for the mixed sheet at depth 4, and more. */
static const struct room ample = { 400, 20, 20 };

static struct asked about(const struct bytes *sheet)
{
    static const uint32_t hidden[1] = { 7u * 65536u };
    struct asked asked = { NULL, 0, 0, 4, { 0.0, 0.0, 100.0, 100.0 }, 1.0, hidden, 1 };
    asked.sheet = sheet->at;
    asked.sheet_length = sheet->length;
    return asked;
}

/* ---- opening */

static void test_opening(void)
{
    struct bytes sheet = mixed_sheet(), empty = { { 0 }, 0 };
    struct asked asked = about(&sheet), nothing = about(&empty);
    struct list own = own_finder(sheet.at, sheet.length), none = { mixed_places, 0 };
    size_t places;
    expect(own.length == 8 && memcmp(own.places, mixed_places, sizeof mixed_places) == 0, "the mixed sheet's finder");
    for (places = 0; places <= 12; places++) {
        expect_opening(&asked, &mixed, places);
        expect_opening(&nothing, &none, places);
    }
    free(own.places);
}

/* Numbers 2 to 6 by one changed byte of the mixed sheet, with a finder that is long enough and with one that is short;
 * then planning, with the finder of the sheet before the change. */
static void test_refused_sheets(void)
{
    static const struct {
        size_t place, offset;
        uint8_t value;
        uint32_t number;
    } changes[5] = {
        { 418, 418, 47, RIBALTZEN_BROKEN_RECORD },   /* the last record's length */
        { 206, 202, 6, RIBALTZEN_WRONG_LENGTH },     /* a text's kind */
        { 87, 80, 0x80, RIBALTZEN_WRONG_FIELD },     /* the reference's columns: 32,769 */
        { 153, 80, 0x7f, RIBALTZEN_FLOAT_NOT_FINITE }, /* its magnification: infinite */
        { 56, 0, 2, RIBALTZEN_NUMBER_NOT_NAMED }     /* a batch in a cell's list */
    };
    size_t i, places;
    for (i = 0; i < 5; i++) {
        struct bytes sheet = mixed_sheet();
        struct asked asked = about(&sheet);
        struct call call;
        sheet.at[changes[i].place] = changes[i].value;
        call = plan_by(&asked, mixed_places, 8, &ample);
        expect(call.number == changes[i].number && call.offset == changes[i].offset, "the number that a change gets");
        give_back(&call);
        for (places = 0; places <= 8; places += 4) {
            expect_opening(&asked, &mixed, places);
            expect(!expect_outcome(&asked, &mixed, mixed_places, places, &ample), "13 is asked after 1 to 7");
        }
    }
}

/* Numbers 1 and 7, which need large sheets: a byte too many, and a bare cell too many; and the longest sheet, whose last
 * record then gets the longest length. */
static void test_large_sheets(void)
{
    static const uint32_t hidden[1] = { 0 };
    struct asked asked = { NULL, RIBALTZEN_MOST_SHEET + 1, 0, 0, { 0.0, 0.0, 1.0, 1.0 }, 1.0, hidden, 0 };
    uint8_t *sheet = (uint8_t *)calloc(RIBALTZEN_MOST_SHEET + 1, 1);
    struct list own;
    struct call call;
    size_t cells, last;
    if (sheet == NULL) {
        abort();
    }
    asked.sheet = sheet;
    expect(!expect_finder(&asked), "a sheet that is too long has no finder");
    for (cells = 0; cells <= RIBALTZEN_MOST_CELLS; cells++) {
        sheet[56 * cells] = 56;
        sheet[56 * cells + 4] = 5;
    }
    asked.sheet_length = 56 * cells;
    expect(!expect_finder(&asked), "a cell too many");
    asked.sheet_length -= 56;
    expect(expect_finder(&asked), "as many cells as there may be");
    for (cells = 0; cells < RIBALTZEN_MOST_PLACES; cells++) { /* texts, and the rest in the last one's value */
        memset(sheet + 26 * cells, 0, 26);
        sheet[26 * cells] = 26;
        sheet[26 * cells + 4] = 2;
    }
    sheet[26 * (cells - 1)] += (uint8_t)(RIBALTZEN_MOST_SHEET - 26 * cells);
    asked.sheet_length = RIBALTZEN_MOST_SHEET;
    own = own_finder(sheet, asked.sheet_length);
    expect(own.length == RIBALTZEN_MOST_PLACES, "as many records as there may be");
    expect(expect_finder(&asked), "the most places");
    last = 26 * (cells - 1);
    memset(sheet + last, 0xff, 4);
    call = plan_by(&asked, own.places, own.length, &ample);
    expect(call.number == RIBALTZEN_BROKEN_RECORD && call.offset == last, "a length of FFFFFFFF in the last record");
    give_back(&call);
    expect(!expect_finder(&asked), "a sheet with such a length has no finder");
    free(own.places);
    free(sheet);
}

/* ---- planning */

/* Own finders, of every longer and shorter length: only what is shorter is refused. */
static void test_lengths(const struct asked *asked)
{
    uint32_t *longer = block_of(mixed_places, 8, 12);
    size_t places;
    for (places = 0; places <= 12; places++) {
        expect(expect_outcome(asked, &mixed, longer, places, &ample) == (places < 8), "eight places are needed");
    }
    free(longer);
}

/* Each place alone changed, each two exchanged, all in the order of the records, and those of another sheet. */
static void test_other_places(const struct asked *asked)
{
    static const uint32_t in_order[8] = { 0, 80, 202, 228, 274, 334, 392, 418 };
    static const uint32_t of_every_kind[8] = { 0, 46, 72, 130, 252, 324, 0, 0 };
    uint32_t finder[8];
    size_t place, other, i;
    for (place = 0; place < 8; place++) {
        const uint32_t own = mixed_places[place];
        const uint32_t values[6] = { own + 1, own - 1, own ^ 0x01000000u, 464, UINT32_MAX, 0xa5a5a5a5u };
        memcpy(finder, mixed_places, sizeof finder);
        for (i = 0; i < 6; i++) {
            finder[place] = values[i];
            expect(expect_outcome(asked, &mixed, finder, 8, &ample), "one place differs");
        }
        for (other = 0; other < place; other++) {
            memcpy(finder, mixed_places, sizeof finder);
            finder[place] = mixed_places[other];
            expect(expect_outcome(asked, &mixed, finder, 8, &ample), "a place has another's offset");
            finder[other] = own;
            expect(expect_outcome(asked, &mixed, finder, 8, &ample), "two places are exchanged");
        }
    }
    expect(expect_outcome(asked, &mixed, in_order, 8, &ample), "offsets in the order of the records");
    expect(expect_outcome(asked, &mixed, of_every_kind, 8, &ample), "the finder of another sheet");
}

/* Queries and memory that numbers 8 to 12 refuse: so they are with the own finder, and with 13 with any other. */
static void test_later_questions(const struct asked *asked)
{
    static const struct room no_counts = { 400, 7, 20 }, no_marks = { 400, 20, 11 }, no_out = { 100, 20, 20 };
    const struct room *rooms[6] = { &ample, &ample, &ample, &no_counts, &no_marks, &no_out };
    static const uint32_t numbers[6] = { 8, 9, 10, 11, 11, 12 };
    size_t i;
    for (i = 0; i < 6; i++) {
        struct asked faulty = *asked;
        struct call call;
        faulty.view[0] = i == 0 ? 101.0 : 0.0;
        faulty.zoom = i == 1 ? 0.0 : 1.0;
        faulty.depth = i == 2 ? 49 : 4;
        call = plan_by(&faulty, mixed_places, 8, rooms[i]);
        expect(call.number == numbers[i], "the number that a fault gets");
        give_back(&call);
        expect(!expect_outcome(&faulty, &mixed, mixed_places, 8, rooms[i]), "the own finder is not refused");
        expect(expect_outcome(&faulty, &mixed, mixed_places, 7, rooms[i]), "13 is asked before 8 to 12");
    }
}

static void test_empty_sheet(void)
{
    static const struct list none = { mixed_places, 0 };
    struct bytes empty = { { 0 }, 0 };
    struct asked asked = about(&empty);
    expect(!expect_outcome(&asked, &none, mixed_places, 0, &ample), "an empty finder is an empty sheet's own");
    expect(!expect_outcome(&asked, &none, mixed_places, 8, &ample), "and so is any list");
}

/* The mixed sheet with one record moved to its end. */
static struct bytes moved_sheet(size_t record)
{
    static const size_t starts[9] = { 0, 80, 202, 228, 274, 334, 392, 418, 464 };
    const size_t start = starts[record], end = starts[record + 1];
    struct bytes sound = mixed_sheet(), sheet = sound;
    memcpy(sheet.at + start, sound.at + end, sound.length - end);
    memcpy(sheet.at + sound.length - (end - start), sound.at + start, end - start);
    return sheet;
}

/* Sheets with moved records and changed bytes, with the finder of the sheet as it was and with their own. */
static void test_changed_sheets(void)
{
    size_t round, refused = 0, accepted = 0;
    for (round = 0; round < 5000; round++) {
        struct bytes sheet = moved_sheet(random_below(8));
        struct asked asked = about(&sheet);
        struct list own;
        if (round % 2 == 0) {
            sheet.at[random_below(sheet.length)] = (uint8_t)random_below(256);
        }
        asked.depth = (uint32_t)random_below(5);
        own = own_finder(sheet.at, sheet.length);
        refused += (size_t)expect_outcome(&asked, &own, mixed_places, 8, &ample);
        accepted += (size_t)expect_finder(&asked);
        free(own.places);
    }
    expect(refused > 2000 && refused < accepted && accepted < 4900, "former finders are refused, and some sheets");
}

void test_finder(void)
{
    struct bytes sheet = mixed_sheet();
    struct asked asked = about(&sheet);
    struct call call = plan_by(&asked, mixed_places, 8, &ample);
    expect(call.number == RIBALTZEN_PLANNED && call.length == 2 * 58 + 4 * 26 + 42 + 62, "records of every kind");
    give_back(&call);
    expect(RIBALTZEN_MOST_PLACES == 645277, "the most places");
    test_opening();
    test_refused_sheets();
    test_large_sheets();
    test_lengths(&asked);
    test_other_places(&asked);
    test_later_questions(&asked);
    test_empty_sheet();
    test_changed_sheets();
}
