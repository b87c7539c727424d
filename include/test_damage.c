/* ribaltzen_tape.h on tapes that were cut, changed or continued, and on bytes that never were a tape. */
#include "ribaltzen_tape.h"
#include "test.h"

#include <stdlib.h>

/* How a tape was read: its records, and how it ended. */
struct reading {
    size_t records, offset;
    int end;
    enum ribaltzen_damage damage;
};

/* Reads bytes that start at an odd address and end with their block, so that the sanitizers see any other read. */
static struct reading read_all(const uint8_t *bytes, size_t length)
{
    uint8_t *block = (uint8_t *)malloc(length + 1);
    struct ribaltzen_cursor cursor;
    struct ribaltzen_record record, last;
    struct reading reading = { 0, 0, 0, RIBALTZEN_TAPE_SOUND };
    if (block == NULL) {
        abort();
    }
    memcpy(block + 1, bytes, length);
    cursor = ribaltzen_records(block + 1, length);
    memset(&record, 0, sizeof record);
    while ((reading.end = ribaltzen_next(&cursor, &record)) == 1) {
        reading.records++;
    }
    reading.offset = cursor.offset;
    reading.damage = cursor.damage;
    memcpy(&last, &record, sizeof last);
    expect(ribaltzen_next(&cursor, &record) == reading.end, "a later call answers the same");
    expect(cursor.offset == reading.offset && cursor.damage == reading.damage, "and stays where it is");
    expect(memcmp(&last, &record, sizeof last) == 0, "and leaves the record");
    expect((reading.end == 0) == (reading.damage == RIBALTZEN_TAPE_SOUND), "-1 has damage, 0 has none");
    expect(reading.offset <= length && (reading.end != 0 || reading.offset == length), "the end is the length");
    free(block);
    return reading;
}

static void expect_reading(const uint8_t *bytes, size_t length, size_t records, size_t offset,
                           enum ribaltzen_damage damage)
{
    struct reading reading = read_all(bytes, length);
    expect(reading.records == records && reading.offset == offset, "damage is found where it is");
    expect(reading.damage == damage, ribaltzen_damage(damage));
}

/* What a changed byte of a record's head does: texts and points alone have the same length. */
static enum ribaltzen_damage damage_of(size_t place, const uint8_t *record)
{
    uint64_t kind = ribaltzen_field(record + 4, 2);
    if (place < 4) {
        return RIBALTZEN_TAPE_WRONG_LENGTH;
    }
    if (kind < 11 || kind > 15) {
        return RIBALTZEN_TAPE_UNKNOWN_KIND;
    }
    return record[0] == 26 && (kind == 12 || kind == 13) ? RIBALTZEN_TAPE_SOUND : RIBALTZEN_TAPE_WRONG_LENGTH;
}

/* Every prefix of a tape, and every change of one byte to any other. */
static void test_cut_and_changed(const uint8_t *tape, size_t length)
{
    static const size_t lengths[6] = { 58, 26, 26, 26, 42, 62 }; /* a batch, a text, two points, a proxy, the totals */
    size_t at = 0, index, place, value;
    for (index = 0; index < 6; index++) {
        for (place = 0; place < lengths[index]; place++) {
            expect_reading(tape, at + place, index, at,
                           place == 0  ? RIBALTZEN_TAPE_NO_TOTALS
                           : place < 6 ? RIBALTZEN_TAPE_CUT_HEAD
                                       : RIBALTZEN_TAPE_CUT_RECORD);
            for (value = 1; value < 256; value++) {
                uint8_t other[512];
                enum ribaltzen_damage damage;
                memcpy(other, tape, length);
                other[at + place] ^= (uint8_t)value;
                damage = place < 6 ? damage_of(place, other + at) : RIBALTZEN_TAPE_SOUND;
                if (damage == RIBALTZEN_TAPE_SOUND) {
                    expect_reading(other, length, 6, length, damage);
                } else {
                    expect_reading(other, length, index, at, damage);
                }
            }
        }
        at += lengths[index];
    }
    expect(at == length, "the tape has these records");
    expect_reading(tape, length, 6, length, RIBALTZEN_TAPE_SOUND);
}

/* Bytes behind the totals, be they a byte, a head or a whole tape; and no bytes at all. */
static void test_other_ends(const uint8_t *tape, size_t length)
{
    uint8_t twice[1024];
    size_t more;
    struct ribaltzen_cursor nothing = ribaltzen_records(NULL, 0);
    struct ribaltzen_record record;
    memcpy(twice, tape, length);
    memcpy(twice + length, tape, length);
    for (more = 1; more <= length; more++) {
        expect_reading(twice, length + more, 6, length, RIBALTZEN_TAPE_BEHIND_TOTALS);
    }
    expect(ribaltzen_next(&nothing, &record) == -1, "no bytes are no tape");
    expect(nothing.damage == RIBALTZEN_TAPE_NO_TOTALS, "no bytes have no totals");
}

/* Up to 12 records with random bodies, most heads right and the last mostly totals. */
static struct bytes hostile_tape(void)
{
    static const size_t lengths[5] = { 58, 26, 26, 42, 62 };
    struct bytes tape = { { 0 }, 0 };
    size_t left = random_below(12), kind, end;
    do {
        const size_t start = tape.length;
        kind = left == 0 && random_below(4) > 0 ? 4 : random_below(4);
        put_head(&tape, lengths[kind], (uint16_t)(11 + kind));
        for (end = start + lengths[kind]; tape.length < end;) {
            put(&tape, random_below(256), 1);
        }
        if (random_below(30) == 0) {
            tape.at[start + random_below(6)] = (uint8_t)random_below(256);
        }
    } while (left-- > 0);
    return tape;
}

/* The reading of any bytes ends, and only whole records were read. All sorts of damage come up. */
static void test_hostile_tapes(void)
{
    size_t round, i, seen[7] = { 0 };
    for (round = 0; round < 50000; round++) {
        struct bytes tape = hostile_tape();
        struct reading reading;
        for (i = 0; round % 10 == 0 && i < tape.length; i++) {
            tape.at[i] = (uint8_t)random_below(256); /* no record at all */
        }
        if (round % 3 == 0) {
            tape.length = random_below(tape.length);
        } else if (round % 3 == 1) {
            put(&tape, random_below(256), 1);
        }
        reading = read_all(tape.at, tape.length);
        seen[reading.damage]++;
        expect(reading.records <= reading.offset / 26, "a record has at least 26 bytes");
    }
    for (i = 0; i < 7; i++) {
        expect(seen[i] > 100, ribaltzen_damage((enum ribaltzen_damage)i));
    }
}

void test_damage(void)
{
    struct bytes sheet = sheet_of_every_kind();
    struct lent lent;
    expect(plan(&sheet, 4, 1.0, &lent) == RIBALTZEN_PLANNED && lent.length == 240, "a tape to damage");
    test_cut_and_changed(lent.out, lent.length);
    test_other_ends(lent.out, lent.length);
    test_hostile_tapes();
}
