/* The records of a tape, for C programs: a cursor over the bytes that the library wrote, or that were stored.
 *
 *     struct ribaltzen_cursor cursor = ribaltzen_records(out, length);
 *     struct ribaltzen_record record;
 *     int more;
 *     while ((more = ribaltzen_next(&cursor, &record)) == 1) {
 *         switch (record.kind) { .. }
 *     }
 *     if (more != 0) { the tape is damaged at cursor.offset, and cursor.damage says how }
 *
 * Any bytes may be given, at any alignment: nothing is read past their length. A tape that the library wrote is never
 * damaged. One that was cut is, wherever it was cut: only totals, as the last record, end a tape well. So is one that a
 * version before 0.6 wrote, at its totals, which had six counts. Changed bytes in the body of a record cannot be told
 * from others.
 *
 * Nothing of the library is linked, and nothing is allocated.
 *
 * Licence: MIT, see LICENSE and NOTICE.
 */
#ifndef RIBALTZEN_TAPE_H
#define RIBALTZEN_TAPE_H

#include "ribaltzen.h"

#include <string.h>

/* ---- records: kinds 11 to 15 of docs/FORMATS.md */

enum ribaltzen_kind {
    RIBALTZEN_BATCH = 11,
    RIBALTZEN_TEXT = 12,
    RIBALTZEN_POINT = 13,
    RIBALTZEN_PROXY = 14,
    RIBALTZEN_TOTALS = 15
};

/* The label of a proxy that has none. */
#define RIBALTZEN_NO_LABEL ((uint32_t)0xFFFFFFFF)

/* A batch, by its number in the sheet, and where it is placed: its point (p, q) goes to
 * (x_axis * p + y_axis * q) + translation. */
struct ribaltzen_batch {
    uint32_t number;
    double x_axis[2], y_axis[2], translation[2];
};

/* A text, by its number in the sheet. */
struct ribaltzen_text {
    uint32_t number;
    double position[2];
};

/* A point of a node. */
struct ribaltzen_point {
    uint16_t layer, node_type;
    double position[2];
};

/* A part that shrank to a box, with the number of its cell or RIBALTZEN_NO_LABEL. */
struct ribaltzen_proxy {
    uint32_t label;
    double min_x, min_y, max_x, max_y;
};

/* The seven counts that close a plan. They stop at 2^64 - 1. */
struct ribaltzen_totals {
    uint64_t detail_cells, detail_objects;
    uint64_t culled_references, skipped_references;
    uint64_t culled_batches, skipped_batches;
    uint64_t dropped_proxies; /* boxes that met a full list, which has 100,000 */
};

/* The kind says which member of the union holds the record. */
struct ribaltzen_record {
    enum ribaltzen_kind kind;
    union {
        struct ribaltzen_batch batch;
        struct ribaltzen_text text;
        struct ribaltzen_point point;
        struct ribaltzen_proxy proxy;
        struct ribaltzen_totals totals;
    } of;
};

/* ---- damage: the first thing that is wrong, asked in this order */

enum ribaltzen_damage {
    RIBALTZEN_TAPE_SOUND = 0,     /* as far as it was read */
    RIBALTZEN_TAPE_BEHIND_TOTALS, /* bytes stand behind the totals */
    RIBALTZEN_TAPE_NO_TOTALS,     /* the bytes end where a record may, without totals */
    RIBALTZEN_TAPE_CUT_HEAD,      /* fewer than the 6 bytes of a head are left */
    RIBALTZEN_TAPE_UNKNOWN_KIND,  /* the kind is not 11 to 15 */
    RIBALTZEN_TAPE_WRONG_LENGTH,  /* the length is not that of the kind */
    RIBALTZEN_TAPE_CUT_RECORD     /* the head is right, and fewer bytes than the record's are left */
};

/* The same in words, for a message. */
static inline const char *ribaltzen_damage(enum ribaltzen_damage damage)
{
    switch (damage) {
    case RIBALTZEN_TAPE_SOUND: return "nothing wrong so far";
    case RIBALTZEN_TAPE_BEHIND_TOTALS: return "bytes behind the totals";
    case RIBALTZEN_TAPE_NO_TOTALS: return "an end without totals";
    case RIBALTZEN_TAPE_CUT_HEAD: return "a head that is cut short";
    case RIBALTZEN_TAPE_UNKNOWN_KIND: return "a record of an unknown kind";
    case RIBALTZEN_TAPE_WRONG_LENGTH: return "a record whose length is not that of its kind";
    case RIBALTZEN_TAPE_CUT_RECORD: return "a record that is cut short";
    }
    return "damage that this version does not know";
}

/* ---- the cursor */

/* To be read only: offset is where the next record starts, after damage where it was met, after the end the length. */
struct ribaltzen_cursor {
    const uint8_t *tape;
    size_t length, offset;
    enum ribaltzen_damage damage;
    int ended; /* the totals were read */
};

/* A cursor at the start of so many bytes, which stay as they are while it is used. */
static inline struct ribaltzen_cursor ribaltzen_records(const uint8_t *tape, size_t length)
{
    struct ribaltzen_cursor cursor;
    cursor.tape = tape;
    cursor.length = length;
    cursor.offset = 0;
    cursor.damage = RIBALTZEN_TAPE_SOUND;
    cursor.ended = 0;
    return cursor;
}

/* The length of a kind's records, 0 for an unknown kind. */
static inline size_t ribaltzen_record_length(uint64_t kind)
{
    switch (kind) {
    case RIBALTZEN_BATCH: return 58;
    case RIBALTZEN_TEXT: return 26;
    case RIBALTZEN_POINT: return 26;
    case RIBALTZEN_PROXY: return 42;
    case RIBALTZEN_TOTALS: return 62;
    default: return 0;
    }
}

/* What is wrong with the record at the cursor, before the totals. */
static inline enum ribaltzen_damage ribaltzen_damage_at(const struct ribaltzen_cursor *cursor)
{
    size_t left = cursor->length - cursor->offset, length;
    if (left < 6) {
        return left == 0 ? RIBALTZEN_TAPE_NO_TOTALS : RIBALTZEN_TAPE_CUT_HEAD;
    }
    length = ribaltzen_record_length(ribaltzen_field(cursor->tape + cursor->offset + 4, 2));
    if (length == 0) {
        return RIBALTZEN_TAPE_UNKNOWN_KIND;
    }
    if (ribaltzen_field(cursor->tape + cursor->offset, 4) != length) {
        return RIBALTZEN_TAPE_WRONG_LENGTH;
    }
    return left < length ? RIBALTZEN_TAPE_CUT_RECORD : RIBALTZEN_TAPE_SOUND;
}

static inline double ribaltzen_float(const uint8_t *at)
{
    uint64_t pattern = ribaltzen_field(at, 8);
    double value;
    memcpy(&value, &pattern, sizeof value);
    return value;
}

static inline void ribaltzen_pair(const uint8_t *at, double pair[2])
{
    pair[0] = ribaltzen_float(at);
    pair[1] = ribaltzen_float(at + 8);
}

static inline struct ribaltzen_totals ribaltzen_totals_at(const uint8_t *at)
{
    struct ribaltzen_totals totals;
    totals.detail_cells = ribaltzen_field(at, 8);
    totals.detail_objects = ribaltzen_field(at + 8, 8);
    totals.culled_references = ribaltzen_field(at + 16, 8);
    totals.skipped_references = ribaltzen_field(at + 24, 8);
    totals.culled_batches = ribaltzen_field(at + 32, 8);
    totals.skipped_batches = ribaltzen_field(at + 40, 8);
    totals.dropped_proxies = ribaltzen_field(at + 48, 8);
    return totals;
}

/* The fields of a whole record of a known kind, from its first byte on. What the kind does not use is zero: else
 * compilers warn of it where a caller's switch is inlined. */
static inline void ribaltzen_read(const uint8_t *at, struct ribaltzen_record *record)
{
    const uint64_t kind = ribaltzen_field(at + 4, 2);
    memset(record, 0, sizeof *record);
    record->kind = (enum ribaltzen_kind)kind;
    switch (record->kind) {
    case RIBALTZEN_BATCH:
        record->of.batch.number = (uint32_t)ribaltzen_field(at + 6, 4);
        ribaltzen_pair(at + 10, record->of.batch.x_axis);
        ribaltzen_pair(at + 26, record->of.batch.y_axis);
        ribaltzen_pair(at + 42, record->of.batch.translation);
        break;
    case RIBALTZEN_TEXT:
        record->of.text.number = (uint32_t)ribaltzen_field(at + 6, 4);
        ribaltzen_pair(at + 10, record->of.text.position);
        break;
    case RIBALTZEN_POINT:
        record->of.point.layer = (uint16_t)ribaltzen_field(at + 6, 2);
        record->of.point.node_type = (uint16_t)ribaltzen_field(at + 8, 2);
        ribaltzen_pair(at + 10, record->of.point.position);
        break;
    case RIBALTZEN_PROXY:
        record->of.proxy.label = (uint32_t)ribaltzen_field(at + 6, 4);
        record->of.proxy.min_x = ribaltzen_float(at + 10);
        record->of.proxy.min_y = ribaltzen_float(at + 18);
        record->of.proxy.max_x = ribaltzen_float(at + 26);
        record->of.proxy.max_y = ribaltzen_float(at + 34);
        break;
    case RIBALTZEN_TOTALS:
        record->of.totals = ribaltzen_totals_at(at + 6);
        break;
    }
}

/* Reads the next record: answers 1 and the record, 0 at the end of a whole tape, or -1 for damage. 0 and -1 leave
 * *record as it is, and every later call answers the same. */
static inline int ribaltzen_next(struct ribaltzen_cursor *cursor, struct ribaltzen_record *record)
{
    if (cursor->damage == RIBALTZEN_TAPE_SOUND && cursor->ended) {
        if (cursor->offset == cursor->length) {
            return 0;
        }
        cursor->damage = RIBALTZEN_TAPE_BEHIND_TOTALS;
    } else if (cursor->damage == RIBALTZEN_TAPE_SOUND) {
        cursor->damage = ribaltzen_damage_at(cursor);
    }
    if (cursor->damage != RIBALTZEN_TAPE_SOUND) {
        return -1;
    }
    ribaltzen_read(cursor->tape + cursor->offset, record);
    cursor->offset += ribaltzen_record_length(record->kind);
    cursor->ended = record->kind == RIBALTZEN_TOTALS;
    return 1;
}

#endif
