/* Ribaltzen: the scene planner for C programs.
 *
 * Link crates/planner_c/out/libplanner_c.a, which `tools/built planner_c` makes (x86-64 Linux). Its three functions are
 * proved to end, to read and write only what is lent, and to answer as documents 01 and 02 say, for any bytes, any
 * query and any lent memory. That proof is about callers that keep to this page. The inline functions here and in
 * ribaltzen_tape.h, which reads a tape, are tested, not proved.
 *
 *   scene_open               once for each sheet: lists where its records stand, in a finder
 *   scene_plan_with_finder   then once for each view
 *   scene_plan               the same plan without a finder: it walks the records for each number that it looks up, so
 *                            plans of large sheets take long (docs/FIGURES.md)
 *
 * docs/FORMATS.md has the formats of sheet, finder and tape. example.c, beside this file, is a whole program.
 *
 * Licence: MIT, see LICENSE and NOTICE.
 */
#ifndef RIBALTZEN_H
#define RIBALTZEN_H

#include <stddef.h>
#include <stdint.h>

#ifdef __cplusplus
extern "C" {
#endif

#define RIBALTZEN_VERSION_MAJOR 0
#define RIBALTZEN_VERSION_MINOR 7
#define RIBALTZEN_VERSION_PATCH 0
#define RIBALTZEN_VERSION "0.7.0"

/* What the functions return: 0, else the refusal's number. ribaltzen_refusal has the question answered "no". */
enum {
    RIBALTZEN_PLANNED = 0,
    RIBALTZEN_OPENED = 0, /* of scene_open */
    RIBALTZEN_SHEET_TOO_LONG = 1,
    RIBALTZEN_BROKEN_RECORD = 2,
    RIBALTZEN_WRONG_LENGTH = 3,
    RIBALTZEN_WRONG_FIELD = 4,
    RIBALTZEN_FLOAT_NOT_FINITE = 5,
    RIBALTZEN_NUMBER_NOT_NAMED = 6,
    RIBALTZEN_TOO_MANY_CELLS = 7, /* asked before number 6 */
    RIBALTZEN_BAD_VIEW = 8,
    RIBALTZEN_BAD_ZOOM = 9,
    RIBALTZEN_TOO_DEEP = 10,
    RIBALTZEN_SCRATCH_TOO_SHORT = 11,
    RIBALTZEN_OUTPUT_TOO_SHORT = 12,
    RIBALTZEN_WRONG_FINDER = 13 /* asked after number 6 and before 8, where a finder is lent */
};

/* What the caller of each function owes, for nothing tests it:
 *
 *   - Each pointer with a length points to that many elements, and is not NULL even where the length is 0: any address
 *     of the right alignment will do there. offset, length and places point to one size_t each.
 *   - finder and hidden are aligned as uint32_t, counts as uint64_t, offset, length and places as size_t; sheet, out
 *     and marks as bytes.
 *   - What a call writes overlaps nothing else that it is lent.
 *   - No other thread writes any of these during the call, or reads what the call writes. Calls at the same time may
 *     share what they only read: the library keeps no state.
 *   - The float environment is as the system sets it: round to nearest, no flushing, no traps. That is MXCSR, a
 *     register of each thread, with rounding control 0, flush-to-zero and denormals-are-zero clear, and all exceptions
 *     masked. Under another rounding or with flushing a call can give another plan, and nothing says so: test_floats.c
 *     shows each. A program that was linked with -ffast-math, or loads a library that was, may start with flushing set.
 *   - No length is above PTRDIFF_MAX bytes, which no real object is.
 *   - The thread has 192 KiB of stack left: no proof covers the stack. docs/FORMATS.md has what was measured.
 *
 * How long a plan takes is not bounded by anything useful, with a finder or without: every call ends, but a small sheet
 * can name a very large number of members to visit. A host that opens strangers' sheets plans on a thread or process
 * that it can end.
 */

/* Plans one sheet.
 *
 *   sheet, hidden         read only
 *   root, depth, min_x, min_y, max_x, max_y, zoom
 *                         the query; a hidden layer is layer * 65536 + data type (for a node its node type)
 *   out                   takes the tape
 *   counts, marks         scratch: cells * depth places and cells * (depth + 2) bytes of it are named, that is used;
 *                         what they hold before the call does not matter
 *   *offset               written by every call: the offset of the refused record (numbers 2 to 6), else 0
 *   *length               written by every call: see below
 *
 * Returns 0 and the plan's tape in out[0 .. *length), or the number of the refusal. After the call:
 *
 *   number    *length                  out                       counts and marks
 *   1 to 11   0                        as lent                   as lent
 *   12        what would be enough     all zero, to its end      the named places zero, the rest as lent
 *   0         the tape's               the tape, then as lent    the named places zero, the rest as lent
 *
 * "Enough" is exact: the same call with an output of that many bytes is planned, and its tape fills it. A call with no
 * output so asks for the length, at the cost of a whole plan.
 */
uint32_t scene_plan(const uint8_t *sheet, size_t sheet_length,
                    uint32_t root, uint32_t depth,
                    double min_x, double min_y, double max_x, double max_y, double zoom,
                    const uint32_t *hidden, size_t hidden_length,
                    uint8_t *out, size_t out_length,
                    uint64_t *counts, size_t counts_length,
                    uint8_t *marks, size_t marks_length,
                    size_t *offset, size_t *length);

/* Opens a sheet: fills its finder, for scene_plan_with_finder.
 *
 *   sheet                 read only
 *   finder                takes the records' offsets: all batches in order of number, then texts, nodes, references and
 *                         cells; ribaltzen_places says how many places are enough
 *   *offset               written by every call, as by scene_plan
 *   *places               written by every call: see below
 *
 * Returns 0 and the sheet's own finder in finder[0 .. *places), or one of the numbers 1 to 7 and 13. After the call:
 *
 *   number    *places                          finder
 *   1 to 7    0                                as lent
 *   13        the sheet's number of records    all zero, to its end
 *   0         the sheet's number of records    the offsets, then as lent
 *
 * Number 13 is given just where the finder has fewer places than the sheet has records. A call with no places so asks
 * for their number. An empty sheet has an empty finder.
 */
uint32_t scene_open(const uint8_t *sheet, size_t sheet_length,
                    uint32_t *finder, size_t finder_length,
                    size_t *offset, size_t *places);

/* Plans one sheet with a finder: no look-up by number walks the records.
 *
 * finder is read only; what else is lent is as for scene_plan. If the finder begins with the sheet's own, as scene_open
 * fills it, the call answers and leaves all memory as scene_plan does; what stands behind does not matter. With any
 * other, too short or different in one place, it is refused, which is asked after number 6 and before 8:
 *
 *   number    *length                  out                       counts and marks
 *   13        0                        all zero, to its end      all zero, to their ends
 *
 * So a finder need not be trusted, be it stored, of another sheet or of what the sheet was before a change: the answer
 * is the plan of the lent bytes, or 13. For that each call asks the whole sheet and compares the finder with it, in a
 * time that grows with the bytes alone.
 */
uint32_t scene_plan_with_finder(const uint8_t *sheet, size_t sheet_length,
                                const uint32_t *finder, size_t finder_length,
                                uint32_t root, uint32_t depth,
                                double min_x, double min_y, double max_x, double max_y, double zoom,
                                const uint32_t *hidden, size_t hidden_length,
                                uint8_t *out, size_t out_length,
                                uint64_t *counts, size_t counts_length,
                                uint8_t *marks, size_t marks_length,
                                size_t *offset, size_t *length);

/* Limits of a sheet and a query, and sizes that are always enough: no accepted sheet has more records, no plan has a
 * longer tape, and no accepted sheet and depth name more scratch. */
#define RIBALTZEN_MOST_SHEET ((size_t)16777216) /* bytes */
#define RIBALTZEN_LEAST_RECORD ((size_t)26)     /* bytes: a text without a value, a node of one point */
#define RIBALTZEN_MOST_PLACES (RIBALTZEN_MOST_SHEET / RIBALTZEN_LEAST_RECORD) /* of a finder: 645,277 */
#define RIBALTZEN_MOST_CELLS ((size_t)4096)
#define RIBALTZEN_MOST_DEPTH ((uint32_t)48)
#define RIBALTZEN_MOST_TAPE ((size_t)5360062) /* bytes: 100,000 proxies, 20,000 batches and the totals; no tape is
                                                 longer: theorem tape-at-most (crates/totals) */
#define RIBALTZEN_MOST_COUNTS (RIBALTZEN_MOST_CELLS * RIBALTZEN_MOST_DEPTH)      /* places of 64 bits */
#define RIBALTZEN_MOST_MARKS (RIBALTZEN_MOST_CELLS * (RIBALTZEN_MOST_DEPTH + 2)) /* bytes */

/* The question that a number answers "no" to, in the words of docs/FORMATS.md. */
static inline const char *ribaltzen_refusal(uint32_t number)
{
    switch (number) {
    case RIBALTZEN_PLANNED: return "not refused";
    case RIBALTZEN_SHEET_TOO_LONG: return "Is the sheet at most 16,777,216 bytes?";
    case RIBALTZEN_BROKEN_RECORD: return "Are 6 bytes left, and is the length at least 6 and within the sheet?";
    case RIBALTZEN_WRONG_LENGTH: return "Is the kind 1 to 5, and the length right for it, a cell's counts included?";
    case RIBALTZEN_WRONG_FIELD:
        return "Are columns and rows at most 32,767, spare flag bits 0, absent boxes 0, the source kind 1 to 5, "
               "a cell source below FFFFFFFF?";
    case RIBALTZEN_FLOAT_NOT_FINITE: return "Is every float finite?";
    case RIBALTZEN_NUMBER_NOT_NAMED:
        return "Does every number name a record that is there, and a reference source an earlier one?";
    case RIBALTZEN_TOO_MANY_CELLS: return "Are there at most 4,096 cells?";
    case RIBALTZEN_BAD_VIEW: return "Is the view finite, min at most max?";
    case RIBALTZEN_BAD_ZOOM: return "Is zoom finite and above 0?";
    case RIBALTZEN_TOO_DEEP: return "Is depth at most 48?";
    case RIBALTZEN_SCRATCH_TOO_SHORT: return "Are both scratch areas large enough?";
    case RIBALTZEN_OUTPUT_TOO_SHORT: return "Does the whole tape fit the lent output?";
    case RIBALTZEN_WRONG_FINDER: return "Is the finder long enough and, when planning, the sheet's own?";
    default: return "a number that this version does not know";
    }
}

/* A field of a sheet or tape: the little-endian number in so many bytes, at most 8, at an address of any alignment. */
static inline uint64_t ribaltzen_field(const uint8_t *at, size_t bytes)
{
    uint64_t value = 0;
    while (bytes > 0) {
        bytes--;
        value = value << 8 | at[bytes];
    }
    return value;
}

/* Places of a finder that are enough for a sheet of so many bytes. A sheet that is too long is refused with any. */
static inline size_t ribaltzen_places(size_t sheet_length)
{
    return sheet_length < RIBALTZEN_MOST_SHEET ? sheet_length / RIBALTZEN_LEAST_RECORD : RIBALTZEN_MOST_PLACES;
}

/* The scratch that a sheet and a depth need: *counts places of 64 bits and *marks bytes, by one pass over the records.
 *
 * Returns 0 and the sizes, or one of the numbers 1, 2, 7 and 10 and sizes 0: a plan is then refused too, whatever
 * scratch is lent, with that number or that of a question asked before it. Only the records' heads are looked at, so
 * after 0 a call may still be refused, but with scratch of these sizes never with 11. More is named at a greater depth:
 * who plans many views asks once, for the greatest. A size may be 0: malloc(0) may be NULL, which no function takes. */
static inline uint32_t ribaltzen_scratch(const uint8_t *sheet, size_t sheet_length, uint32_t depth,
                                         size_t *counts, size_t *marks)
{
    size_t at = 0, cells = 0;
    *counts = 0;
    *marks = 0;
    if (sheet_length > RIBALTZEN_MOST_SHEET) {
        return RIBALTZEN_SHEET_TOO_LONG;
    }
    while (at < sheet_length) {
        size_t left = sheet_length - at;
        size_t record = left < 6 ? 0 : (size_t)ribaltzen_field(sheet + at, 4);
        if (record < 6 || record > left) {
            return RIBALTZEN_BROKEN_RECORD;
        }
        cells += ribaltzen_field(sheet + at + 4, 2) == 5;
        at += record;
    }
    if (cells > RIBALTZEN_MOST_CELLS) {
        return RIBALTZEN_TOO_MANY_CELLS;
    }
    if (depth > RIBALTZEN_MOST_DEPTH) {
        return RIBALTZEN_TOO_DEEP;
    }
    *counts = cells * depth;
    *marks = cells * (depth + 2);
    return RIBALTZEN_PLANNED;
}

#ifdef __cplusplus
}
#endif

#endif
