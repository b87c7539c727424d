/* What the files of the headers' test share: expectations, sheets by docs/FORMATS.md, and calls on lent memory.
 * They are C99 and C++ at once, so that the headers are tried in both. */
#ifndef RIBALTZEN_TEST_H
#define RIBALTZEN_TEST_H

#include "ribaltzen.h"

/* ---- test.c */

/* Says what does not hold, and fails the test. */
void expect(int holds, const char *what);

/* Whether all bytes have a value. */
int all(const void *from, size_t bytes, uint8_t value);

/* A pseudo-random number below a bound, from a fixed seed. */
size_t random_below(size_t bound);

/* ---- test_sheets.c */

/* A sheet or a tape that is being written. */
struct bytes {
    uint8_t at[2048];
    size_t length;
};

/* A little-endian number, a float, and a record's head, behind what is there. */
void put(struct bytes *to, uint64_t value, size_t bytes);
void put_float(struct bytes *to, double value);
void put_head(struct bytes *to, size_t length, uint16_t kind);

/* Records of a sheet. A reference places cell `cell` once, turned by cos and sin, and has its box. */
void put_batch(struct bytes *to, uint16_t layer, uint32_t elements, const double bbox[4]);
void put_text(struct bytes *to, uint16_t layer, double x, double y);
void put_node(struct bytes *to, uint16_t layer, uint16_t node_type, const double *points, size_t count);
void put_reference(struct bytes *to, uint32_t cell, const double origin[2], const double cos_sin[2],
                   const double bbox[4]);

/* A cell with one direct draw unit and a box, that holds `counts` numbers, 0 and up, of each kind. */
void put_cell(struct bytes *to, const double bbox[4], const uint16_t counts[4]);

/* "Cell 0 has box 0, 0, 100, 100 and one text at (10, 20), layer 1", and its tape. */
struct bytes worked_sheet(void);
struct bytes worked_tape(void);

/* A sheet with a batch, a text, a node and a reference to a small cell: its tape at depth 4 has each kind of record. */
struct bytes sheet_of_every_kind(void);

/* ---- test_plan.c */

/* Memory to lend, more than the sheets here need, and what a call answered in it. */
struct lent {
    uint8_t out[512];
    uint64_t counts[256];
    uint8_t marks[256];
    size_t offset, length;
};

/* Calls scene_plan on cell 0 with the view 0, 0, 100, 100, all memory filled with A5 and so much of it lent. */
uint32_t plan_with(const struct bytes *sheet, uint32_t depth, double zoom, size_t out, size_t counts, size_t marks,
                   struct lent *lent);

/* The same with all of the memory. */
uint32_t plan(const struct bytes *sheet, uint32_t depth, double zoom, struct lent *lent);

/* ---- test_scratch.c */

/* What is asked: a sheet and a query. */
struct asked {
    const uint8_t *sheet;
    size_t sheet_length;
    uint32_t root, depth;
    double view[4], zoom;
    const uint32_t *hidden;
    size_t hidden_length;
};

/* Calls scene_plan with so much memory, at most the sizes that are always enough. */
uint32_t ask(const struct asked *asked, size_t out, size_t counts, size_t marks, size_t *length);

/* Holds the sizes that ribaltzen_scratch gives to scene_plan. Returns whether the call is accepted. */
int expect_scratch(const struct asked *asked);

/* ---- test_finder.c */

/* Holds scene_open and scene_plan_with_finder to scene_plan and to ribaltzen.h on what is asked, with the sheet's own
 * finder and with others, every lent byte compared. Returns whether the sheet has a finder. */
int expect_finder(const struct asked *asked);

/* ---- the tests, one for each file */

void test_plan(void);
void test_words(const char *cargo, const char *formats);
void test_scratch(void);
void test_finder(void);
void test_depth(void);
void test_stored(const char *cases);
void test_tape(void);
void test_damage(void);
void test_full(void);
void test_floats(void);

#endif
