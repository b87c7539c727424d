/* The stack that a call of each function takes: bench/stack/run. A thread's stack is filled with one byte beforehand, and the bytes
 * that the call changed are counted from the deepest on, less those of a thread that does nothing.
 *
 * Each sheet is a descent to the greatest depth. The root is at depth 48, and each of 47 steps is a reference to a cell or to an
 * inner reference, one depth below. The end, at depth 1, is a cell with an item, an item that the last reference places, or a cell
 * with one more reference, which is boxed. In the last shape only the first cells are visited, and the draw units of all below are
 * counted from there. */
#include <pthread.h>
#include <stdio.h>
#include <stdlib.h>
#include <string.h>
#include "../../include/ribaltzen.h"

enum { DEPTH = (int)RIBALTZEN_MOST_DEPTH, STEPS = DEPTH - 1, CELLS = 2 * DEPTH, STACK = 1 << 19, FILL = 0xa5 };
static uint8_t stack[STACK] __attribute__((aligned(4096)));

/* ---- records of a sheet */

static uint8_t sheet[1 << 16];
static size_t end;
static uint32_t cells, references, root;

/* Sheets are upright, of lone members and with few draw units, or turned, of two members, one of them out of view, and with 2^40. */
static int is_plain;

static void put(unsigned width, uint64_t n) { while (width--) { sheet[end++] = (uint8_t)n; n >>= 8; } }
static void put_float(double x) { uint64_t n; memcpy(&n, &x, 8); put(8, n); }
static void put_head(unsigned length, unsigned kind) { put(4, length); put(2, kind); }
static void put_box(double side) { put_float(0); put_float(0); put_float(side); put_float(side); }
static void put_batch(double side) { put_head(46, 1); put(4, 1); put(4, 1); put_box(side); }
static void put_point(double x) { put_float(x); put_float(20); }

/* batches 0, of 1000 x 1000, and 1, whose sides are infinite on the screen; text 0; node 0, of two points */
static void put_items(void) {
    put_batch(1000);
    put_batch(1e308);
    put_head(26, 2); put(4, 1); put_point(10);
    put_head(42, 3); put(4, 1); put_point(10); put_point(30);
}

/* A reference without a source box is not visited, but its draw units count. */
static void put_reference(unsigned source_kind, uint32_t source, int has_box) {
    put_head(122, 4);
    put(2, is_plain ? 1 : 2); put(2, 1); put(2, has_box ? 2 : 0); put(2, source_kind); put(4, source);
    put_float(is_plain ? 0 : 0.1); put_float(0); put_float(is_plain ? 0 : 1e7);
    for (int i = 0; i < 3; i++) put_float(0);
    put_float(1); put_float(is_plain ? 1 : 0.6); put_float(is_plain ? 0 : 0.8);
    put_box(has_box ? 1000 : 0);
    references++;
}

/* a cell with so many numbers of a kind */
static void put_cell(unsigned kind, unsigned count, const uint32_t *numbers) {
    put_head(56 + 4 * count, 5);
    put(2, 1); put(8, is_plain ? 1 : (uint64_t)1 << 40); put_box(1000);
    for (unsigned i = 1; i <= 4; i++) put(2, i == kind ? count : 0);
    for (unsigned i = 0; i < count; i++) put(4, numbers[i]);
    cells++;
}

static void put_cell_of(unsigned kind, uint32_t number) { put_cell(kind, 1, &number); }

/* ---- descents */

enum { ITEMS = 4, ENDS = 2 * ITEMS + 1 };
static const unsigned item_kinds[ITEMS] = {1, 1, 2, 3}, item_numbers[ITEMS] = {0, 1, 0, 0};
static const char *const end_names[ENDS] = {
    "batch in a cell", "infinite batch in a cell", "text in a cell", "node in a cell",
    "batch", "infinite batch", "text", "node", "box",
};

static void start(void) { end = cells = references = 0; put_items(); }

/* A descent of so many steps: is_cell says which of them, but for the last, lead to a cell. Records stand from the end up, since an
 * inner reference stands before the one that places it. */
static void make_descent(unsigned steps, const int *is_cell, unsigned last) {
    int next_is_cell = last < ITEMS || last == 2 * ITEMS;
    start();
    if (last == 2 * ITEMS) { put_reference(5, CELLS, 1); put_cell_of(4, 0); }
    else if (next_is_cell) put_cell_of(item_kinds[last], item_numbers[last]);
    for (unsigned step = steps; step > 0; step--) {
        if (step < steps) next_is_cell = is_cell[step];
        if (step == steps && !next_is_cell) put_reference(item_kinds[last - ITEMS], item_numbers[last - ITEMS], 1);
        else put_reference(next_is_cell ? 5 : 4, next_is_cell ? cells - 1 : references - 1, 1);
        if (step == 1 || is_cell[step - 1]) put_cell_of(4, references - 1);
    }
    root = cells - 1;
}

/* Cells 0 to visited - 1, each in the one before, and the last has cell 1. Cell 1 also has a chain of cells that are only counted. The
 * visit of the last reference counts them at depths at which no count is remembered: the first count met cell 1 in a circle. */
static void make_counted(unsigned visited, unsigned counted) {
    start();
    for (uint32_t cell = 0; cell < visited; cell++) put_reference(5, cell + 1 < visited ? cell + 1 : 1, 1);
    for (uint32_t cell = 0; cell < counted; cell++) put_reference(5, visited + cell, 0);
    for (uint32_t cell = 0; cell < visited + counted; cell++) {
        const uint32_t numbers[2] = {cell < visited ? cell : cell + 1, visited};
        if (cell + 1 < visited + counted) put_cell(4, cell == 1 ? 2 : 1, numbers);
        else put_cell_of(2, 0);
    }
    root = 0;
}

/* ---- calls */

enum { PLACES = 1 << 10 };
static uint8_t out[1 << 12], marks[CELLS * (DEPTH + 2)];
static uint64_t counts[CELLS * DEPTH];
static uint32_t finder[PLACES];
static const uint32_t hidden[1];

/* what the last call answered: the length of the tape, or the places that were filled in */
static uint32_t number;
static size_t offset, length, places;

#define VIEW -1e6, -1e6, 1e6, 1e6, is_plain ? 1 : 1e9
#define LENT hidden, 0, out, sizeof out, counts, CELLS * DEPTH, marks, sizeof marks, &offset, &length

static void *idle(void *a) { return a; }
static void *open_it(void *a) { number = scene_open(sheet, end, finder, PLACES, &offset, &places); return a; }
static void *plan(void *a) { number = scene_plan(sheet, end, root, DEPTH, VIEW, LENT); return a; }
static void *plan_with_finder(void *a) {
    number = scene_plan_with_finder(sheet, end, finder, places, root, DEPTH, VIEW, LENT);
    return a;
}

/* how many bytes of a thread's stack a body changes; it must be accepted */
static size_t taken(void *(*body)(void *)) {
    pthread_attr_t attributes; pthread_t thread;
    memset(stack, FILL, STACK);
    if (pthread_attr_init(&attributes) || pthread_attr_setstack(&attributes, stack, STACK) || pthread_create(&thread, &attributes, body, NULL) || pthread_join(thread, NULL)) exit(2);
    if (number) { fprintf(stderr, "refused with %u\n", number); exit(1); }
    size_t at = 0;
    while (at < STACK && stack[at] == FILL) at++;
    return STACK - at;
}

/* ---- the table */

struct row { unsigned n, last; int is_plain; uint64_t entered; size_t bytes[3], most; };
static size_t none;

/* The row of the sheet at hand, of the three functions in turn. */
static struct row measured(unsigned n, unsigned last) {
    void *(*const bodies[3])(void *) = {open_it, plan, plan_with_finder};
    struct row row = {n, last, is_plain, 0, {0, 0, 0}, 0};
    for (int i = 0; i < 3; i++) {
        row.bytes[i] = taken(bodies[i]) - none;
        if (row.bytes[i] > row.most) row.most = row.bytes[i];
    }
    row.entered = ribaltzen_field(out + length - 56, 8);
    return row;
}

enum { CELLS_ALONE, BETWEEN, CELLS_FIRST, INNER_FIRST, COUNTED, SHAPES };
static const char *const shape_names[SHAPES] = {
    "cells", "n inner references between two cells", "n cells, then inner references", "n inner references, then cells",
    "n cells, then draw units",
};

static void make(int shape, unsigned n, unsigned last) {
    int is_cell[DEPTH];
    for (unsigned step = 1; step < DEPTH; step++)
        is_cell[step] = shape == BETWEEN ? step % (n + 1) == 0 : shape == CELLS_FIRST ? step < n : shape == INNER_FIRST ? step > n : 1;
    if (shape == COUNTED) make_counted(n, DEPTH);
    else make_descent(STEPS, is_cell, last);
}

/* The row of a shape that takes the most, over each n, each end and both manners. */
static struct row most_of(int shape) {
    struct row most = {0, 0, 0, 0, {0, 0, 0}, 0};
    const unsigned least = shape == CELLS_ALONE ? DEPTH : shape == COUNTED ? 2 : 1, ends = shape == COUNTED ? 1 : ENDS;
    const unsigned greatest = shape == CELLS_ALONE ? DEPTH : shape == COUNTED ? STEPS : STEPS - 1;
    for (unsigned n = least; n <= greatest; n++)
        for (unsigned last = 0; last < ends; last++)
            for (is_plain = 1; is_plain >= 0; is_plain--) {
                make(shape, n, last);
                struct row row = measured(n, last);
                if (row.most > most.most) most = row;
            }
    return most;
}

/* What one level more takes, with a finder: of cells, of inner references, of draw units. */
static void print_levels(void) {
    int all[DEPTH], no[DEPTH] = {0};
    size_t bytes[3][2];
    for (int i = 0; i < DEPTH; i++) all[i] = 1;
    is_plain = 1;
    for (unsigned more = 0; more < 2; more++) {
        make_descent(STEPS - 1 + more, all, 2);
        bytes[0][more] = measured(0, 0).bytes[2];
        make_descent(STEPS - 1 + more, no, ITEMS + 2);
        bytes[1][more] = measured(0, 0).bytes[2];
        make_counted(2, DEPTH / 2 + more);
        bytes[2][more] = measured(0, 0).bytes[2];
    }
    printf("bytes for one level more: a cell %zu, an inner reference %zu, draw units through a cell %zu\n", bytes[0][1] - bytes[0][0],
           bytes[1][1] - bytes[1][0], bytes[2][1] - bytes[2][0]);
}

int main(void) {
    size_t most = 0;
    none = taken(idle);
    printf("| shape at depth %d, its n with the most | end | manner | cells entered | stack in bytes: scene_open | scene_plan | scene_plan_with_finder |\n|---|---|---|---|---|---|---|\n", DEPTH);
    for (int shape = 0; shape < SHAPES; shape++) {
        struct row row = most_of(shape);
        printf("| %s: %u | %s | %s | %u | %zu | %zu | %zu |\n", shape_names[shape], row.n, shape == COUNTED ? "count" : end_names[row.last],
               row.is_plain ? "plain" : "turned grids", (unsigned)row.entered, row.bytes[0], row.bytes[1], row.bytes[2]);
        if (row.most > most) most = row.most;
    }
    print_levels();
    printf("most: %zu bytes\n", most);
    return 0;
}
