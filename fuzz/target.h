/* What the parts of the fuzz target share: lent memory, inputs, and one call that plans, held to its sentences. */
#ifndef FUZZ_TARGET_H
#define FUZZ_TARGET_H

#include "ribaltzen.h"

/* ---- memory.c: what the sanitizer or a guard page watches */

void *take(size_t size);
void give_back(void *memory, size_t size);

/* Ends the program where a sentence does not hold. */
void expect(int holds, const char *what);

/* Whether all bytes from one place up to another have a value. */
int all(const void *memory, size_t from, size_t to, uint8_t value);

/* ---- input.c */

/* given, given_hidden: the bytes that sheet and hidden were copied from, which the planner does not know. */
struct input {
    uint32_t root, depth;
    double view[4], zoom;
    uint8_t *sheet;
    size_t sheet_length;
    uint32_t *hidden;
    size_t hidden_length;
    const uint8_t *given, *given_hidden;
};

struct input read_input(const uint8_t *data, size_t size);
void return_input(const struct input *in);
void expect_as_given(const struct input *in);

/* The cells of a sheet whose records are whole; of another sheet any number. */
size_t cells_of(const struct input *in);

/* ---- plan.c */

struct finder {
    uint32_t *places;
    size_t length;
};

/* ended: 0 for a call that was broken off after a while. */
struct answer {
    uint32_t number;
    size_t offset, length;
    int ended;
};

/* One call that plans, with its sentences, without a finder where that is NULL. The sizes are those of output, counts and
 * marks. The tape is copied where there is one and it is asked for. */
struct answer checked(const struct input *in, const struct finder *finder, const size_t sizes[3], uint8_t fill, uint8_t **tape);

/* Notes for the search that one of 32 things happened. */
void note(unsigned what);

/* ---- finder.c */

/* Opens the sheet, and plans with its own finder and with others. plain, tape: what a plan without a finder gave with
 * these sizes. */
void try_finders(const struct input *in, const size_t sizes[3], struct answer plain, const uint8_t *tape);

#endif
