/* A fuzz target for libFuzzer: bytes as a query and a sheet, called on memory of exactly the lent sizes.
 *
 * Each call is held to the papers' sentences about answers and memory, and an accepted sheet is called again with exactly
 * the memory that it needs, and with one place less of each. Then it is opened, and planned with finders (finder.c). The
 * sheet, the hidden layers and the finder are compared after each call, and calls that were broken off are counted.
 *
 * With -DGUARD_PAGES `main` runs the files that it is given, on the archive that programs link.
 */
#include "target.h"

#include <setjmp.h>
#include <signal.h>
#include <stdio.h>
#include <stdlib.h>
#include <string.h>
#include <sys/time.h>

/* ---- what is lent */

/* finder: NULL for a plan without one. */
struct lent {
    const struct finder *finder;
    uint8_t *out, *marks;
    uint64_t *counts;
    size_t out_length, counts_length, marks_length;
    uint8_t fill;
};

static struct lent lend(const struct finder *finder, const size_t sizes[3], uint8_t fill)
{
    struct lent lent = { finder, take(sizes[0]), take(sizes[2]), take(8 * sizes[1]), sizes[0], sizes[1], sizes[2], fill };
    memset(lent.out, fill, sizes[0]);
    memset(lent.counts, fill, 8 * sizes[1]);
    memset(lent.marks, fill, sizes[2]);
    return lent;
}

static void return_lent(const struct lent *lent)
{
    give_back(lent->out, lent->out_length);
    give_back(lent->counts, 8 * lent->counts_length);
    give_back(lent->marks, lent->marks_length);
}

/* ---- one call, ended after a while: a small sheet can take very long */

static sigjmp_buf out_of_time;
static unsigned long calls, broken_off;

static void on_alarm(int signal)
{
    (void)signal;
    siglongjmp(out_of_time, 1);
}

static void set_timer(long microseconds)
{
    struct itimerval timer = { { 0, 0 }, { 0, 0 } };
    timer.it_value.tv_usec = microseconds;
    setitimer(ITIMER_VIRTUAL, &timer, NULL);
}

static struct answer call(const struct input *in, const struct lent *lent)
{
    struct answer answer = { 99, 99, 99, 1 };
    volatile size_t offset = ~(size_t)0, length = ~(size_t)0;
    signal(SIGVTALRM, on_alarm);
    calls++;
    if (sigsetjmp(out_of_time, 1) != 0) {
        broken_off++;
        answer.ended = 0;
        return answer;
    }
    set_timer(200000);
#define QUERY_AND_LENT                                                                                                        \
    in->root, in->depth, in->view[0], in->view[1], in->view[2], in->view[3], in->zoom, in->hidden, in->hidden_length,         \
        lent->out, lent->out_length, lent->counts, lent->counts_length, lent->marks, lent->marks_length, (size_t *)&offset,    \
        (size_t *)&length
    if (lent->finder == NULL) {
        answer.number = scene_plan(in->sheet, in->sheet_length, QUERY_AND_LENT);
    } else {
        answer.number = scene_plan_with_finder(in->sheet, in->sheet_length, lent->finder->places, lent->finder->length,
                                               QUERY_AND_LENT);
    }
#undef QUERY_AND_LENT
    set_timer(0);
    answer.offset = offset;
    answer.length = length;
    return answer;
}

/* ---- what guides the search besides the code's own counters: the answer, and how many records of each kind */

enum { LISTED = 14, TOTALS = LISTED + 5 * 32, NOTED = TOTALS + 7 * 64 };

__attribute__((section("__libfuzzer_extra_counters"))) static uint8_t features[NOTED + 32];

void note(unsigned what)
{
    features[NOTED + what % 32] = 1;
}

static size_t digits(uint64_t value)
{
    size_t count = 0;
    while (value > 0) {
        value >>= 1;
        count++;
    }
    return count < 64 ? count : 63;
}

/* ---- the papers' sentences */

static void expect_tape(const uint8_t *tape, size_t length, uint32_t depth)
{
    static const size_t lengths[5] = { 58, 26, 26, 42, 62 };
    size_t at = 0, listed[5] = { 0, 0, 0, 0, 0 }, i;
    uint64_t dropped;
    while (at < length) {
        size_t record, kind;
        expect(length - at >= 6, "a record has a head");
        record = (size_t)ribaltzen_field(tape + at, 4);
        kind = (size_t)ribaltzen_field(tape + at + 4, 2);
        expect(kind >= 11 && kind <= 15, "a record has a kind from 11 to 15");
        expect(record == lengths[kind - 11] && record <= length - at, "a record has the length of its kind");
        listed[kind - 11]++;
        expect(kind != 15 || at + record == length, "the totals stand last");
        at += record;
    }
    expect(listed[4] == 1, "a plan has its totals once");
    expect(ribaltzen_field(tape + length - 48, 8) == listed[0] + listed[1] + listed[2], "objects are the batches, texts and points");
    expect(listed[0] + listed[1] + listed[2] <= 20000 && listed[1] <= 10000 && listed[3] <= 100000, "the limits hold");
    expect(ribaltzen_field(tape + length - 56, 8) <= 20000, "at most 20,000 cells are in detail");
    dropped = ribaltzen_field(tape + length - 8, 8);
    expect(dropped == 0 || listed[3] == 100000, "only a full list drops proxies");
    expect(dropped <= (depth == 0 ? 0 : 2 * depth - 1), "at most 2 * depth - 1 proxies are dropped");
    for (i = 0; i < 5; i++) {
        features[LISTED + 32 * i + digits(listed[i]) % 32] = 1;
    }
    for (i = 0; i < 7; i++) {
        features[TOTALS + 64 * i + digits(ribaltzen_field(tape + length - 56 + 8 * i, 8))] = 1;
    }
}

static void expect_memory(const struct input *in, struct answer answer, const struct lent *lent, size_t counts, size_t marks)
{
    uint8_t fill = lent->fill;
    expect(answer.number <= 12 || (answer.number == 13 && lent->finder != NULL), "the number is 0 to 12, or 13 with a finder");
    features[answer.number] = 1;
    expect(answer.number == 0 || answer.number == 12 || answer.length == 0, "only 0 and 12 have a length");
    expect(answer.number != 12 || answer.length > lent->out_length, "number 12 tells a length that was not lent");
    expect((answer.number >= 2 && answer.number <= 6) || answer.offset == 0, "only numbers 2 to 6 have an offset");
    expect(answer.offset == 0 || answer.offset < in->sheet_length, "the offset lies within the sheet");
    if (answer.number >= 1 && answer.number <= 11) {
        expect(all(lent->out, 0, lent->out_length, fill) && all(lent->counts, 0, 8 * lent->counts_length, fill)
                   && all(lent->marks, 0, lent->marks_length, fill), "numbers 1 to 11 touch no memory");
        return;
    }
    if (answer.number == 13) {
        expect(all(lent->out, 0, lent->out_length, 0) && all(lent->counts, 0, 8 * lent->counts_length, 0)
                   && all(lent->marks, 0, lent->marks_length, 0), "number 13 zeroes the output and all scratch");
        return;
    }
    expect(counts <= lent->counts_length && marks <= lent->marks_length, "the scratch is enough for a plan");
    expect(all(lent->counts, 0, 8 * counts, 0) && all(lent->marks, 0, marks, 0), "the named scratch is zero");
    expect(all(lent->counts, 8 * counts, 8 * lent->counts_length, fill) && all(lent->marks, marks, lent->marks_length, fill),
           "the rest of the scratch is as lent");
    if (answer.number == 12) {
        expect(all(lent->out, 0, lent->out_length, 0), "number 12 zeroes the whole output");
        return;
    }
    expect(answer.length <= lent->out_length && answer.length >= 62, "the tape lies within the output");
    expect(all(lent->out, answer.length, lent->out_length, fill), "output past the tape is as lent");
    expect_tape(lent->out, answer.length, in->depth);
}

struct answer checked(const struct input *in, const struct finder *finder, const size_t sizes[3], uint8_t fill, uint8_t **tape)
{
    struct lent lent = lend(finder, sizes, fill);
    size_t cells = cells_of(in), held = finder == NULL ? 0 : 4 * finder->length;
    uint8_t *places = malloc(held + 1);
    struct answer answer;
    if (finder != NULL) {
        memcpy(places, finder->places, held);
    }
    answer = call(in, &lent);
    expect_as_given(in);
    expect(finder == NULL || memcmp(places, finder->places, held) == 0, "the finder is as lent");
    free(places);
    if (answer.ended) {
        expect_memory(in, answer, &lent, cells * in->depth, cells * ((size_t)in->depth + 2));
        if (answer.number == 0 && tape != NULL) {
            *tape = malloc(answer.length);
            memcpy(*tape, lent.out, answer.length);
        }
    }
    return_lent(&lent);
    return answer;
}

/* An accepted sheet again: exactly enough gives the same tape, one place less of each the number that it must. */
static void again(const struct input *in, size_t cells, size_t length, const uint8_t *tape)
{
    size_t exact[3] = { length, cells * in->depth, cells * ((size_t)in->depth + 2) }, i;
    uint8_t *second = NULL;
    struct answer answer = checked(in, NULL, exact, 0x5a, &second);
    if (answer.ended) {
        expect(answer.number == 0 && answer.length == length && memcmp(second, tape, length) == 0,
               "the tape depends on nothing that was lent");
    }
    free(second);
    for (i = 0; i < 3; i++) {
        size_t less[3] = { exact[0], exact[1], exact[2] };
        if (less[i] > 0) {
            less[i]--;
            answer = checked(in, NULL, less, 0xff, NULL);
            expect(!answer.ended || answer.number == (i == 0 ? 12u : 11u), "one place less is too little");
        }
    }
}

int LLVMFuzzerTestOneInput(const uint8_t *data, size_t size)
{
    struct input in = read_input(data, size);
    size_t cells = cells_of(&in), depth = in.depth <= RIBALTZEN_MOST_DEPTH ? in.depth : 1;
    size_t sizes[3] = { 16384, cells * depth + 3, cells * (depth + 2) + 3 };
    uint8_t *tape = NULL;
    struct answer answer = checked(&in, NULL, sizes, 0xa5, &tape);
    if (answer.ended && answer.number == 12) {
        sizes[0] = RIBALTZEN_MOST_TAPE;
        answer = checked(&in, NULL, sizes, 0xa5, &tape);
        expect(!answer.ended || answer.number == 0, "no tape is longer than the longest");
    }
    if (answer.ended && answer.number == 0) {
        again(&in, cells, answer.length, tape);
    }
    try_finders(&in, sizes, answer, tape);
    free(tape);
    return_input(&in);
    return 0;
}

static void say_calls(void)
{
    fprintf(stderr, "%lu calls, of them %lu calls broken off after 0.2 s\n", calls, broken_off);
}

#ifndef GUARD_PAGES
int LLVMFuzzerInitialize(int *count, char ***words)
{
    (void)count;
    (void)words;
    return atexit(say_calls);
}
#else
int main(int count, char **names)
{
    static uint8_t data[1 << 20];
    int i;
    for (i = 1; i < count; i++) {
        FILE *file = fopen(names[i], "rb");
        size_t size = file == NULL ? 0 : fread(data, 1, sizeof data, file);
        if (file == NULL) {
            perror(names[i]);
            return 1;
        }
        fclose(file);
        LLVMFuzzerTestOneInput(data, size);
    }
    printf("%d inputs, no fault\n", count - 1);
    fflush(stdout);
    say_calls();
    return 0;
}
#endif
