/* The finder in the fuzz target: document 02's Paper 1.
 *
 * Each sheet is opened into lists of several lengths, and planned with its own finder, a longer, a shorter and changed
 * ones. The changes are driven by the input: by its hidden layers, read as words, then by words that follow from all its
 * bytes. Each call is held to the paper's sentences, and what a finder must be is worked out here, by a walk for each kind.
 */
#include "target.h"

#include <stdlib.h>
#include <string.h>

/* ---- the words that drive the changes */

struct words {
    const struct input *in;
    size_t next;
    uint64_t state;
};

/* FNV-1a of the sheet is where the later words begin. */
static struct words words_of(const struct input *in)
{
    struct words words = { in, 0, 14695981039346656037u };
    size_t i;
    for (i = 0; i < in->sheet_length; i++) {
        words.state = (words.state ^ in->sheet[i]) * 1099511628211u;
    }
    return words;
}

static uint32_t word(struct words *words)
{
    if (words->next < words->in->hidden_length) {
        return words->in->hidden[words->next++];
    }
    words->state = words->state * 6364136223846793005u + 1442695040888963407u;
    return (uint32_t)(words->state >> 32);
}

static size_t below(struct words *words, size_t bound)
{
    return bound == 0 ? 0 : word(words) % bound;
}

/* ---- finders */

/* "the offset of every record, by kind and then by number", of a sheet that questions 1 to 7 accept; places may be NULL. */
static size_t list_places(const struct input *in, uint32_t *places)
{
    size_t count = 0, at;
    unsigned kind;
    for (kind = 1; kind <= 5; kind++) {
        for (at = 0; at < in->sheet_length; at += (size_t)ribaltzen_field(in->sheet + at, 4)) {
            if (ribaltzen_field(in->sheet + at + 4, 2) == kind) {
                if (places != NULL) {
                    places[count] = (uint32_t)at;
                }
                count++;
            }
        }
    }
    return count;
}

static int begins_with(const struct finder *finder, const struct finder *own)
{
    return finder->length >= own->length && (own->length == 0 || memcmp(finder->places, own->places, 4 * own->length) == 0);
}

/* A finder of so many places that begins with another's. The rest are words. */
static struct finder copy_of(const struct finder *from, size_t length, struct words *words)
{
    struct finder finder = { take(4 * length), length };
    size_t i;
    for (i = 0; i < length; i++) {
        finder.places[i] = i < from->length ? from->places[i] : word(words);
    }
    return finder;
}

static void return_finder(const struct finder *finder)
{
    give_back(finder->places, 4 * finder->length);
}

/* One change, or none where there is no place. */
static void change(const struct input *in, const struct finder *finder, struct words *words)
{
    size_t kind = below(words, 5), at = below(words, finder->length), other = below(words, finder->length);
    uint32_t *places = finder->places, held;
    if (finder->length == 0) {
        return;
    }
    held = places[at];
    switch (kind) {
    case 0: places[at] = word(words); break;
    case 1: places[at] = held + (word(words) % 2 == 0 ? 1 : (uint32_t)-1); break;
    case 2: places[at] = (uint32_t)(in->sheet_length + below(words, 8)); break;
    case 3: places[at] = places[other]; break;
    default:
        places[at] = places[other];
        places[other] = held;
    }
}

/* ---- the sentences */

static int accepted(struct answer plain)
{
    /* Only an accepted sheet takes so long that its plan is broken off. */
    return !plain.ended || plain.number == 0 || plain.number > 7;
}

static void open_into(const struct input *in, struct answer plain, const struct finder *own, size_t length)
{
    const uint8_t fill = 0xa5;
    uint32_t *list = take(4 * length), number;
    size_t offset = ~(size_t)0, places = ~(size_t)0;
    memset(list, fill, 4 * length);
    number = scene_open(in->sheet, in->sheet_length, list, length, &offset, &places);
    expect_as_given(in);
    expect(number <= 7 || number == 13, "opening gives 0 to 7 or 13");
    note(number);
    if (!accepted(plain)) {
        expect(number == plain.number && offset == plain.offset && places == 0, "opening asks questions 1 to 7");
        expect(all(list, 0, 4 * length, fill), "numbers 1 to 7 leave the list as lent");
    } else if (length < own->length) {
        expect(number == 13 && offset == 0 && places == own->length, "a short list gets 13 and the number of places");
        expect(all(list, 0, 4 * length, 0), "at 13 every place of the list is zero");
    } else {
        expect(number == 0 && offset == 0 && places == own->length, "a sheet is opened, with its number of places");
        expect(own->length == 0 || memcmp(list, own->places, 4 * own->length) == 0, "the list holds every record's offset");
        expect(all(list, 4 * own->length, 4 * length, fill), "places past these stay as lent");
    }
    give_back(list, 4 * length);
}

/* The finder is the own one, or is turned away, whatever memory is lent: then less is lent than for the plan. */
static void plan_with(const struct input *in, const struct finder *finder, const struct finder *own, const size_t sizes[3],
                      struct answer plain, const uint8_t *tape, struct words *words)
{
    int away = accepted(plain) && !begins_with(finder, own);
    size_t less[3] = { below(words, 200), below(words, sizes[1] + 1), below(words, sizes[2] + 1) };
    uint8_t *second = NULL;
    struct answer answer = checked(in, finder, away ? less : sizes, 0x3c, &second);
    if (answer.ended) {
        note(16 + (answer.number == 13) + 2 * away);
        expect((answer.number == 13) == away, "13 just for a finder that is not the sheet's own");
        if (plain.ended && !away) {
            expect(answer.number == plain.number && answer.offset == plain.offset && answer.length == plain.length,
                   "with its own finder a sheet gets the answer that it gets without one");
            expect(answer.number != 0 || memcmp(second, tape, answer.length) == 0, "and the same tape");
        }
    }
    free(second);
}

static void plan_with_all(const struct input *in, const struct finder *own, const size_t sizes[3], struct answer plain,
                          const uint8_t *tape)
{
    struct words words = words_of(in);
    size_t lengths[5], i, changes;
    lengths[0] = own->length;
    lengths[1] = own->length + 1 + below(&words, 9);
    lengths[2] = below(&words, own->length);
    lengths[3] = own->length;
    lengths[4] = own->length + below(&words, 3);
    for (i = 0; i < 5; i++) {
        struct finder finder = copy_of(own, lengths[i], &words);
        for (changes = i < 3 ? 0 : 1 + below(&words, 2); changes > 0; changes--) {
            change(in, &finder, &words);
        }
        plan_with(in, &finder, own, sizes, plain, tape, &words);
        return_finder(&finder);
    }
}

void try_finders(const struct input *in, const size_t sizes[3], struct answer plain, const uint8_t *tape)
{
    struct finder own = { NULL, 0 };
    struct words words = words_of(in);
    /* A refused sheet has no finder: any length will do. */
    own.length = accepted(plain) ? list_places(in, NULL) : 3;
    own.places = calloc(own.length + 1, 4);
    if (accepted(plain)) {
        list_places(in, own.places);
    }
    open_into(in, plain, &own, 0);
    open_into(in, plain, &own, own.length > 0 ? own.length - 1 : 0);
    open_into(in, plain, &own, own.length);
    open_into(in, plain, &own, own.length + 1);
    open_into(in, plain, &own, below(&words, 2 * own.length + 9));
    plan_with_all(in, &own, sizes, plain, tape);
    free(own.places);
}
