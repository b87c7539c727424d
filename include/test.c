/* The test of ribaltzen.h and ribaltzen_tape.h: header_test CARGO_TOML FORMATS_MD CASES. The files are those to which
 * version and words are held (rust/Cargo.toml, docs/FORMATS.md), and the stored cases (crates/plan_vectors/stdin).
 * tools/library compiles it with the other test_ files, warnings as errors, and runs it. */
#include "test.h"

#include <stdio.h>

static int failed;

void expect(int holds, const char *what)
{
    if (!holds) {
        printf("not so: %s\n", what);
        failed = 1;
    }
}

int all(const void *from, size_t bytes, uint8_t value)
{
    const uint8_t *byte = (const uint8_t *)from;
    while (bytes > 0 && *byte == value) {
        byte++;
        bytes--;
    }
    return bytes == 0;
}

size_t random_below(size_t bound)
{
    static uint64_t state = 1;
    state = state * 6364136223846793005u + 1442695040888963407u;
    return (size_t)(state >> 33) % bound;
}

int main(int count, char **arguments)
{
    if (count != 4) {
        fputs("usage: header_test CARGO_TOML FORMATS_MD CASES\n", stderr);
        return 2;
    }
    test_plan();
    test_words(arguments[1], arguments[2]);
    test_scratch();
    test_finder();
    test_depth();
    test_stored(arguments[3]);
    test_tape();
    test_damage();
    test_full();
    test_floats();
    puts(failed ? "the headers' test failed" : "the headers' test passed");
    return failed;
}
