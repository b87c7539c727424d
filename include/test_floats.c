/* Why ribaltzen.h asks for the system's float environment: under each other rounding and with each flushing a call
 * gives another plan, and a trap ends the process. If one no longer does, the header asks for more than is needed. */
#define _POSIX_C_SOURCE 200809L
#include "ribaltzen_tape.h"
#include "test.h"

#include <signal.h>
#include <sys/wait.h>
#include <unistd.h>
#include <xmmintrin.h>

/* Fields of MXCSR. */
#define ROUND_DOWN 0x2000u
#define ROUND_UP 0x4000u
#define ROUND_TO_ZERO 0x6000u
#define FLUSH_TO_ZERO 0x8000u
#define DENORMALS_ARE_ZERO 0x0040u
#define MASKED 0x1f80u
#define MASK_OF_INEXACT 0x1000u
#define FLAGS 0x003fu

/* A text in a cell that is placed once: at its origin, by a cosine, with sine 0. */
struct placed {
    double text[2], origin[2], cosine;
};

/* Sums that are not exact: 0.1 + 0.2 is rounded up, 0.2 + 0.7 down. */
static const struct placed sums = { { 0.1, 0.2 }, { 0.2, 0.7 }, 1.0 };

/* Half of the least normal float, which is a denormal result. */
static const struct placed denormal_result = { { 2.2250738585072014e-308, 0.0 }, { 0.0, 0.0 }, 0.5 };

/* The least float, a denormal input, magnified to a normal one: times 2^100. */
static const struct placed denormal_input = { { 4.9406564584124654e-324, 0.0 }, { 0.0, 0.0 }, 1.2676506002282294e30 };

static struct bytes sheet_of(const struct placed *placed)
{
    static const double inner[4] = { 0.0, 0.0, 50.0, 50.0 }, outer[4] = { 0.0, 0.0, 100.0, 100.0 };
    static const uint16_t a_text[4] = { 0, 1, 0, 0 }, a_reference[4] = { 0, 0, 0, 1 };
    struct bytes sheet = { { 0 }, 0 };
    double turn[2];
    turn[0] = placed->cosine;
    turn[1] = 0.0;
    put_text(&sheet, 1, placed->text[0], placed->text[1]);
    put_reference(&sheet, 1, placed->origin, turn, inner);
    put_cell(&sheet, outer, a_reference);
    put_cell(&sheet, inner, a_text);
    return sheet;
}

/* The text's position in the plan, under an environment. */
static struct ribaltzen_text text_under(const struct placed *placed, unsigned environment)
{
    struct bytes sheet = sheet_of(placed);
    struct ribaltzen_cursor cursor;
    struct ribaltzen_record record;
    struct lent lent;
    unsigned before = _mm_getcsr(), after;
    uint32_t number;
    _mm_setcsr(MASKED | environment);
    number = plan(&sheet, 4, 1.0, &lent);
    after = _mm_getcsr();
    _mm_setcsr(before);
    expect(number == RIBALTZEN_PLANNED && lent.length == 88, "the text and the totals are listed");
    expect((after & ~FLAGS) == (MASKED | environment), "a call leaves the environment as it is");
    memset(&record, 0, sizeof record);
    cursor = ribaltzen_records(lent.out, lent.length);
    expect(ribaltzen_next(&cursor, &record) == 1 && record.kind == RIBALTZEN_TEXT, "the first record is the text");
    return record.of.text;
}

static int is_at(struct ribaltzen_text text, double x, double y)
{
    return text.position[0] == x && text.position[1] == y;
}

/* Positions as decimal numbers read to the nearest float: the first of each group is the right one. */
static void test_environments(void)
{
    expect(is_at(text_under(&sums, 0), 0.30000000000000004, 0.8999999999999999), "sums to the nearest");
    expect(is_at(text_under(&sums, ROUND_DOWN), 0.3, 0.8999999999999999), "rounding down gives another plan");
    expect(is_at(text_under(&sums, ROUND_UP), 0.30000000000000004, 0.9), "rounding up gives another plan");
    expect(is_at(text_under(&sums, ROUND_TO_ZERO), 0.3, 0.8999999999999999), "rounding to zero gives another plan");
    expect(is_at(text_under(&denormal_result, 0), 1.1125369292536007e-308, 0.0), "a denormal result is kept");
    expect(is_at(text_under(&denormal_result, FLUSH_TO_ZERO), 0.0, 0.0), "flush-to-zero gives another plan");
    expect(is_at(text_under(&denormal_input, 0), 6.26302612502804e-294, 0.0), "a denormal input is kept");
    expect(is_at(text_under(&denormal_input, DENORMALS_ARE_ZERO), 0.0, 0.0), "denormals-are-zero gives another plan");
    expect(is_at(text_under(&sums, 0), 0.30000000000000004, 0.8999999999999999), "and all is as before");
}

/* With the mask of the inexact result clear, a sum that is rounded ends the process. */
static void test_traps(void)
{
    struct bytes sheet = sheet_of(&sums);
    int status = 0;
    pid_t child = fork();
    if (child == 0) {
        struct lent lent;
        signal(SIGFPE, SIG_DFL);
        _mm_setcsr(MASKED & ~MASK_OF_INEXACT);
        plan(&sheet, 4, 1.0, &lent);
        _exit(0);
    }
    expect(child > 0 && waitpid(child, &status, 0) == child, "a process of its own ends");
    expect(WIFSIGNALED(status) && WTERMSIG(status) == SIGFPE, "a trap ends the process");
}

void test_floats(void)
{
    test_environments();
    test_traps();
}
