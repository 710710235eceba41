/* Measures how many bytes of stack each call of the C face uses, and prints the most of each. That the
   answers are right is looked at too, so that a way is the one that its name says. The exit status is 1
   where a check did not pass. */
#include <stdio.h>

#include "checks.h"
#include "samples.h"

static uint8_t filling;

static void frame_nothing(void)
{
    MEASURE(do_nothing());
}

static void frame_words(void)
{
    MEASURE(answer.number = last_of(1, 2, 3, 4, 5, 6, 7, 8, 9, 10, 11, 12, 13, 14));
}

static void frame_fill(void)
{
    MEASURE(fill(filling));
}

static void between(const char *way, void (*frame)(void), size_t low, size_t high)
{
    size_t used = measure(way, frame);
    printf("%s, %s: %zu bytes\n", call, way, used);
    check(used >= low && used <= high, "%s, %s: %zu bytes, not %zu to %zu", call, way, used, low, high);
}

/* Functions whose use is known. */
static void try_instrument(void)
{
    const size_t word = sizeof(size_t);
    begin("the instrument");
    between("a call that does nothing", frame_nothing, 0, 2 * word);
    between("fourteen arguments", frame_words, 6 * word, 16 * word);
    expect("the last argument", answer.number, 14);
    for (size_t k = 0; k <= PAINTS; k++) {
        filling = k < PAINTS ? paints[k] : 0;
        between("1,000 bytes filled", frame_fill, SAMPLE, SAMPLE + 200);
    }
}

int main(void)
{
    setvbuf(stdout, NULL, _IOLBF, 0); /* what was told is not lost where a stack overflows */
    try_instrument();
    try_sides();
    walk_calls();
    printf("measured: %zu checks passed, %zu did not\n", passed, failed);
    return failed == 0 ? 0 : 1;
}
