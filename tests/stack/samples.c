#include "samples.h"

void do_nothing(void)
{
}

size_t last_of(size_t a, size_t b, size_t c, size_t d, size_t e, size_t f, size_t g, size_t h,
               size_t i, size_t j, size_t k, size_t l, size_t m, size_t last)
{
    (void)a, (void)b, (void)c, (void)d, (void)e, (void)f, (void)g, (void)h;
    (void)i, (void)j, (void)k, (void)l, (void)m;
    return last;
}

uint8_t fill(uint8_t value)
{
    volatile uint8_t own[SAMPLE];
    for (size_t k = 0; k < SAMPLE; k++)
        own[k] = value;
    return own[0];
}

uint8_t fill_large(uint8_t value)
{
    volatile uint8_t own[LARGE_SAMPLE];
    for (size_t k = 0; k < LARGE_SAMPLE; k++)
        own[k] = value;
    return own[0];
}

enum { UNSEEN, LOW, HIGH };

static uint8_t sides[NESBRUNKA_PATHS];

/* Puts a path on a side, and all that hang on it on theirs; 0 where they cannot be. */
static int put_on(size_t n, const uint8_t *guards, size_t path, uint8_t side)
{
    if (sides[path] != UNSEEN)
        return sides[path] == side;
    sides[path] = side;
    for (size_t k = 0; k < n; k++)
        if (guards[NESBRUNKA_PATHS * path + k] != NESBRUNKA_NO_CONFLICT
            && !put_on(n, guards, k, side == LOW ? HIGH : LOW))
            return 0;
    return 1;
}

static size_t append(size_t n, uint8_t side, size_t length, uint8_t *order)
{
    for (size_t k = 0; k < n; k++)
        if (sides[k] == side)
            order[length++] = (uint8_t)k;
    return length;
}

nesbrunka_sided recursive_sides(size_t n, const uint8_t *guards, uint8_t *order)
{
    for (size_t k = 0; k < n; k++)
        sides[k] = UNSEEN;
    for (size_t k = 0; k < n; k++)
        if (sides[k] == UNSEEN && !put_on(n, guards, k, LOW))
            return (nesbrunka_sided){NESBRUNKA_REFUSED_NO_SIDES, 0, 0};
    size_t low = append(n, LOW, 0, order);
    append(n, HIGH, low, order);
    return (nesbrunka_sided){NESBRUNKA_DONE, 0, low};
}
