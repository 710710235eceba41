/* Functions whose use of the stack is known, to try the instrument with. */
#ifndef SAMPLES_H
#define SAMPLES_H

#include "nesbrunka.h"

enum { SAMPLE = 1000, LARGE_SAMPLE = 5000 };

void do_nothing(void);

/* Answers the last of fourteen numbers, of which at least six lie on the stack. */
size_t last_of(size_t a, size_t b, size_t c, size_t d, size_t e, size_t f, size_t g, size_t h,
               size_t i, size_t j, size_t k, size_t l, size_t m, size_t last);

/* Fill 1,000 and 5,000 bytes of their own with a value, and answer it. */
uint8_t fill(uint8_t value);
uint8_t fill_large(uint8_t value);

/* The two sides by a recursion from path to path: what nesbrunka_two_sides must not be. */
nesbrunka_sided recursive_sides(size_t n, const uint8_t *guards, uint8_t *order);

#endif
