/* Checks, and the ways through a call that is measured. */
#ifndef CHECKS_H
#define CHECKS_H

#include "frames.h"

/* Counts a check, and prints what is wrong where it did not pass. */
void check(int right, const char *format, ...);

/* Checks so far. */
extern size_t passed, failed;

/* The call that is measured, and the most that it used so far. */
extern const char *call;
extern size_t most;

void begin(const char *name);

/* What a way through the call uses, with what is lent now; the same is lent again afterwards. */
size_t measure(const char *way, void (*frame)(void));

/* The same, and checks what it answers. */
size_t walk(const char *way, void (*frame)(void), size_t number, size_t place);

/* Checks another number of the answer. */
void expect(const char *what, size_t is, size_t right);

/* The refusals of a network, with 128 paths lent and a conflict of the last two: each as late as it can
   be. */
void refuse_network(void (*frame)(void));

/* Prints the most. */
void tell(void);

/* The parts of the test: what is asked of the two sides is tried; the two sides; every call. */
void try_sides(void);
void walk_two_sides(void);
void walk_calls(void);

#endif
