/* The instrument: how many bytes of stack a call uses.

   The call is made on a thread with a stack of its own. Directly before it the frame that makes it
   marks where its own part of the stack ends and paints all below the mark; directly after it the
   same frame looks from the bottom up for the first byte that is no longer paint. All from there to
   the mark is what the call used: the arguments that lie on the stack, the return address, and
   whatever the called functions wrote. Painting and looking are loops in that frame and not calls,
   which would leave bytes of their own. */
#ifndef INSTRUMENT_H
#define INSTRUMENT_H

#include <alloca.h>
#include <stddef.h>
#include <stdint.h>

/* What a frame that measures and the instrument share. */
struct gauge {
    volatile uint8_t *bottom; /* the lowest byte of the stack */
    size_t own;               /* how many bytes the frame takes above the mark */
    uint8_t paint;
    size_t room; /* bytes from the bottom to the mark */
    size_t used;
};

extern struct gauge gauge;

/* Makes a call, which is an assignment or an expression, and notes what it used. What a frame takes
   by `alloca`, with a size that the compiler does not know, lies below all else of its own, and the
   arguments of its calls lie below that: so the mark is the stack pointer before the call, whichever
   compiler is used. */
#define MEASURE(call)                                   \
    do {                                                \
        volatile uint8_t *mark_ = alloca(gauge.own);    \
        volatile uint8_t *cell_;                        \
        for (cell_ = gauge.bottom; cell_ < mark_; cell_++) \
            *cell_ = gauge.paint;                       \
        call;                                           \
        cell_ = gauge.bottom;                           \
        while (cell_ < mark_ && *cell_ == gauge.paint)  \
            cell_++;                                    \
        gauge.room = (size_t)(mark_ - gauge.bottom);    \
        gauge.used = (size_t)(mark_ - cell_);           \
    } while (0)

/* What a way through a call uses: `prepare` lays its tables, on the program's own stack, and `frame`,
   on the thread, is one MEASURE. It is run once with each of two paints, so that a byte which the
   call sets to the paint itself is seen with the other. */
size_t used_by(void (*prepare)(void), void (*frame)(void));

/* The two paints. */
enum { PAINTS = 2 };
extern const uint8_t paints[PAINTS];

#endif
