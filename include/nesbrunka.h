/*
 * Nesbrunka: frequency slots for lightpaths, over lent tables.
 *
 * Tables. The size of a table does not depend on n, the number of paths, which is 1 to 128; paths
 * are numbered from 0.
 *
 *   widths   128 numbers of 16 bits    each 1 to 64 slots
 *   guards   16,384 bytes              the cell of i and j is 128 * i + j: 0 to 32 is a conflict
 *                                      with that guard (0 is one too), 255 is no conflict; the
 *                                      diagonal is 255, the cells of i,j and j,i are equal
 *   starts   128 numbers of 16 bits    each 1 to 16,384; 0 is no start
 *   order    128 bytes                 the first n hold each of 0 to n-1 once
 *   chain    128 bytes                 the paths that nesbrunka_why names
 *   labels   1,024 bytes               eight a path, filled at the end with zero bytes
 *
 * What stands in the cells past n makes no difference, and only nesbrunka_read changes it.
 *
 * Grid. Filters are ordered by ITU-T G.694.1: a centre lies n steps of 6.25 GHz above 193.1 THz,
 * or below it where n is negative, and a width is m times 12.5 GHz. A slot is 12.5 GHz wide. The
 * anchor is the lower edge of slot 1, in steps of 6.25 GHz from 193.1 THz: -1,024 to 1,024. So a
 * block of width w at start b has n = anchor + 2(b-1) + w and m = w, and its centre is at
 * 193,100 + 6.25n GHz.
 *
 * Pointers and lengths. A table is passed as a pointer and then its number of cells (not bytes:
 * 128 for widths), and the call believes both.
 *
 *   - No pointer may be NULL, whatever its length. A length of 0 needs a valid pointer too: to any
 *     object of the right type.
 *   - A length that is not the table's own is refused with NESBRUNKA_REFUSED_SIZE, before anything
 *     is read. A text may have any length; a floor's list that is empty or too long is refused
 *     with NESBRUNKA_REFUSED_LIST.
 *   - A table that a call may write must not overlap any other that it is lent. Tables that are
 *     only read may be the same.
 *   - The library keeps no state and allocates nothing, and needs nothing but memset and
 *     memcpy. Calls on different tables may run at the same time.
 *
 * Stack. The bytes that a call uses on x86-64, whatever it is lent, from its caller's stack
 * pointer down: arguments on the stack, return address, and all below. memset and memcpy count
 * with their return address alone. No function calls itself. README.md says what each call holds.
 *
 *   nesbrunka_judge            400
 *   nesbrunka_pack             480
 *   nesbrunka_press            752
 *   nesbrunka_why              744
 *   nesbrunka_better           704
 *   nesbrunka_two_sides        320
 *   nesbrunka_plan             656
 *   nesbrunka_improve          588
 *   nesbrunka_floor          1,376
 *   nesbrunka_read             304
 *   nesbrunka_write            464
 *   nesbrunka_centre             8
 *   nesbrunka_centre_number      8
 *   nesbrunka_order_write      352
 *   nesbrunka_order_read       576
 *
 * Answers. `number` is NESBRUNKA_DONE or the number of a refusal, `place` says where. A refused
 * call changes no table, and its other numbers are 0, but for `short_` beside
 * NESBRUNKA_REFUSED_CLASH; and nesbrunka_read, unless it refuses a size, clears its four tables:
 * guards 255, all else 0. Each call says below what it tests, in its order.
 */
#ifndef NESBRUNKA_H
#define NESBRUNKA_H

#include <stddef.h>
#include <stdint.h>

#define NESBRUNKA_VERSION "0.14.0"
#define NESBRUNKA_VERSION_MAJOR 0
#define NESBRUNKA_VERSION_MINOR 14
#define NESBRUNKA_VERSION_PATCH 0

#ifdef __cplusplus
extern "C" {
#endif

/* Sizes of tables. */
enum {
    NESBRUNKA_PATHS = 128,   /* cells of widths, starts, orders and chains; the most paths */
    NESBRUNKA_CELLS = 16384, /* cells of guards */
    NESBRUNKA_LABEL = 8,     /* bytes of a label */
    NESBRUNKA_LABELS = 1024  /* bytes of all labels */
};

/* Limits of what a cell may hold and a call may be given. */
enum {
    NESBRUNKA_WIDTH_MOST = 64,     /* slots of the widest path */
    NESBRUNKA_GUARD_MOST = 32,     /* slots of the largest guard */
    NESBRUNKA_NO_CONFLICT = 255,   /* the guard cell of two paths that are not in conflict */
    NESBRUNKA_START_MOST = 16384,  /* the highest start */
    NESBRUNKA_ROUNDS_MOST = 10000, /* rounds of planning and improving */
    NESBRUNKA_LIST_MOST = 8,       /* paths in a floor's list */
    NESBRUNKA_PAIRS_MOST = 2000,   /* conflicting pairs in a sheet */
    NESBRUNKA_SHEET_MOST = 45489,  /* bytes of the longest sheet */
    NESBRUNKA_ANCHOR_MOST = 1024,  /* the highest anchor; the lowest is -1,024 */
    NESBRUNKA_ORDER_MOST = 2314    /* bytes of the longest order sheet */
};

/* The numbers. In each comment: what is wrong, and what the place is. */
enum {
    /* nothing is wrong; 0 */
    NESBRUNKA_DONE = 0,
    /* n outside 1 to 128; over 2,000 pairs; in a sheet a count that cannot be, in an order sheet
       one that is not n; line, else 0 */
    NESBRUNKA_REFUSED_COUNT = 1,
    /* a table has not its size; 0 */
    NESBRUNKA_REFUSED_SIZE = 2,
    /* a width outside 1 to 64; in an order sheet an m that is not the path's width; path or line */
    NESBRUNKA_REFUSED_WIDTH = 3,
    /* a guard that is neither 0 to 32 nor 255, a diagonal that is not 255; in a sheet, over 32;
       cell or line */
    NESBRUNKA_REFUSED_GUARD = 4,
    /* the two cells of a pair differ; the cell above the diagonal */
    NESBRUNKA_REFUSED_MIRROR = 5,
    /* an order's entry is no path, or comes twice; position; the path asked for is none; 0 */
    NESBRUNKA_REFUSED_ENTRY = 6,
    /* a start outside 1 to 16,384; in an order sheet an n that gives none; path or line */
    NESBRUNKA_REFUSED_START = 7,
    /* a conflicting pair is too close, by `short_` slots; the cell above the diagonal */
    NESBRUNKA_REFUSED_CLASH = 8,
    /* the network has no two sides; 0 */
    NESBRUNKA_REFUSED_NO_SIDES = 9,
    /* more than 10,000 rounds; 0 */
    NESBRUNKA_REFUSED_ROUNDS = 10,
    /* a line has not its form; in the writer, a label; line or path */
    NESBRUNKA_REFUSED_FORM = 11,
    /* a label comes twice; the later line or path */
    NESBRUNKA_REFUSED_LABEL_TWICE = 12,
    /* a guard line names no path or one path twice; a start's or an order's line names another
       path; line */
    NESBRUNKA_REFUSED_LABEL_UNKNOWN = 13,
    /* a pair comes twice; line */
    NESBRUNKA_REFUSED_PAIR_TWICE = 14,
    /* a floor's list of no or over 8 paths; an entry that is no path, comes twice or lacks a
       conflict; position, else 0 */
    NESBRUNKA_REFUSED_LIST = 15,
    /* the sheet does not fit into the lent text; 0 */
    NESBRUNKA_REFUSED_ROOM = 16,
    /* an anchor outside -1,024 to 1,024; 0 */
    NESBRUNKA_REFUSED_ANCHOR = 17
};

typedef struct {
    size_t number;
    size_t place;
    size_t short_; /* with number 8, how many slots the pair lacks; else 0 */
} nesbrunka_judged;

typedef struct {
    size_t number;
    size_t place;
    size_t highest; /* the highest slot */
} nesbrunka_packed;

typedef struct {
    size_t number;
    size_t place;
    size_t short_;  /* with number 8, how many slots the pair lacks; else 0 */
    size_t highest; /* the highest slot */
} nesbrunka_pressed;

typedef struct {
    size_t number;
    size_t place;
    size_t short_; /* with number 8, how many slots the pair lacks; else 0 */
    size_t length; /* how many paths the chain has */
    size_t down;   /* how many slots the last of them can come down; 0 in slot 1 */
} nesbrunka_reason;

typedef struct {
    size_t number;
    size_t place;
    size_t low; /* the size of the low side */
} nesbrunka_sided;

typedef struct {
    size_t number;
    size_t place;
    size_t highest; /* the highest slot */
    size_t kept;    /* the number of swaps kept */
} nesbrunka_planned;

typedef struct {
    size_t number;
    size_t place;
    size_t floor;
} nesbrunka_floored;

typedef struct {
    size_t number;
    size_t place;
    size_t n; /* the number of paths */
} nesbrunka_sheet_read;

typedef struct {
    size_t number;
    size_t place;
    size_t length; /* the sheet's length in bytes */
} nesbrunka_sheet_written;

typedef struct {
    size_t number;
    size_t place;
} nesbrunka_ordered;

/* Judges a plan: of each conflicting pair one path lies above the other, with at least their
   guard between. Tests 2, 1, 3, 4, 5, 7, 8 in this order. Writes nothing. Where 8 refuses, the
   upper path of the pair (on equal starts the one of the higher number) moved up by `short_` slots
   is clear of the other, and by one slot less it is not. */
nesbrunka_judged nesbrunka_judge(size_t n,
                                 const uint16_t *widths, size_t widths_length,
                                 const uint8_t *guards, size_t guards_length,
                                 const uint16_t *starts, size_t starts_length);

/* Packs an order: each path in turn gets the lowest start past all earlier paths in conflict
   with it. Tests 2, 1, 3, 4, 5, 6. Writes the first n starts. */
nesbrunka_packed nesbrunka_pack(size_t n,
                                const uint16_t *widths, size_t widths_length,
                                const uint8_t *guards, size_t guards_length,
                                const uint8_t *order, size_t order_length,
                                uint16_t *starts, size_t starts_length);

/* Presses a valid plan: its paths by start, of equal starts the lower number first, packed in
   that order. Tests 2, 1, 3, 4, 5, 7, 8. Writes the first n starts. */
nesbrunka_pressed nesbrunka_press(size_t n,
                                  const uint16_t *widths, size_t widths_length,
                                  const uint8_t *guards, size_t guards_length,
                                  uint16_t *starts, size_t starts_length);

/* Why a path stands where it stands, in a valid plan: the chain of paths downwards, the path itself
   first. Each next one is in conflict with the path before it, starts lower, and its end + guard +
   1 is that path's start; of several it is the lowest number. The chain ends in slot 1, or at the
   first path that nothing holds up: `down` says how many slots that one can come down, its lower
   conflicting paths held. Where it ends in slot 1, no valid plan in which these paths keep their
   order puts the path lower; a packed or pressed plan's chains all do. Tests 2, 1, 3, 4, 5, 7, 8,
   and 6 with place 0 for a path of n or more. Writes the first `length` cells of the chain. */
nesbrunka_reason nesbrunka_why(size_t n,
                               const uint16_t *widths, size_t widths_length,
                               const uint8_t *guards, size_t guards_length,
                               const uint16_t *starts, size_t starts_length,
                               size_t path,
                               uint8_t *chain, size_t chain_length);

/* Which of two orders packs to the lower highest slot: 1 the first, on equality too, 2 the second,
   0 where one of the two cannot be packed. Writes nothing. */
size_t nesbrunka_better(size_t n,
                        const uint16_t *widths, size_t widths_length,
                        const uint8_t *guards, size_t guards_length,
                        const uint8_t *first, size_t first_length,
                        const uint8_t *second, size_t second_length);

/* The two-sided order, the low paths first, and how many these are. Tests 2, 1, 3, 4, 5, 9. Writes
   the first n entries of the order. */
nesbrunka_sided nesbrunka_two_sides(size_t n,
                                    const uint16_t *widths, size_t widths_length,
                                    const uint8_t *guards, size_t guards_length,
                                    uint8_t *order, size_t order_length);

/* Plans: where there are two sides the best plan outright, else the greedy order, improved. Tests
   2, 1, 3, 4, 5, 10; what stands in the order and the starts before is not tested. Writes the first
   n entries of the order and the first n starts. */
nesbrunka_planned nesbrunka_plan(size_t n,
                                 const uint16_t *widths, size_t widths_length,
                                 const uint8_t *guards, size_t guards_length,
                                 uint8_t *order, size_t order_length,
                                 uint16_t *starts, size_t starts_length,
                                 uint32_t seed, size_t rounds);

/* Improves an order: each round tries one swap of two drawn places, and undoes it unless the
   highest slot falls. Tests 2, 1, 3, 4, 5, 6, 10. Writes the first n entries of the order and the
   first n starts. */
nesbrunka_planned nesbrunka_improve(size_t n,
                                    const uint16_t *widths, size_t widths_length,
                                    const uint8_t *guards, size_t guards_length,
                                    uint8_t *order, size_t order_length,
                                    uint16_t *starts, size_t starts_length,
                                    uint32_t seed, size_t rounds);

/* The floor of a list of 1 to 8 paths, each two in conflict: their widths and the guards along the
   shortest walk through them. Every valid plan reaches it, so a plan with that highest slot is a
   best one. Tests 2, 1, 3, 4, 5, 15. Writes nothing. */
nesbrunka_floored nesbrunka_floor(size_t n,
                                  const uint16_t *widths, size_t widths_length,
                                  const uint8_t *guards, size_t guards_length,
                                  const uint8_t *list, size_t list_length);

/* Reads a sheet, of any length. Tests 2 first, then gives the first line at fault; lines count
   from 1. Writes all cells of the four tables: what the sheet says, and past n widths and starts
   0, guards 255, labels 0. A sheet without a plan leaves all starts 0. */
nesbrunka_sheet_read nesbrunka_read(const uint8_t *text, size_t text_length,
                                    uint8_t *labels, size_t labels_length,
                                    uint16_t *widths, size_t widths_length,
                                    uint8_t *guards, size_t guards_length,
                                    uint16_t *starts, size_t starts_length);

/* Writes a sheet into a lent text of any length, with the starts if any of the n is not zero.
   Tests 2, 1 for n, 3, 4, 5, 11, 12, 1 for pairs, 7, 16. Leaves the text past the sheet's
   length unchanged. */
nesbrunka_sheet_written nesbrunka_write(size_t n,
                                        const uint8_t *labels, size_t labels_length,
                                        const uint16_t *widths, size_t widths_length,
                                        const uint8_t *guards, size_t guards_length,
                                        const uint16_t *starts, size_t starts_length,
                                        uint8_t *text, size_t text_length);

/* The centre of a block in GHz, 193,100 + 6.25n, exactly: the double loses nothing. Tests 17, 3 for
   the width, 7 for the start. Refused, it answers 0.0, which is no block's centre: these are
   186,706.25 to 404,687.5. The number is asked for beside it, with the same arguments:

       size_t number = nesbrunka_centre_number(anchor, starts[k], widths[k]);
       if (number != NESBRUNKA_DONE)
           return refused(number);
       order(nesbrunka_centre(anchor, starts[k], widths[k]));
*/
double nesbrunka_centre(int32_t anchor, size_t start, size_t width);

/* The number of nesbrunka_centre for the same arguments: 17, 3, 7 or NESBRUNKA_DONE. It has no
   place. */
size_t nesbrunka_centre_number(int32_t anchor, size_t start, size_t width);

/* Writes an order sheet into a lent text of any length: a line `order N`, then N lines `label n m`
   in the order of the paths; a negative n has a hyphen before it. Tests 2, 17, 1, 3, 4, 5, 11, 12,
   7, 16; a start of 0 is 7. That the plan is valid is not tested: judge it first. Leaves the text
   past the sheet's length unchanged. */
nesbrunka_sheet_written nesbrunka_order_write(int32_t anchor, size_t n,
                                              const uint8_t *labels, size_t labels_length,
                                              const uint16_t *widths, size_t widths_length,
                                              const uint8_t *guards, size_t guards_length,
                                              const uint16_t *starts, size_t starts_length,
                                              uint8_t *text, size_t text_length);

/* Reads an order sheet, of any length, beside its network and anchor, and so gets the starts back.
   Tests 2, 17, 1, 3, 4, 5, then gives the first line at fault, lines counted from 1: 11 for its
   form, 1 for a count that is not n, 13 for a label that is not the path's, 3 for an m that is not
   the path's width, 7 for an n that gives no whole start of 1 to 16,384. The lent labels are only
   compared, not tested. Writes the first n starts; where it refuses it clears nothing. */
nesbrunka_ordered nesbrunka_order_read(int32_t anchor,
                                       const uint8_t *text, size_t text_length,
                                       size_t n,
                                       const uint8_t *labels, size_t labels_length,
                                       const uint16_t *widths, size_t widths_length,
                                       const uint8_t *guards, size_t guards_length,
                                       uint16_t *starts, size_t starts_length);

#ifdef __cplusplus
}
#endif

#endif
