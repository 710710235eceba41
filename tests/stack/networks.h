/* What is lent to the calls, and the networks and texts that are laid in it. */
#ifndef NETWORKS_H
#define NETWORKS_H

#include "nesbrunka.h"

enum { PATHS = NESBRUNKA_PATHS, CELLS = NESBRUNKA_CELLS, LABELS = NESBRUNKA_LABELS };

struct lent {
    size_t n, path, rounds, start, width;
    uint32_t seed;
    int32_t anchor;
    uint16_t widths[PATHS], starts[PATHS];
    uint8_t guards[CELLS], labels[LABELS];
    uint8_t order[PATHS], other_order[PATHS], chain[PATHS];
    uint8_t list[PATHS];
    uint8_t text[NESBRUNKA_SHEET_MOST + 1];
    size_t guards_length, list_length, text_length;
};

extern struct lent lent;

/* The cell of a pair. */
size_t cell(size_t i, size_t j);

/* Puts two paths in conflict. */
void join(size_t i, size_t j, uint8_t guard);

/* A network with no conflict and no plan. What is not a table is as large as it can be, so are
   widths, and labels have eight bytes. The orders and the list are 0, 1, 2 and so on. */
void lay(size_t n);

/* Networks with the largest guard. In conflict are: each path with the next one; each with the one that
   has 37 more, counted around; all in a ring, but for the last where they are even; the first with all
   others; each even one with the next; all with all; all of the first half with all of the second. */
void lay_line(size_t n);
void lay_mixed_line(size_t n);
void lay_odd_ring(size_t n);
void lay_star(size_t n);
void lay_pairs(size_t n);
void lay_dense(size_t n);
void lay_halves(size_t n);

/* 128 paths, so many pairs of them in conflict, and starts of five digits. The longest sheet has 2,000
   pairs. */
void lay_long(size_t pairs);

/* The plan that packing the order gives. */
void pack_order(void);

/* Puts the network's sheet or order sheet into the text, and its length into `text_length`. */
void put_sheet(void);
void put_order_sheet(void);

#endif
