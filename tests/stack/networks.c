#include <stdio.h>
#include <stdlib.h>

#include "networks.h"

struct lent lent;

size_t cell(size_t i, size_t j)
{
    return PATHS * i + j;
}

void join(size_t i, size_t j, uint8_t guard)
{
    lent.guards[cell(i, j)] = lent.guards[cell(j, i)] = guard;
}

static void put_label(size_t path)
{
    char label[NESBRUNKA_LABEL + 1];
    snprintf(label, sizeof label, "PATH-%03u", (unsigned)path % 1000);
    for (size_t k = 0; k < NESBRUNKA_LABEL; k++)
        lent.labels[NESBRUNKA_LABEL * path + k] = (uint8_t)label[k];
}

void lay(size_t n)
{
    lent = (struct lent){
        .n = n,
        .path = n - 1,
        .rounds = NESBRUNKA_ROUNDS_MOST,
        .start = NESBRUNKA_START_MOST,
        .width = NESBRUNKA_WIDTH_MOST,
        .seed = UINT32_MAX,
        .anchor = NESBRUNKA_ANCHOR_MOST,
        .guards_length = CELLS,
        .list_length = NESBRUNKA_LIST_MOST,
        .text_length = sizeof lent.text,
    };
    for (size_t k = 0; k < PATHS; k++) {
        put_label(k);
        lent.widths[k] = NESBRUNKA_WIDTH_MOST;
        lent.order[k] = lent.other_order[k] = lent.list[k] = (uint8_t)k;
    }
    for (size_t k = 0; k < CELLS; k++)
        lent.guards[k] = NESBRUNKA_NO_CONFLICT;
}

void lay_line(size_t n)
{
    lay(n);
    for (size_t k = 1; k < n; k++)
        join(k - 1, k, NESBRUNKA_GUARD_MOST);
}

void lay_mixed_line(size_t n)
{
    lay(n);
    for (size_t k = 1; k < n; k++)
        join(37 * (k - 1) % n, 37 * k % n, NESBRUNKA_GUARD_MOST);
}

void lay_odd_ring(size_t n)
{
    const size_t length = n - (n + 1) % 2;
    lay(n);
    for (size_t k = 0; k < length; k++)
        join(k, (k + 1) % length, NESBRUNKA_GUARD_MOST);
}

void lay_star(size_t n)
{
    lay(n);
    for (size_t k = 1; k < n; k++)
        join(0, k, NESBRUNKA_GUARD_MOST);
}

void lay_pairs(size_t n)
{
    lay(n);
    for (size_t k = 1; k < n; k += 2)
        join(k - 1, k, NESBRUNKA_GUARD_MOST);
}

void lay_dense(size_t n)
{
    lay(n);
    for (size_t j = 1; j < n; j++)
        for (size_t i = 0; i < j; i++)
            join(i, j, NESBRUNKA_GUARD_MOST);
}

void lay_halves(size_t n)
{
    lay(n);
    for (size_t i = 0; i < n / 2; i++)
        for (size_t j = n / 2; j < n; j++)
            join(i, j, NESBRUNKA_GUARD_MOST);
}

void lay_long(size_t pairs)
{
    lay(PATHS);
    for (size_t i = 0; i < PATHS; i++) {
        lent.starts[i] = (uint16_t)(NESBRUNKA_START_MOST - i);
        for (size_t j = i + 1; j < PATHS && pairs != 0; j++, pairs--)
            join(i, j, NESBRUNKA_GUARD_MOST);
    }
}

/* What is lent to one call is made by another, which does not refuse it. */
static void need_done(const char *call, size_t number, size_t place)
{
    if (number == NESBRUNKA_DONE)
        return;
    fprintf(stderr, "%s: refused %zu at %zu\n", call, number, place);
    exit(2);
}

void pack_order(void)
{
    nesbrunka_packed packed = nesbrunka_pack(lent.n, lent.widths, PATHS, lent.guards, CELLS,
                                             lent.order, PATHS, lent.starts, PATHS);
    need_done("pack", packed.number, packed.place);
}

void put_sheet(void)
{
    nesbrunka_sheet_written written =
        nesbrunka_write(lent.n, lent.labels, LABELS, lent.widths, PATHS, lent.guards, CELLS,
                        lent.starts, PATHS, lent.text, sizeof lent.text);
    need_done("write", written.number, written.place);
    lent.text_length = written.length;
}

void put_order_sheet(void)
{
    nesbrunka_sheet_written written =
        nesbrunka_order_write(lent.anchor, lent.n, lent.labels, LABELS, lent.widths, PATHS,
                              lent.guards, CELLS, lent.starts, PATHS, lent.text, sizeof lent.text);
    need_done("order_write", written.number, written.place);
    lent.text_length = written.length;
}
