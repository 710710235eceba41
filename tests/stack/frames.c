#include "frames.h"

union answer answer;

#define WIDTHS lent.widths, PATHS
#define GUARDS lent.guards, lent.guards_length
#define STARTS lent.starts, PATHS
#define ORDER lent.order, PATHS
#define OTHER lent.other_order, PATHS
#define CHAIN lent.chain, PATHS
#define LABEL_ROWS lent.labels, LABELS
#define LIST lent.list, lent.list_length
#define TEXT lent.text, lent.text_length

void judge(void)
{
    MEASURE(answer.judged = nesbrunka_judge(lent.n, WIDTHS, GUARDS, STARTS));
}

void pack(void)
{
    MEASURE(answer.packed = nesbrunka_pack(lent.n, WIDTHS, GUARDS, ORDER, STARTS));
}

void press(void)
{
    MEASURE(answer.pressed = nesbrunka_press(lent.n, WIDTHS, GUARDS, STARTS));
}

void why(void)
{
    MEASURE(answer.reason = nesbrunka_why(lent.n, WIDTHS, GUARDS, STARTS, lent.path, CHAIN));
}

void better(void)
{
    MEASURE(answer.number = nesbrunka_better(lent.n, WIDTHS, GUARDS, ORDER, OTHER));
}

void two_sides(void)
{
    MEASURE(answer.sided = nesbrunka_two_sides(lent.n, WIDTHS, GUARDS, ORDER));
}

void plan(void)
{
    MEASURE(answer.planned = nesbrunka_plan(lent.n, WIDTHS, GUARDS, ORDER, STARTS, lent.seed, lent.rounds));
}

void improve(void)
{
    MEASURE(answer.planned =
                nesbrunka_improve(lent.n, WIDTHS, GUARDS, ORDER, STARTS, lent.seed, lent.rounds));
}

void floor_of_list(void)
{
    MEASURE(answer.floored = nesbrunka_floor(lent.n, WIDTHS, GUARDS, LIST));
}

void read_sheet(void)
{
    MEASURE(answer.read = nesbrunka_read(TEXT, LABEL_ROWS, WIDTHS, GUARDS, STARTS));
}

void write_sheet(void)
{
    MEASURE(answer.written = nesbrunka_write(lent.n, LABEL_ROWS, WIDTHS, GUARDS, STARTS, TEXT));
}

void centre(void)
{
    MEASURE(answer.centre = nesbrunka_centre(lent.anchor, lent.start, lent.width));
}

void centre_number(void)
{
    MEASURE(answer.number = nesbrunka_centre_number(lent.anchor, lent.start, lent.width));
}

void order_write(void)
{
    MEASURE(answer.written = nesbrunka_order_write(lent.anchor, lent.n, LABEL_ROWS, WIDTHS, GUARDS,
                                                   STARTS, TEXT));
}

void order_read(void)
{
    MEASURE(answer.ordered = nesbrunka_order_read(lent.anchor, TEXT, lent.n, LABEL_ROWS, WIDTHS, GUARDS,
                                                  STARTS));
}
