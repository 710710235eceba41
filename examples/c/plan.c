/* Reads a sheet from standard input, plans it with seed 1 and 1,000 rounds, judges the plan and
   prints the sheet with its starts. Refused, it prints the number and the line, as the plan
   program does. The exit status is 0 for a plan, 1 for a refusal, 2 where something else went
   wrong: what was printed is then not to be used.

   A plan that the sheet came with is replaced; what judging it answers is said on standard error. */
#include <stdio.h>

#include "nesbrunka.h"
#include "sheet.h"

static uint8_t order[NESBRUNKA_PATHS];

/* The sheet's own plan is valid or has a clash: 0 where that was said. */
static int say_judged(nesbrunka_judged judged)
{
    if (judged.number == NESBRUNKA_DONE) {
        fprintf(stderr, "the sheet's plan is valid\n");
        return 0;
    }
    if (judged.number != NESBRUNKA_REFUSED_CLASH)
        return unexpected("judge", judged.number, judged.place);
    fprintf(stderr, "the sheet's plan: %.*s and %.*s are %zu %s short\n",
            NESBRUNKA_LABEL, label(judged.place / NESBRUNKA_PATHS),
            NESBRUNKA_LABEL, label(judged.place % NESBRUNKA_PATHS),
            judged.short_, slots(judged.short_));
    return 0;
}

int main(void)
{
    size_t n;
    int status = read_sheet(&n);
    if (status != ANSWERED)
        return status;
    /* A sheet has all its starts or none. */
    if (starts[0] != 0 && say_judged(judge(n)) != 0)
        return TROUBLE;
    nesbrunka_planned plan =
        nesbrunka_plan(n, widths, NESBRUNKA_PATHS, guards, NESBRUNKA_CELLS,
                       order, NESBRUNKA_PATHS, starts, NESBRUNKA_PATHS, 1, 1000);
    if (plan.number != NESBRUNKA_DONE)
        return unexpected("plan", plan.number, plan.place);
    nesbrunka_judged judged = judge(n);
    if (judged.number != NESBRUNKA_DONE)
        return unexpected("judge", judged.number, judged.place);
    nesbrunka_sheet_written written =
        nesbrunka_write(n, labels, NESBRUNKA_LABELS, widths, NESBRUNKA_PATHS,
                        guards, NESBRUNKA_CELLS, starts, NESBRUNKA_PATHS, text, sizeof text);
    if (written.number != NESBRUNKA_DONE)
        return unexpected("write", written.number, written.place);
    fwrite(text, 1, written.length, stdout);
    fprintf(stderr, "%zu paths, highest slot %zu, %zu swaps kept\n", n, plan.highest, plan.kept);
    return printed(ANSWERED);
}
