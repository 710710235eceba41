/* The order desk: order ANCHOR, with a sheet that has a plan on standard input. Prints the order
   sheet of a valid plan, and after each path's line, label, n and m, its centre in GHz. The exit
   status is 0 for an order, 1 where one line says why there is none, 2 where something else went
   wrong: what was printed is then not to be used. */
#include <stdio.h>
#include <stdlib.h>
#include <string.h>

#include "nesbrunka.h"
#include "sheet.h"

/* Whether a word is an anchor, and which one: -1,024 to 1,024. It has one spelling, as in an order
   sheet: +5, 05 and -0 are none. */
static int is_anchor(const char *word, int32_t *anchor)
{
    char spelled[24];
    long value = strtol(word, NULL, 10);
    if (value < -NESBRUNKA_ANCHOR_MOST || value > NESBRUNKA_ANCHOR_MOST)
        return 0;
    snprintf(spelled, sizeof spelled, "%ld", value);
    *anchor = (int32_t)value;
    return strcmp(spelled, word) == 0;
}

/* Writes the order sheet into the text and, before anyone orders by it, reads it back: the starts
   that it gives are those of the plan. 0 where it is so. */
static int write_order(int32_t anchor, size_t n)
{
    static uint16_t found[NESBRUNKA_PATHS];
    nesbrunka_sheet_written written =
        nesbrunka_order_write(anchor, n, labels, NESBRUNKA_LABELS, widths, NESBRUNKA_PATHS,
                              guards, NESBRUNKA_CELLS, starts, NESBRUNKA_PATHS, text, sizeof text);
    if (written.number != NESBRUNKA_DONE)
        return unexpected("order_write", written.number, written.place);
    nesbrunka_ordered ordered =
        nesbrunka_order_read(anchor, text, written.length, n, labels, NESBRUNKA_LABELS,
                             widths, NESBRUNKA_PATHS, guards, NESBRUNKA_CELLS,
                             found, NESBRUNKA_PATHS);
    if (ordered.number != NESBRUNKA_DONE)
        return unexpected("order_read", ordered.number, ordered.place);
    if (memcmp(found, starts, n * sizeof *starts) != 0) {
        fprintf(stderr, "the order sheet gives another plan\n");
        return TROUBLE;
    }
    return 0;
}

/* Prints a line without its line feed, and answers the next one. */
static const char *print_line(const char *line)
{
    size_t length = strcspn(line, "\n");
    printf("%.*s", (int)length, line);
    return line + length + 1;
}

/* A centre is 0.0 where the call is refused, so its number is asked for first. */
static int print_order(int32_t anchor, size_t n)
{
    const char *line = print_line((const char *)text);
    printf("\n");
    for (size_t k = 0; k < n; k++) {
        size_t number = nesbrunka_centre_number(anchor, starts[k], widths[k]);
        if (number != NESBRUNKA_DONE)
            return unexpected("centre", number, k);
        line = print_line(line);
        printf(" %.2f GHz\n", nesbrunka_centre(anchor, starts[k], widths[k]));
    }
    return printed(ANSWERED);
}

int main(int count, char **words)
{
    size_t n;
    int32_t anchor;
    if (count != 2) {
        fprintf(stderr, "usage: order ANCHOR\n");
        return TROUBLE;
    }
    if (!is_anchor(words[1], &anchor)) {
        printf("An anchor is a whole number, -1024 to 1024.\n");
        return printed(NONE);
    }
    int status = read_sheet(&n);
    if (status != ANSWERED)
        return status;
    nesbrunka_judged judged = judge(n);
    if (judged.number != NESBRUNKA_DONE)
        return say_invalid("judge", judged.number, judged.place, judged.short_);
    if (write_order(anchor, n) != 0)
        return TROUBLE;
    return print_order(anchor, n);
}
