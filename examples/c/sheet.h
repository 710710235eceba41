/* What the examples share: a sheet on standard input is read into tables, and what is printed is
   written whole or told as trouble. */
#ifndef SHEET_H
#define SHEET_H

#include <stdio.h>

#include "nesbrunka.h"

/* Exit statuses: an answer; one line that says why there is none; and trouble, after which what was
   printed is not to be used. */
enum { ANSWERED = 0, NONE = 1, TROUBLE = 2 };

/* One byte more than the longest sheet: a longer text is refused by these bytes alone. */
static uint8_t text[NESBRUNKA_SHEET_MOST + 1];
static uint8_t labels[NESBRUNKA_LABELS];
static uint16_t widths[NESBRUNKA_PATHS];
static uint8_t guards[NESBRUNKA_CELLS];
static uint16_t starts[NESBRUNKA_PATHS];

/* No zero byte ends a label of eight bytes: it is printed with its length, as '%.*s'. */
static inline const char *label(size_t path)
{
    return (const char *)&labels[NESBRUNKA_LABEL * path];
}

static inline const char *slots(size_t count)
{
    return count == 1 ? "slot" : "slots";
}

/* What is printed may stand in a buffer still: it is written when this has answered the status. */
static inline int printed(int status)
{
    int failed = ferror(stdout);
    if (fclose(stdout) != 0 || failed) {
        perror("standard output");
        return TROUBLE;
    }
    return status;
}

/* What a sheet that was read cannot meet. */
static inline int unexpected(const char *call, size_t number, size_t place)
{
    fprintf(stderr, "%s: refused %zu at %zu\n", call, number, place);
    return TROUBLE;
}

/* Reads the sheet into the tables, and n, the number of its paths. Where it does not answer
   ANSWERED, a refusal was printed or trouble told, and the program ends with that status. */
static inline int read_sheet(size_t *n)
{
    size_t length = fread(text, 1, sizeof text, stdin);
    if (ferror(stdin)) {
        perror("standard input");
        return TROUBLE;
    }
    nesbrunka_sheet_read sheet =
        nesbrunka_read(text, length, labels, NESBRUNKA_LABELS, widths, NESBRUNKA_PATHS,
                       guards, NESBRUNKA_CELLS, starts, NESBRUNKA_PATHS);
    *n = sheet.n;
    if (sheet.number == NESBRUNKA_DONE)
        return ANSWERED;
    printf("refused %zu line %zu\n", sheet.number, sheet.place);
    return printed(NONE);
}

static inline nesbrunka_judged judge(size_t n)
{
    return nesbrunka_judge(n, widths, NESBRUNKA_PATHS, guards, NESBRUNKA_CELLS,
                           starts, NESBRUNKA_PATHS);
}

/* Prints why a sheet that was read has no valid plan, as the ask program does. */
static inline int say_invalid(const char *call, size_t number, size_t place, size_t short_)
{
    if (number == NESBRUNKA_REFUSED_START)
        printf("The sheet has no plan.\n");
    else if (number == NESBRUNKA_REFUSED_CLASH)
        printf("%.*s and %.*s clash: %zu %s short.\n",
               NESBRUNKA_LABEL, label(place / NESBRUNKA_PATHS),
               NESBRUNKA_LABEL, label(place % NESBRUNKA_PATHS), short_, slots(short_));
    else
        return unexpected(call, number, place);
    return printed(NONE);
}

#endif
