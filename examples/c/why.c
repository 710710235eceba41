/* Says why a path stands where it stands: why LABEL, with a sheet that has a plan on standard input.
   Prints what the ask program prints, by way of the library. The exit status is 0 for a reason, 1
   where there is none to give, 2 where something else went wrong. */
#include <stdio.h>
#include <string.h>

#include "nesbrunka.h"
#include "sheet.h"

static uint8_t chain[NESBRUNKA_PATHS];

/* The path that is called by a name, byte for byte; n where none is. */
static size_t path_called(size_t n, const char *name)
{
    size_t k = 0;
    while (k < n && strncmp(label(k), name, NESBRUNKA_LABEL) != 0)
        k++;
    return k;
}

/* One to eight digits, capitals and hyphens. */
static int is_label(const char *name)
{
    size_t length = strspn(name, "0123456789ABCDEFGHIJKLMNOPQRSTUVWXYZ-");
    return length >= 1 && length <= NESBRUNKA_LABEL && name[length] == 0;
}

static void say_where(size_t path)
{
    unsigned start = starts[path], end = start + widths[path] - 1u;
    printf("%.*s has ", NESBRUNKA_LABEL, label(path));
    if (start == end)
        printf("slot %u", start);
    else
        printf("slots %u to %u", start, end);
}

static void say_reason(nesbrunka_reason why)
{
    size_t last = chain[why.length - 1];
    say_where(chain[0]);
    printf(".\n");
    for (size_t i = 1; i < why.length; i++) {
        printf("Below it ");
        say_where(chain[i]);
        printf(", and the guard is %d.\n", guards[NESBRUNKA_PATHS * chain[i] + chain[i - 1]]);
    }
    printf("%.*s ", NESBRUNKA_LABEL, label(last));
    if (why.down != 0)
        printf("can come down %zu %s.\n", why.down, slots(why.down));
    else if (why.length == 1)
        printf("is in slot 1 and cannot come down.\n");
    else
        printf("is in slot 1, so %.*s cannot come down in this order.\n", NESBRUNKA_LABEL,
               label(chain[0]));
}

int main(int count, char **words)
{
    size_t n;
    if (count != 2) {
        fprintf(stderr, "usage: why LABEL\n");
        return TROUBLE;
    }
    if (!is_label(words[1])) {
        printf("A label has 1 to 8 capitals, digits or hyphens.\n");
        return printed(NONE);
    }
    int status = read_sheet(&n);
    if (status != ANSWERED)
        return status;
    nesbrunka_reason why =
        nesbrunka_why(n, widths, NESBRUNKA_PATHS, guards, NESBRUNKA_CELLS,
                      starts, NESBRUNKA_PATHS, path_called(n, words[1]), chain, NESBRUNKA_PATHS);
    if (why.number == NESBRUNKA_REFUSED_ENTRY) {
        printf("No path is called %s.\n", words[1]);
        return printed(NONE);
    }
    if (why.number != NESBRUNKA_DONE)
        return say_invalid("why", why.number, why.place, why.short_);
    say_reason(why);
    return printed(ANSWERED);
}
