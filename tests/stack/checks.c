#include <stdarg.h>
#include <stdio.h>
#include <string.h>

#include "checks.h"

size_t passed, failed;

const char *call;
size_t most;

static struct lent kept;

void check(int right, const char *format, ...)
{
    if (right) {
        passed++;
        return;
    }
    va_list parts;
    va_start(parts, format);
    printf("different: ");
    vprintf(format, parts);
    printf("\n");
    va_end(parts);
    failed++;
}

void begin(const char *name)
{
    call = name;
    most = 0;
}

static void lend_again(void)
{
    lent = kept;
    memset(&answer, 0, sizeof answer);
}

size_t measure(const char *way, void (*frame)(void))
{
    kept = lent;
    size_t used = used_by(lend_again, frame), again = used_by(lend_again, frame);
    lent = kept;
    check(used == again, "%s, %s: %zu bytes, and again %zu", call, way, used, again);
    if (used > most)
        most = used;
    return used;
}

size_t walk(const char *way, void (*frame)(void), size_t number, size_t place)
{
    size_t used = measure(way, frame);
    check(answer.first.number == number && answer.first.place == place,
          "%s, %s: number %zu at %zu, not %zu at %zu", call, way, answer.first.number, answer.first.place,
          number, place);
    return used;
}

void expect(const char *what, size_t is, size_t right)
{
    check(is == right, "%s, %s: %zu, not %zu", call, what, is, right);
}

void refuse_network(void (*frame)(void))
{
    const size_t last = PATHS - 1, pair = cell(last - 1, last);
    const struct lent right = lent;
    lent.guards_length = CELLS - 1;
    walk("a size", frame, NESBRUNKA_REFUSED_SIZE, 0);
    lent = right;
    lent.n = PATHS + 1;
    walk("a count", frame, NESBRUNKA_REFUSED_COUNT, 0);
    lent = right;
    lent.widths[last] = 0;
    walk("the last width", frame, NESBRUNKA_REFUSED_WIDTH, last);
    lent = right;
    lent.guards[cell(last, last)] = 0;
    walk("the last guard", frame, NESBRUNKA_REFUSED_GUARD, cell(last, last));
    lent = right;
    lent.guards[pair] = 0;
    walk("the last mirror", frame, NESBRUNKA_REFUSED_MIRROR, pair);
    lent = right;
}

void tell(void)
{
    printf("%-24s %5zu bytes\n", call, most);
}
