/* nesbrunka_two_sides: the same use for every network, at most 4 KiB. What asks this is tried with a
   recursion, which it refuses. */
#include <stdio.h>

#include "checks.h"
#include "samples.h"

enum { NETWORKS = 11, SIDES_MOST = 4096 };

/* What finding the sides used, network by network. */
static size_t found[NETWORKS];

static size_t networks;

static void note(size_t used)
{
    found[networks] = used;
    networks++;
}

/* The networks: how each is laid, and what finding its sides answers. */
static const struct {
    const char *name;
    void (*lay)(size_t n);
    size_t n, number, low;
} laid[NETWORKS] = {
    {"one path", lay, 1, NESBRUNKA_DONE, 1},
    {"two paths", lay_line, 2, NESBRUNKA_DONE, 1},
    {"a ring of three, no sides", lay_odd_ring, 3, NESBRUNKA_REFUSED_NO_SIDES, 0},
    {"128 paths without a conflict", lay, PATHS, NESBRUNKA_DONE, PATHS},
    {"a line of 128", lay_line, PATHS, NESBRUNKA_DONE, PATHS / 2},
    {"a line of 128, its numbers mixed", lay_mixed_line, PATHS, NESBRUNKA_DONE, PATHS / 2},
    {"a star of 128", lay_star, PATHS, NESBRUNKA_DONE, 1},
    {"64 pairs", lay_pairs, PATHS, NESBRUNKA_DONE, PATHS / 2},
    {"64 with 64, all across", lay_halves, PATHS, NESBRUNKA_DONE, PATHS / 2},
    {"128 all with all, no sides", lay_dense, PATHS, NESBRUNKA_REFUSED_NO_SIDES, 0},
    {"a ring of 127 and one path, no sides", lay_odd_ring, PATHS, NESBRUNKA_REFUSED_NO_SIDES, 0},
};

static void find_all_sides(void (*frame)(void))
{
    networks = 0;
    for (size_t k = 0; k < NETWORKS; k++) {
        laid[k].lay(laid[k].n);
        size_t used = walk(laid[k].name, frame, laid[k].number, 0);
        expect(laid[k].name, answer.sided.low, laid[k].low);
        printf("%s, %s: %zu bytes\n", call, laid[k].name, used);
        note(used);
    }
}

enum room { FIXED, DIFFERENT, TOO_LARGE };

/* Every network uses the same, to the byte, whatever its size and its conflicts are. */
static enum room room_for_sides(void)
{
    for (size_t k = 1; k < networks; k++)
        if (found[k] != found[0])
            return DIFFERENT;
    return found[0] <= SIDES_MOST ? FIXED : TOO_LARGE;
}

/* Of two networks. */
static enum room room_of(size_t used, size_t other_used)
{
    networks = 0;
    note(used);
    note(other_used);
    return room_for_sides();
}

static void frame_recursive(void)
{
    MEASURE(answer.sided = recursive_sides(lent.n, lent.guards, lent.order));
}

static void frame_fill_large(void)
{
    MEASURE(fill_large(1));
}

/* What nesbrunka_two_sides is held to refuses what it should. */
void try_sides(void)
{
    begin("a recursion");
    find_all_sides(frame_recursive);
    check(room_for_sides() == DIFFERENT, "a recursion is taken for fixed room");
    check(most > 10 * found[1], "a recursion uses %zu bytes for two paths, and %zu for a line",
          found[1], most);
    begin("5,000 bytes");
    size_t large = measure("5,000 bytes", frame_fill_large);
    check(room_of(large, large) == TOO_LARGE, "5,000 bytes are taken for at most 4 KiB");
    check(room_of(SIDES_MOST, SIDES_MOST) == FIXED, "4 KiB are refused");
    check(room_of(1000, 1001) == DIFFERENT, "the second of two may use a byte more");
    check(room_of(1000, 999) == DIFFERENT, "the second of two may use a byte less");
}

void walk_two_sides(void)
{
    begin("nesbrunka_two_sides");
    find_all_sides(two_sides);
    check(room_for_sides() == FIXED, "%s: %zu bytes for one path, at most %zu: not the same, or over %d",
          call, found[0], most, SIDES_MOST);
    lay_dense(PATHS);
    refuse_network(two_sides);
    tell();
}
