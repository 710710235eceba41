/* The calls, each on every way through it that can differ: accepted at full size and small, refused early and
   late. */
#include <string.h>

#include "checks.h"

/* The same for a valid plan of that network. */
static void refuse_plan(void (*frame)(void))
{
    const size_t last = PATHS - 1;
    const struct lent right = lent;
    refuse_network(frame);
    lent.starts[last] = 0;
    walk("the last start", frame, NESBRUNKA_REFUSED_START, last);
    lent = right;
    lent.starts[last]--;
    walk("a clash of the last pair", frame, NESBRUNKA_REFUSED_CLASH, cell(last - 1, last));
    lent = right;
}

/* The same for an order of that network, where an order is lent. */
static void refuse_order(void (*frame)(void))
{
    const size_t last = PATHS - 1;
    const struct lent right = lent;
    refuse_network(frame);
    lent.order[last] = 0;
    walk("the last entry twice", frame, NESBRUNKA_REFUSED_ENTRY, last);
    lent.order[last] = PATHS;
    walk("the last entry no path", frame, NESBRUNKA_REFUSED_ENTRY, last);
    lent = right;
}

static void walk_plans(void (*frame)(void))
{
    lay(1);
    pack_order();
    walk("one path", frame, NESBRUNKA_DONE, 0);
    lay_line(2);
    pack_order();
    walk("two paths", frame, NESBRUNKA_DONE, 0);
    lay(PATHS);
    pack_order();
    walk("128 paths without conflict", frame, NESBRUNKA_DONE, 0);
    lay_line(PATHS);
    pack_order();
    walk("a line of 128", frame, NESBRUNKA_DONE, 0);
    lay_dense(PATHS);
    pack_order();
    walk("all 128 with all", frame, NESBRUNKA_DONE, 0);
}

static void walk_judge(void)
{
    begin("nesbrunka_judge");
    walk_plans(judge);
    refuse_plan(judge);
    tell();
}

static void walk_pack(void)
{
    begin("nesbrunka_pack");
    walk_plans(pack);
    refuse_order(pack);
    tell();
}

static void walk_press(void)
{
    begin("nesbrunka_press");
    walk_plans(press);
    refuse_plan(press);
    tell();
}

static void walk_why(void)
{
    begin("nesbrunka_why");
    walk_plans(why);
    refuse_plan(why);
    walk("a chain of 128", why, NESBRUNKA_DONE, 0);
    expect("a chain of 128", answer.reason.length, PATHS);
    lent.starts[0] = NESBRUNKA_START_MOST;
    walk("a path that nothing holds up", why, NESBRUNKA_DONE, 0);
    check(answer.reason.down != 0, "%s: nothing comes down", call);
    lent.path = PATHS;
    walk("no such path", why, NESBRUNKA_REFUSED_ENTRY, 0);
    tell();
}

static void walk_better(void)
{
    begin("nesbrunka_better");
    lay(1);
    walk("one path", better, 1, 0);
    lay_line(3);
    walk("equal, of three", better, 1, 0);
    lay_dense(PATHS);
    walk("equal, of 128", better, 1, 0);
    lay_line(PATHS);
    for (size_t k = 0; k < PATHS / 2; k++) {
        lent.other_order[k] = (uint8_t)(2 * k);
        lent.other_order[PATHS / 2 + k] = (uint8_t)(2 * k + 1);
    }
    walk("the second, of 128", better, 2, 0);
    lent.other_order[PATHS - 1] = 0;
    walk("the second is no order", better, 0, 0);
    lent.order[PATHS - 1] = 0;
    walk("neither is an order", better, 0, 0);
    tell();
}

/* Planning and improving, with all rounds and with none. */
static void walk_rounds(void (*frame)(void))
{
    walk_plans(frame);
    lay_dense(3);
    walk("three paths with all", frame, NESBRUNKA_DONE, 0);
    lay_dense(PATHS);
    lent.rounds = 0;
    walk("no rounds", frame, NESBRUNKA_DONE, 0);
    lent.rounds = NESBRUNKA_ROUNDS_MOST + 1;
    walk("too many rounds", frame, NESBRUNKA_REFUSED_ROUNDS, 0);
    /* Guards that differ, so that swaps are kept. */
    for (size_t j = 1; j < PATHS; j++)
        for (size_t i = 0; i < j; i++)
            join(i, j, (uint8_t)(i * j % (NESBRUNKA_GUARD_MOST + 1)));
    lent.rounds = NESBRUNKA_ROUNDS_MOST;
    walk("all rounds", frame, NESBRUNKA_DONE, 0);
    check(answer.planned.kept != 0, "%s: no swap is kept", call);
    lay_line(PATHS);
    lent.rounds = NESBRUNKA_ROUNDS_MOST + 1;
    walk("too many rounds, of a line", frame, NESBRUNKA_REFUSED_ROUNDS, 0);
    lay_dense(PATHS);
}

static void walk_plan(void)
{
    begin("nesbrunka_plan");
    walk_rounds(plan);
    refuse_network(plan);
    lay_halves(PATHS);
    walk("64 with 64, all across", plan, NESBRUNKA_DONE, 0);
    lay_odd_ring(PATHS);
    walk("a ring of 127 and one path", plan, NESBRUNKA_DONE, 0);
    tell();
}

static void walk_improve(void)
{
    begin("nesbrunka_improve");
    walk_rounds(improve);
    refuse_order(improve);
    tell();
}

static void walk_lists(const char *network)
{
    for (size_t length = 1; length <= NESBRUNKA_LIST_MOST; length++) {
        lent.list_length = length;
        walk(network, floor_of_list, NESBRUNKA_DONE, 0);
    }
}

static void walk_floor(void)
{
    begin("nesbrunka_floor");
    lay_dense(NESBRUNKA_LIST_MOST);
    walk_lists("eight paths");
    lay_dense(PATHS);
    for (size_t k = 0; k < NESBRUNKA_LIST_MOST; k++)
        lent.list[k] = (uint8_t)(PATHS - 1 - k);
    walk_lists("equal guards");
    for (size_t k = 1; k < NESBRUNKA_LIST_MOST; k++)
        join(PATHS - 1 - k, PATHS - k, (uint8_t)k);
    walk_lists("any guards");
    refuse_network(floor_of_list);
    join(lent.list[6], lent.list[7], NESBRUNKA_NO_CONFLICT);
    walk("the last pair lacks its conflict", floor_of_list, NESBRUNKA_REFUSED_LIST, 7);
    lent.list[7] = lent.list[0];
    walk("the last path twice", floor_of_list, NESBRUNKA_REFUSED_LIST, 7);
    lent.list[7] = PATHS;
    walk("the last is no path", floor_of_list, NESBRUNKA_REFUSED_LIST, 7);
    lent.list_length = NESBRUNKA_LIST_MOST + 1;
    walk("too many paths", floor_of_list, NESBRUNKA_REFUSED_LIST, 0);
    lent.list_length = 0;
    walk("no path", floor_of_list, NESBRUNKA_REFUSED_LIST, 0);
    tell();
}

/* In the longest sheet each line of a section is as long as the others: where the last line of each
   begins, and its number. */
enum {
    PATH_LINE = 12, LAST_PATH = 10 + 127 * PATH_LINE, LAST_PATH_NUMBER = 129,
    PAIR_LINE = 21, FIRST_PAIR = 10 + 128 * PATH_LINE + 12, LAST_PAIR = FIRST_PAIR + 1999 * PAIR_LINE,
    LAST_PAIR_NUMBER = 2130,
    START_LINE = 15, LAST_START = NESBRUNKA_SHEET_MOST - START_LINE, LAST_START_NUMBER = 2259
};

/* Reads the text with a part of it overwritten. */
static void damage(void (*frame)(void), const char *way, size_t from, const char *part, size_t number,
                   size_t line)
{
    const struct lent right = lent;
    memcpy(lent.text + from, part, strlen(part));
    walk(way, frame, number, line);
    lent = right;
}

static void walk_read(void)
{
    begin("nesbrunka_read");
    lay(1);
    put_sheet();
    walk("one path", read_sheet, NESBRUNKA_DONE, 0);
    lay_line(2);
    pack_order();
    put_sheet();
    walk("two paths", read_sheet, NESBRUNKA_DONE, 0);
    lay_long(NESBRUNKA_PAIRS_MOST);
    memset(lent.starts, 0, sizeof lent.starts);
    put_sheet();
    walk("128 paths without a plan", read_sheet, NESBRUNKA_DONE, 0);
    lay_long(NESBRUNKA_PAIRS_MOST);
    put_sheet();
    expect("the longest sheet", lent.text_length, NESBRUNKA_SHEET_MOST);
    walk("the longest sheet", read_sheet, NESBRUNKA_DONE, 0);
    expect("the longest sheet", answer.read.n, PATHS);
    damage(read_sheet, "a count", 6, "129", NESBRUNKA_REFUSED_COUNT, 1);
    damage(read_sheet, "the last label twice", LAST_PATH, "PATH-000", NESBRUNKA_REFUSED_LABEL_TWICE,
           LAST_PATH_NUMBER);
    damage(read_sheet, "the last width", LAST_PATH + 9, "65", NESBRUNKA_REFUSED_WIDTH, LAST_PATH_NUMBER);
    damage(read_sheet, "the last pair twice", LAST_PAIR, "PATH-001 PATH-000",
           NESBRUNKA_REFUSED_PAIR_TWICE, LAST_PAIR_NUMBER);
    damage(read_sheet, "the last pair unknown", LAST_PAIR, "PATH-X", NESBRUNKA_REFUSED_LABEL_UNKNOWN,
           LAST_PAIR_NUMBER);
    damage(read_sheet, "the last guard", LAST_PAIR + 18, "33", NESBRUNKA_REFUSED_GUARD, LAST_PAIR_NUMBER);
    damage(read_sheet, "the last pair's form", LAST_PAIR + 18, " 9", NESBRUNKA_REFUSED_FORM,
           LAST_PAIR_NUMBER);
    damage(read_sheet, "the last start of another path", LAST_START, "PATH-126",
           NESBRUNKA_REFUSED_LABEL_UNKNOWN, LAST_START_NUMBER);
    damage(read_sheet, "the last start", LAST_START + 9, "16385", NESBRUNKA_REFUSED_START,
           LAST_START_NUMBER);
    damage(read_sheet, "the last form", LAST_START + 9, "01638", NESBRUNKA_REFUSED_FORM, LAST_START_NUMBER);
    lent.text_length--;
    walk("the last line feed", read_sheet, NESBRUNKA_REFUSED_FORM, LAST_START_NUMBER);
    lent.text_length += 2;
    walk("a byte left over", read_sheet, NESBRUNKA_REFUSED_FORM, LAST_START_NUMBER + 1);
    lent.text_length = 0;
    walk("an empty text", read_sheet, NESBRUNKA_REFUSED_FORM, 1);
    lent.guards_length = 0;
    walk("a size", read_sheet, NESBRUNKA_REFUSED_SIZE, 0);
    tell();
}

/* Refusals of labels, of 128 paths with starts, and a text that is one byte too short. */
static void refuse_writing(void (*frame)(void), size_t length)
{
    const size_t last = PATHS - 1;
    const struct lent right = lent;
    expect("the longest", answer.written.length, length);
    refuse_network(frame);
    memcpy(lent.labels + NESBRUNKA_LABEL * last, lent.labels, NESBRUNKA_LABEL);
    walk("the last label twice", frame, NESBRUNKA_REFUSED_LABEL_TWICE, last);
    lent.labels[LABELS - 1] = '+';
    walk("the last label's form", frame, NESBRUNKA_REFUSED_FORM, last);
    lent = right;
    lent.starts[last] = 0;
    walk("the last start", frame, NESBRUNKA_REFUSED_START, last);
    lent = right;
    lent.text_length = length - 1;
    walk("one byte too short", frame, NESBRUNKA_REFUSED_ROOM, 0);
    lent = right;
}

/* The conflict of the last two paths takes the place of another. */
static void join_last_pair(void)
{
    join(0, 1, NESBRUNKA_NO_CONFLICT);
    join(PATHS - 2, PATHS - 1, NESBRUNKA_GUARD_MOST);
}

static void walk_write(void)
{
    begin("nesbrunka_write");
    lay(1);
    walk("one path", write_sheet, NESBRUNKA_DONE, 0);
    lay_line(2);
    pack_order();
    walk("two paths", write_sheet, NESBRUNKA_DONE, 0);
    lay_long(NESBRUNKA_PAIRS_MOST);
    memset(lent.starts, 0, sizeof lent.starts);
    walk("128 paths without a plan", write_sheet, NESBRUNKA_DONE, 0);
    lay_long(NESBRUNKA_PAIRS_MOST + 1);
    walk("too many pairs", write_sheet, NESBRUNKA_REFUSED_COUNT, 0);
    lay_long(NESBRUNKA_PAIRS_MOST);
    join_last_pair();
    walk("the longest sheet", write_sheet, NESBRUNKA_DONE, 0);
    refuse_writing(write_sheet, NESBRUNKA_SHEET_MOST);
    tell();
}

static void walk_order_write(void)
{
    begin("nesbrunka_order_write");
    lay(1);
    pack_order();
    walk("one path", order_write, NESBRUNKA_DONE, 0);
    lent.anchor = -NESBRUNKA_ANCHOR_MOST;
    walk("one path, lowest", order_write, NESBRUNKA_DONE, 0);
    lay(PATHS);
    pack_order();
    lent.anchor = -NESBRUNKA_ANCHOR_MOST;
    walk("128 paths, lowest", order_write, NESBRUNKA_DONE, 0);
    lay_long(NESBRUNKA_PAIRS_MOST);
    join_last_pair();
    walk("the longest order sheet", order_write, NESBRUNKA_DONE, 0);
    refuse_writing(order_write, NESBRUNKA_ORDER_MOST);
    lent.anchor = -NESBRUNKA_ANCHOR_MOST - 1;
    walk("the anchor", order_write, NESBRUNKA_REFUSED_ANCHOR, 0);
    tell();
}

/* The same in the longest order sheet. */
enum { ORDER_LINE = 18, LAST_ORDER = NESBRUNKA_ORDER_MOST - ORDER_LINE, LAST_ORDER_NUMBER = 129 };

static void walk_order_read(void)
{
    begin("nesbrunka_order_read");
    lay(1);
    pack_order();
    put_order_sheet();
    walk("one path", order_read, NESBRUNKA_DONE, 0);
    lay(PATHS);
    pack_order();
    lent.anchor = -NESBRUNKA_ANCHOR_MOST;
    put_order_sheet();
    walk("128 paths, lowest", order_read, NESBRUNKA_DONE, 0);
    lay_long(NESBRUNKA_PAIRS_MOST);
    join_last_pair();
    put_order_sheet();
    expect("the longest order sheet", lent.text_length, NESBRUNKA_ORDER_MOST);
    walk("the longest order sheet", order_read, NESBRUNKA_DONE, 0);
    refuse_network(order_read);
    damage(order_read, "the count", 6, "127", NESBRUNKA_REFUSED_COUNT, 1);
    damage(order_read, "the last label", LAST_ORDER, "PATH-126", NESBRUNKA_REFUSED_LABEL_UNKNOWN,
           LAST_ORDER_NUMBER);
    damage(order_read, "the last m", LAST_ORDER + 15, "63", NESBRUNKA_REFUSED_WIDTH, LAST_ORDER_NUMBER);
    damage(order_read, "the last n", LAST_ORDER + 9, "99999", NESBRUNKA_REFUSED_START, LAST_ORDER_NUMBER);
    damage(order_read, "the last n, below 0", LAST_ORDER + 9, "-9999", NESBRUNKA_REFUSED_START,
           LAST_ORDER_NUMBER);
    damage(order_read, "the last form", LAST_ORDER + 9, "-0999", NESBRUNKA_REFUSED_FORM, LAST_ORDER_NUMBER);
    lent.text_length++;
    walk("a byte left over", order_read, NESBRUNKA_REFUSED_FORM, LAST_ORDER_NUMBER + 1);
    lent.anchor = NESBRUNKA_ANCHOR_MOST + 1;
    walk("the anchor", order_read, NESBRUNKA_REFUSED_ANCHOR, 0);
    tell();
}

/* A block: its number by one call, its centre by the other, which is 0.0 where it is refused. */
static void walk_block(const char *way, void (*frame)(void), size_t number)
{
    if (frame == centre) {
        measure(way, frame);
        check((answer.centre == 0.0) == (number != NESBRUNKA_DONE), "%s, %s: %f", call, way, answer.centre);
    } else {
        walk(way, frame, number, 0);
    }
}

static void walk_blocks(void (*frame)(void))
{
    lay(1);
    walk_block("the highest", frame, NESBRUNKA_DONE);
    lent.anchor = -NESBRUNKA_ANCHOR_MOST;
    lent.start = lent.width = 1;
    walk_block("the lowest", frame, NESBRUNKA_DONE);
    lent.start = 0;
    walk_block("the start", frame, NESBRUNKA_REFUSED_START);
    lent.width = NESBRUNKA_WIDTH_MOST + 1;
    walk_block("the width", frame, NESBRUNKA_REFUSED_WIDTH);
    lent.anchor = NESBRUNKA_ANCHOR_MOST + 1;
    walk_block("the anchor", frame, NESBRUNKA_REFUSED_ANCHOR);
}

static void walk_centre(void)
{
    begin("nesbrunka_centre");
    walk_blocks(centre);
    tell();
    begin("nesbrunka_centre_number");
    walk_blocks(centre_number);
    tell();
}

void walk_calls(void)
{
    walk_judge();
    walk_pack();
    walk_press();
    walk_why();
    walk_better();
    walk_two_sides();
    walk_plan();
    walk_improve();
    walk_floor();
    walk_read();
    walk_write();
    walk_centre();
    walk_order_write();
    walk_order_read();
}
