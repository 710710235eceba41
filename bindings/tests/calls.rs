//! Each function once or twice through the archive: its tables reach the call in their places, and
//! what the call leaves comes back. The network is three paths of widths 2, 4, 3 with the guards
//! 0-1: 1, 1-2: 2, 0-2: 0.

use nesbrunka::*;

const WORKED: &[u8] = b"paths 3\n0417 2\n417 4\nA9 3\nguards 2\n0417 417 1\n417 A9 2\n";
/// What is ordered for its plan, the starts 1, 6, 1, from the anchor -6.
const ORDER: &[u8] = b"order 3\n0417 -4 2\n417 8 4\nA9 -3 3\n";

fn network() -> ([u16; PATHS], [u8; CELLS]) {
    let (mut widths, mut guards) = ([0; PATHS], [NO_CONFLICT; CELLS]);
    widths[..3].copy_from_slice(&[2, 4, 3]);
    for (i, j, guard) in [(0, 1, 1), (1, 2, 2), (0, 2, 0)] {
        guards[PATHS * i + j] = guard;
        guards[PATHS * j + i] = guard;
    }
    (widths, guards)
}

/// A table whose first cells are given; the rest is junk that no call may mind or change.
fn table<T: Copy>(first: &[T], junk: T) -> [T; PATHS] {
    let mut cells = [junk; PATHS];
    cells[..first.len()].copy_from_slice(first);
    cells
}

#[test]
fn judging() {
    let (widths, guards) = network();
    let valid = judge(3, &widths, &guards, &table(&[1, 4, 10], 9));
    assert_eq!(valid, Judged { number: DONE, place: 0, short: 0 });
    // Path 1 ends at 7, and with the guard of 2 path 2 may start at 10.
    let close = judge(3, &widths, &guards, &table(&[1, 4, 7], 9));
    assert_eq!(close, Judged { number: REFUSED_CLASH, place: 128 + 2, short: 3 });
    let none = judge(3, &widths, &guards, &table(&[1, 4, 0], 9));
    assert_eq!(none, Judged { number: REFUSED_START, place: 2, short: 0 });
}

#[test]
fn packing() {
    let (widths, guards) = network();
    let mut starts = [7; PATHS];
    let packed = pack(3, &widths, &guards, &table(&[1, 0, 2], 9), &mut starts);
    assert_eq!(packed, Packed { number: DONE, place: 0, highest: 10 });
    assert_eq!(starts, table(&[6, 1, 8], 7));
}

#[test]
fn pressing() {
    let (widths, guards) = network();
    let mut starts = table(&[20, 10, 30], 7);
    let pressed = press(3, &widths, &guards, &mut starts);
    assert_eq!(pressed, Pressed { number: DONE, place: 0, short: 0, highest: 10 });
    assert_eq!(starts, table(&[6, 1, 8], 7));
}

#[test]
fn pressing_refused() {
    let (widths, guards) = network();
    // Path 1 ends at 5, and with the guard of 1 path 0 may start at 7.
    let mut starts = table(&[3, 2, 20], 7);
    let close = press(3, &widths, &guards, &mut starts);
    assert_eq!(close, Pressed { number: REFUSED_CLASH, place: 1, short: 4, highest: 0 });
    assert_eq!(starts, table(&[3, 2, 20], 7));
    let none = press(3, &widths, &guards, &mut table(&[3, 0, 20], 7));
    assert_eq!(none, Pressed { number: REFUSED_START, place: 1, short: 0, highest: 0 });
}

#[test]
fn explaining() {
    let (widths, guards) = network();
    let mut chain = [9; PATHS];
    let all = why(3, &widths, &guards, &table(&[1, 4, 10], 7), 2, &mut chain);
    assert_eq!(all, Reason { number: DONE, place: 0, short: 0, length: 3, down: 0 });
    assert_eq!(chain, table(&[2, 1, 0], 9));
    // Path 2 stands one slot above where path 1 holds it up.
    let free = why(3, &widths, &guards, &table(&[1, 4, 11], 7), 2, &mut chain);
    assert_eq!(free, Reason { number: DONE, place: 0, short: 0, length: 1, down: 1 });
    assert_eq!(chain, table(&[2, 1, 0], 9));
}

#[test]
fn explaining_refused() {
    let (widths, guards) = network();
    let mut chain = [9; PATHS];
    let close = why(3, &widths, &guards, &table(&[3, 2, 20], 7), 3, &mut chain);
    assert_eq!(close, Reason { number: REFUSED_CLASH, place: 1, short: 4, length: 0, down: 0 });
    let none = why(3, &widths, &guards, &table(&[1, 4, 10], 7), 3, &mut chain);
    assert_eq!(none, Reason { number: REFUSED_ENTRY, place: 0, short: 0, length: 0, down: 0 });
    let small = why(3, &widths, &guards, &table(&[1, 4, 10], 7), 0, &mut chain[1..]);
    assert_eq!(small.number, REFUSED_SIZE);
    assert_eq!(chain, [9; PATHS]);
}

#[test]
fn comparing() {
    let (widths, guards) = network();
    let (high, low) = (table(&[0, 1, 2], 9), table(&[1, 0, 2], 9));
    let same = |part: &[u8], of: &[u8]| part.as_ptr() == of.as_ptr() && part.len() == 3;
    assert!(same(better(3, &widths, &guards, &high, &low), &low));
    assert!(same(better(3, &widths, &guards, &low, &high), &low));
    assert!(same(better(3, &widths, &guards, &high, &table(&[2, 1, 0], 9)), &high));
    assert!(better(3, &widths, &guards, &high, &table(&[0, 0, 0], 9)).is_empty());
}

#[test]
fn siding() {
    let (widths, mut guards) = network();
    let mut order = [9; PATHS];
    let none = two_sides(3, &widths, &guards, &mut order);
    assert_eq!((none, order), (Sided { number: REFUSED_NO_SIDES, place: 0, low: 0 }, [9; PATHS]));
    (guards[2], guards[2 * PATHS]) = (NO_CONFLICT, NO_CONFLICT);
    let sided = two_sides(3, &widths, &guards, &mut order);
    assert_eq!(sided, Sided { number: DONE, place: 0, low: 2 });
    assert_eq!(order, table(&[0, 2, 1], 9));
}

#[test]
fn planning() {
    let (widths, guards) = network();
    let (mut order, mut starts) = ([9; PATHS], [7; PATHS]);
    let greedy = plan(3, &widths, &guards, &mut order, &mut starts, 1, 0);
    assert_eq!(greedy, Planned { number: DONE, place: 0, highest: 11, kept: 0 });
    assert_eq!((order, starts), (table(&[0, 2, 1], 9), table(&[1, 8, 3], 7)));
    let planned = plan(3, &widths, &guards, &mut order, &mut starts, 1, 1);
    assert_eq!(planned, Planned { number: DONE, place: 0, highest: 10, kept: 1 });
    let refused = plan(3, &widths, &guards, &mut order, &mut starts, 1, ROUNDS_MOST + 1);
    assert_eq!(refused.number, REFUSED_ROUNDS);
}

#[test]
fn improving() {
    let (widths, guards) = network();
    let (mut order, mut starts) = (table(&[0, 2, 1], 9), [7; PATHS]);
    let improved = improve(3, &widths, &guards, &mut order, &mut starts, 1, 1);
    assert_eq!(improved, Planned { number: DONE, place: 0, highest: 10, kept: 1 });
    assert_eq!(order, table(&[2, 0, 1], 9));
    assert_eq!(judge(3, &widths, &guards, &starts).number, DONE);
}

#[test]
fn flooring() {
    let (widths, guards) = network();
    let all = floor(3, &widths, &guards, &[0, 1, 2]);
    assert_eq!(all, Floored { number: DONE, place: 0, floor: 10 });
    let (empty, twice) = (floor(3, &widths, &guards, &[]), floor(3, &widths, &guards, &[2, 2]));
    assert_eq!(empty, Floored { number: REFUSED_LIST, place: 0, floor: 0 });
    assert_eq!(twice, Floored { number: REFUSED_LIST, place: 1, floor: 0 });
}

#[test]
fn reading_and_writing() {
    let (mut labels, mut widths) = ([1; LABELS], [1; PATHS]);
    let (mut guards, mut starts) = ([1; CELLS], [1; PATHS]);
    let sheet = read(WORKED, &mut labels, &mut widths, &mut guards, &mut starts);
    assert_eq!(sheet, SheetRead { number: DONE, place: 0, n: 3 });
    assert_eq!(labels[..3 * LABEL], *b"0417\0\0\0\x00417\0\0\0\0\0A9\0\0\0\0\0\0");
    assert_eq!((widths, starts), (table(&[2, 4, 3], 0), [0; PATHS]));
    assert_eq!((guards[1], guards[PATHS + 2], guards[2]), (1, 2, NO_CONFLICT));
    let mut text = [b'x'; WORKED.len() + 1];
    let written = write(3, &labels, &widths, &guards, &starts, &mut text);
    assert_eq!(written, SheetWritten { number: DONE, place: 0, length: WORKED.len() });
    assert_eq!((&text[..WORKED.len()], text[WORKED.len()]), (WORKED, b'x'));
    let short = write(3, &labels, &widths, &guards, &starts, &mut text[..WORKED.len() - 1]);
    assert_eq!(short, SheetWritten { number: REFUSED_ROOM, place: 0, length: 0 });
    let damaged = read(b"paths 3\n", &mut labels, &mut widths, &mut guards, &mut starts);
    assert_eq!(damaged, SheetRead { number: REFUSED_FORM, place: 2, n: 0 });
    assert_eq!((labels, guards), ([0; LABELS], [NO_CONFLICT; CELLS]));
}

/// The tables of the worked example and its plan.
fn worked() -> ([u8; LABELS], [u16; PATHS], [u8; CELLS], [u16; PATHS]) {
    let (mut labels, mut widths) = ([1; LABELS], [1; PATHS]);
    let (mut guards, mut starts) = ([1; CELLS], [1; PATHS]);
    read(WORKED, &mut labels, &mut widths, &mut guards, &mut starts);
    (labels, widths, guards, table(&[1, 6, 1], 9))
}

#[test]
fn ordering() {
    let (labels, widths, guards, starts) = worked();
    let mut text = [b'x'; ORDER.len() + 1];
    let written = order_write(-6, 3, &labels, &widths, &guards, &starts, &mut text);
    assert_eq!(written, SheetWritten { number: DONE, place: 0, length: ORDER.len() });
    assert_eq!((&text[..ORDER.len()], text[ORDER.len()]), (ORDER, b'x'));
    let mut found = [7; PATHS];
    let ordered = order_read(-6, ORDER, 3, &labels, &widths, &guards, &mut found);
    assert_eq!(ordered, Ordered { number: DONE, place: 0 });
    assert_eq!(found, table(&[1, 6, 1], 7));
}

#[test]
fn ordering_refused() {
    let (labels, widths, guards, starts) = worked();
    let mut text = [b'x'; ORDER_MOST];
    let mut write = |anchor, starts: &[u16], room| {
        let text = &mut text[..room];
        let written = order_write(anchor, 3, &labels, &widths, &guards, starts, text);
        assert!(written.length == 0 && text.iter().all(|&byte| byte == b'x'));
        (written.number, written.place)
    };
    assert_eq!(write(ANCHOR_MOST + 1, &starts, 0), (REFUSED_ANCHOR, 0));
    assert_eq!(write(-ANCHOR_MOST, &table(&[1, 0, 1], 9), 0), (REFUSED_START, 1));
    assert_eq!(write(-6, &starts, ORDER.len() - 1), (REFUSED_ROOM, 0));
    let read = |anchor, sheet: &[u8]| {
        let mut found = [7; PATHS];
        let ordered = order_read(anchor, sheet, 3, &labels, &widths, &guards, &mut found);
        assert_eq!(found, [7; PATHS]);
        (ordered.number, ordered.place)
    };
    assert_eq!(read(-ANCHOR_MOST - 1, b""), (REFUSED_ANCHOR, 0));
    assert_eq!(read(-6, b"order 4\n"), (REFUSED_COUNT, 1));
    assert_eq!(read(-6, b"order 3\n0417 -4 2\n417 -0 4\n"), (REFUSED_FORM, 3));
    assert_eq!(read(-6, b"order 3\n0417 -4 2\nA9 9 5\n"), (REFUSED_LABEL_UNKNOWN, 3));
    assert_eq!(read(-6, b"order 3\n0417 -4 2\n417 9 5\n"), (REFUSED_WIDTH, 3));
    assert_eq!(read(-6, b"order 3\n0417 -4 2\n417 9 4\n"), (REFUSED_START, 3));
}

#[test]
fn centring() {
    // The block of 417 in the worked example: n is 8.
    assert_eq!((centre(-6, 6, 4), centre_number(-6, 6, 4)), (193150.0, DONE));
    assert_eq!(centre(0, 1, 1), 193106.25);
    assert_eq!(centre(-ANCHOR_MOST, 1, 1), 186706.25);
    assert_eq!(centre(ANCHOR_MOST, START_MOST.into(), WIDTH_MOST.into()), 404687.5);
    let refused = [
        (ANCHOR_MOST + 1, 0, 0, REFUSED_ANCHOR),
        (i32::MIN, 1, 1, REFUSED_ANCHOR),
        (0, 0, 0, REFUSED_WIDTH),
        (0, 1, 65, REFUSED_WIDTH),
        (0, 0, 1, REFUSED_START),
        (0, 16385, 64, REFUSED_START),
    ];
    for (anchor, start, width, number) in refused {
        assert_eq!(centre_number(anchor, start, width), number);
        assert_eq!(centre(anchor, start, width).to_bits(), 0.0f64.to_bits());
    }
}

#[test]
fn empty_slices_are_refused() {
    let (widths, guards) = network();
    assert_eq!(judge(3, &widths, &guards, &[]).number, REFUSED_SIZE);
    assert_eq!(pack(3, &[], &[], &[], &mut []).number, REFUSED_SIZE);
    assert_eq!(read(WORKED, &mut [], &mut [], &mut [], &mut []).number, REFUSED_SIZE);
    assert_eq!(order_write(2000, 3, &[], &[], &[], &[], &mut []).number, REFUSED_SIZE);
    assert_eq!(order_read(2000, &[], 3, &[], &[], &[], &mut []).number, REFUSED_SIZE);
}
