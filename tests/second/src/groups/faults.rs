//! Wrong table sizes, wrong n, and faults of every kind at random places, several at once:
//! which one wins, at which place, and that nothing is changed.

use crate::compare::{self, Case, Tally};
use crate::damage::Draft;
use crate::gen::{self, Rng, Shape, SHAPES};
use crate::net::*;

pub const PIECES: usize = 800;
const EACH: usize = 50;

/// Faults at random places.
pub fn piece(t: &mut Tally, rng: &mut Rng, number: usize) {
    for k in 0..EACH {
        let n = if rng.percent(70) { rng.range(1, 9) } else { rng.range(1, PATHS) };
        let shape = rng.pick(&SHAPES);
        let mut c = gen::case(rng, n, shape);
        // A clash is the last fault of judging and pressing: each other one has to win over it, but
        // for a path that there is not.
        if rng.percent(50) {
            c.starts = gen::any_plan(rng, &c);
        }
        let order = Draft::order(&c).text();
        c.rounds = rng.pick(&[0, 1, 7]);
        if n < 5 && rng.percent(3) {
            c.rounds = MAX_ROUNDS;
        }
        // Every kind of fault comes alone in turn, and then with others.
        let kind = (number * EACH + k) % KINDS;
        fault(rng, &mut c, kind);
        for _ in 0..rng.pick(&[0, 0, 1, 1, 2, 3]) {
            let kind = rng.below(KINDS);
            fault(rng, &mut c, kind);
        }
        t.cases += 1;
        compare::all_calls(t, &c);
        // With an order sheet that was right, too.
        if k % 2 == 0 {
            compare::order_read(t, &Case { text: order, ..c });
        }
    }
}

const KINDS: usize = 21;

/// One fault. The places are below n as it was; n itself may be wrong by then.
fn fault(rng: &mut Rng, c: &mut Case, kind: usize) {
    let n = c.n.clamp(1, PATHS);
    let (i, j) = (rng.below(n), rng.below(n));
    match kind {
        0 => c.n = wrong_n(rng),
        1 => wrong_size(rng, c),
        2 => put(&mut c.widths, i, rng.pick(&[0, 65, 66, 128, 256, 257, 0x8001, 65_535])),
        3 => put(&mut c.guards, cell(i, j), rng.pick(&[33, 34, 64, 100, 127, 128, 200, 254])),
        4 => put(&mut c.guards, cell(i, i), rng.pick(&[0, 1, 32, 33, 254])),
        5 if i != j => put(&mut c.guards, cell(i, j), rng.pick(&[0, 1, 2, 31, 32, 255])),
        6 => put(&mut c.order, i, rng.pick(&[n as u8, 128, 129, 255, n as u8 + 1])),
        7 => put(&mut c.order, i, rng.below(n) as u8),
        8 => put(&mut c.second, i, rng.pick(&[n as u8, 0, 128, 255])),
        9 => put(&mut c.starts, i, rng.pick(&[0, 16_385, 16_386, 32_767, 32_768, 65_535])),
        10 => c.starts.iter_mut().take(n).for_each(|s| *s = rng.range(1, 40) as u16),
        11 => put(&mut c.starts, i, rng.pick(&[1, 2, 16_383, 16_384])),
        12 => c.rounds = rng.pick(&[10_001, 10_002, 65_536, 1 << 32, 1 << 63, usize::MAX]),
        13 => c.list = gen::any_list(rng, &Case { n, ..right_sizes(c) }),
        14 => wrong_label(rng, c, i),
        15 => same_label(c, i, j),
        16 => c.text.truncate(rng.pick(&[0, 10, 39])),
        17 => c.starts.iter_mut().take(n).for_each(|s| *s = 0),
        18 => past_n(rng, c, n),
        19 => c.path = wrong_path(rng, n),
        20 => c.anchor = gen::wrong_anchor(rng),
        _ => {}
    }
}

/// Puts a value where the table has such a place.
fn put<T>(table: &mut [T], at: usize, value: T) {
    if let Some(place) = table.get_mut(at) {
        *place = value;
    }
}

fn wrong_n(rng: &mut Rng) -> usize {
    let low = rng.range(130, 400);
    rng.pick(&[
        0,
        129,
        130,
        255,
        256,
        257,
        low,
        16_384,
        65_537,
        1 << 32,
        (1 << 32) + 3,
        1 << 63,
        usize::MAX - 1,
        usize::MAX,
    ])
}

/// A number that no path has: the next, one past a table or a byte, or one that is in range once it
/// is cut.
fn wrong_path(rng: &mut Rng, n: usize) -> usize {
    let any = n + rng.below(200);
    rng.pick(&[n, n + 1, any, PATHS, 255, 256, 65_536, 1 << 32, 1 << 63, usize::MAX])
}

/// Another length for one table: empty, one less, one more, n, double, or any.
fn wrong_size(rng: &mut Rng, c: &mut Case) {
    let n = c.n.min(PATHS);
    let which = rng.below(7);
    let length = |rng: &mut Rng, fixed: usize| {
        let any = rng.below(2 * fixed);
        rng.pick(&[0, 1, n, fixed - 1, fixed + 1, 2 * fixed, any])
    };
    match which {
        0 => c.widths.resize(length(rng, PATHS), 1),
        1 => c.guards.resize(length(rng, CELLS), 255),
        2 => c.starts.resize(length(rng, PATHS), 1),
        3 => c.order.resize(length(rng, PATHS), 1),
        4 => c.second.resize(length(rng, PATHS), 1),
        5 => c.chain.resize(length(rng, PATHS), 1),
        _ => c.labels.resize(length(rng, LABELS), 0),
    }
}

/// The case with tables of their sizes, for making a list.
fn right_sizes(c: &Case) -> Case {
    let mut right = c.clone();
    right.guards.resize(CELLS, NONE);
    right
}

/// A label of wrong form: empty, a byte that is not allowed, or a byte after a zero byte.
fn wrong_label(rng: &mut Rng, c: &mut Case, path: usize) {
    let at = LABEL * path;
    let place = at + rng.below(LABEL);
    match rng.below(4) {
        0 => put(&mut c.labels, at, 0),
        1 => (at..at + LABEL).for_each(|p| put(&mut c.labels, p, 0)),
        2 => put(&mut c.labels, place, 0),
        _ => put(&mut c.labels, place, rng.pick(b"ax z_/:@[.+*\n\t\x01\x7F\x80\xFF")),
    }
}

fn same_label(c: &mut Case, from: usize, to: usize) {
    for k in 0..LABEL {
        if let Some(byte) = c.labels.get(LABEL * from + k).copied() {
            put(&mut c.labels, LABEL * to + k, byte);
        }
    }
}

/// No fault: junk where no call may look.
fn past_n(rng: &mut Rng, c: &mut Case, n: usize) {
    for _ in 0..20 {
        let (i, j) = (rng.below(PATHS), rng.below(PATHS));
        if i >= n || j >= n {
            put(&mut c.guards, cell(i, j), rng.bits() as u8);
        }
        if i >= n {
            put(&mut c.widths, i, rng.bits() as u16);
            put(&mut c.starts, i, rng.bits() as u16);
            put(&mut c.order, i, rng.bits() as u8);
            put(&mut c.labels, LABEL * i, rng.bits() as u8);
        }
    }
}

/// One piece for each table whose length is varied.
pub const SIZE_PIECES: usize = 7;

/// Every call with one table of each wrong length, and each with a right and a wrong n.
pub fn sizes_piece(t: &mut Tally, rng: &mut Rng, which: usize) {
    let fixed = [PATHS, CELLS, PATHS, PATHS, PATHS, LABELS, PATHS][which];
    let near: Vec<usize> = vec![0, 1, 2, 3, fixed / 2, fixed - 1, fixed, fixed + 1, 2 * fixed];
    for length in near {
        for n in [1, 2, 3, 64, 127, 128, 0, 129, usize::MAX] {
            let paths = n.clamp(1, PATHS);
            let mut c = gen::case(rng, paths, Shape::Density(50));
            c.starts = gen::any_plan(rng, &c);
            c.n = n;
            match which {
                0 => c.widths.resize(length, 1),
                1 => c.guards.resize(length, NONE),
                2 => c.starts.resize(length, 1),
                3 => c.order.resize(length, 1),
                4 => c.second.resize(length, 1),
                5 => c.labels.resize(length, 0),
                _ => c.chain.resize(length, 1),
            }
            t.cases += 1;
            compare::all_calls(t, &c);
            // With a sheet that could be read, too.
            c.text = b"paths 1\nA 1\nguards 0\n".to_vec();
            compare::read(t, &c);
        }
    }
}
