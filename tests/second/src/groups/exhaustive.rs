//! All networks of up to 3 paths with widths 1 to 2 and guards none, 0 and 1: every order, the
//! wrong ones too, every small plan, every short list, through all calls. All networks of 4 paths,
//! each two in conflict, with guards 0 to 2: every short list.

use crate::brute;
use crate::compare::{self, Call, Case, Tally};
use crate::gen::{self, Rng};
use crate::groups::{chains, clashes, floors};
use crate::net::*;
use std::collections::BTreeMap;

/// Networks of up to three paths: 2 of one path, 12 of two, 216 of three.
const SMALL: usize = 2 + 4 * 3 + 8 * 27;
/// One piece for each network; four paths that are all in conflict have six guards.
pub const PIECES: usize = SMALL + 729;

pub fn piece(t: &mut Tally, _: &mut Rng, number: usize) {
    t.cases += 1;
    if number >= SMALL {
        return lists(t, &four_in_conflict(number - SMALL));
    }
    let c = network(number);
    plans(t, &c);
    orders(t, &c);
    lists(t, &c);
    planning(t, &c);
}

/// The network of a number.
fn network(number: usize) -> Case {
    let (n, mut rest) = match number {
        0..=1 => (1, number),
        2..=13 => (2, number - 2),
        _ => (3, number - 14),
    };
    let mut c = tables(n);
    for i in 0..n {
        c.widths[i] = 1 + (rest % 2) as u16;
        rest /= 2;
    }
    for i in 0..n {
        for j in i + 1..n {
            gen::set_guard(&mut c, i, j, [NONE, 0, 1][rest % 3]);
            rest /= 3;
        }
    }
    c
}

/// Four paths with guards 0 to 2. Each set of them has other widths in sum.
fn four_in_conflict(number: usize) -> Case {
    let (mut c, mut rest) = (tables(4), number);
    c.widths[..4].copy_from_slice(&[1, 2, 4, 8]);
    for i in 0..4 {
        for j in i + 1..4 {
            gen::set_guard(&mut c, i, j, (rest % 3) as u8);
            rest /= 3;
        }
    }
    c
}

/// Tables of n paths without a conflict; junk past n.
fn tables(n: usize) -> Case {
    let mut labels = vec![b'x'; LABELS];
    for i in 0..n {
        labels[LABEL * i..LABEL * (i + 1)].copy_from_slice(b"P-\0\0\0\0\0\0");
        labels[LABEL * i + 1] = b'0' + i as u8;
    }
    let mut c = Case {
        n,
        widths: vec![99; PATHS],
        guards: vec![77; CELLS],
        starts: vec![55; PATHS],
        order: vec![200; PATHS],
        second: vec![3; PATHS],
        chain: vec![201; PATHS],
        labels,
        text: vec![b'?'; 120],
        ..Case::default()
    };
    (0..n).for_each(|i| c.guards[cell(i, 0)..cell(i, n)].fill(NONE));
    (0..n).for_each(|i| (c.order[i], c.second[i]) = (i as u8, i as u8));
    c
}

/// Every list of so many digits below the base.
fn digits(base: usize, count: usize) -> Vec<Vec<usize>> {
    let mut all = vec![Vec::new()];
    for _ in 0..count {
        let longer = |list: &Vec<usize>| {
            let list = list.clone();
            (0..base).map(move |d| [list.clone(), vec![d]].concat()).collect::<Vec<_>>()
        };
        all = all.iter().flat_map(longer).collect();
    }
    all
}

/// The highest start of the plans.
const TOP: usize = 8;

/// Judging, pressing and writing every plan with starts 0 to 8, then reading it back; and asking
/// about every path of it.
fn plans(t: &mut Tally, c: &Case) {
    let net = c.network();
    let leasts = if t.chooses(Call::Why) { brute::leasts(&net, TOP) } else { Vec::new() };
    for plan in digits(TOP + 1, c.n) {
        let mut c = c.clone();
        (0..c.n).for_each(|i| c.starts[i] = plan[i] as u16);
        clashes::by_slots(t, &c, &net);
        chains::every_path(t, &c, &net, &leasts);
        if let Some((answer, text)) = compare::write(t, &c) {
            c.text = text[..answer.more[0]].to_vec();
            compare::read(t, &c);
        }
    }
}

/// Packing, comparing and improving every list of entries 0 to n as an order.
fn orders(t: &mut Tally, c: &Case) {
    let all = digits(c.n + 1, c.n);
    for one in &all {
        let mut c = c.clone();
        (0..c.n).for_each(|i| c.order[i] = one[i] as u8);
        compare::pack(t, &c);
        for two in &all {
            (0..c.n).for_each(|i| c.second[i] = two[i] as u8);
            compare::better(t, &c);
        }
        for rounds in 0..6 {
            c.rounds = rounds;
            for seed in [0, 1, 2, 77_777, u32::MAX] {
                c.seed = seed;
                compare::improve(t, &c);
            }
        }
    }
}

/// The floor of every list of up to four entries 0 to n. Lists of the same paths have the same.
fn lists(t: &mut Tally, c: &Case) {
    let (net, mut c) = (c.network(), floors::bare(c));
    let mut known = BTreeMap::new();
    for length in 0..=4 {
        for list in digits(c.n + 1, length) {
            c.list = list.iter().map(|&p| p as u8).collect();
            let Some(floor) = floors::told(t, &c, &net) else { continue };
            floors::by_best_plan(t, &c, &net, floor);
            let mut set = list;
            set.sort_unstable();
            if let Some(other) = known.insert(set, floor) {
                let same = floor == other;
                t.check_of(Call::Floor, "the floor is one in any order", &c, same);
            }
        }
    }
}

/// The two-sided call, and planning with few rounds.
fn planning(t: &mut Tally, c: &Case) {
    compare::two_sides(t, c);
    for rounds in [0, 1, 2, 3, 10, 100] {
        for seed in [0, 1, 2, 77_777, u32::MAX] {
            compare::plan(t, &Case { rounds, seed, ..c.clone() });
        }
    }
}
