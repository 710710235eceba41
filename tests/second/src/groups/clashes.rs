//! Number 8 and its shortfall, held against the slots (RULES 4): the checks, which other groups use
//! too, and two paths at every distance, from clear on one side to clear on the other.

use crate::brute;
use crate::calls::Answer;
use crate::compare::{self, Case, Tally};
use crate::gen::{self, Rng};
use crate::groups::chains;
use crate::net::*;

/// The least and the largest, their neighbours, and one in between.
const WIDTHS: [u16; 5] = [1, 2, 9, 63, 64];
const GUARDS: [u8; 5] = [0, 1, 5, 31, 32];

/// One piece for each two widths.
pub const PIECES: usize = WIDTHS.len() * WIDTHS.len();

pub fn piece(t: &mut Tally, _: &mut Rng, number: usize) {
    let widths = [WIDTHS[number % WIDTHS.len()], WIDTHS[number / WIDTHS.len()]];
    for guard in GUARDS {
        every_distance(t, widths, guard);
    }
}

/// Two paths from two slots more than they need on the one side to as many on the other, the lower
/// one in slot 1 and then the upper one at the last start.
fn every_distance(t: &mut Tally, widths: [u16; 2], guard: u8) {
    let enough = |width: u16| width + u16::from(guard) + 2;
    let below = (1..=enough(widths[1])).map(|apart| [1 + apart, 1]);
    let above = (0..=enough(widths[0])).map(|apart| [1, 1 + apart]);
    for low in below.chain(above) {
        let mut high = low;
        gen::raise(&mut high);
        for starts in [low, high] {
            let c = pair(widths, starts, guard);
            t.cases += 1;
            let net = c.network();
            by_slots(t, &c, &net);
            chains::told(t, &Case { path: 1, ..c }, &net);
        }
    }
}

/// Two paths in conflict.
fn pair(widths: [u16; 2], starts: [u16; 2], guard: u8) -> Case {
    let table = |first: [u16; 2]| [&first[..], &[7; PATHS - 2]].concat();
    let (widths, starts) = (table(widths), table(starts));
    let (guards, chain) = (vec![NONE; CELLS], vec![77; PATHS]);
    let mut c = Case { n: 2, widths, starts, guards, chain, ..Case::default() };
    gen::set_guard(&mut c, 0, 1, guard);
    c
}

/// A plan judged and pressed, and one of its paths asked about, each answer held against its slots.
pub fn by_slots(t: &mut Tally, c: &Case, net: &Network) {
    let clash = brute::first_close_pair(net, &c.plan());
    let tested = [compare::judge(t, c), compare::press(t, c)].map(|got| got.map(|g| g.answer));
    let asked = chains::told(t, c, net).map(|told| told.answer);
    for answer in tested.into_iter().chain([asked]).flatten() {
        hold(t, c, net, clash, answer);
    }
}

/// Each conflicting pair of a plan judged by itself, either path as path 0. It is as short the one
/// way as the other, unless the two start together: their numbers say then which is the upper one.
pub fn each_pair(t: &mut Tally, c: &Case, net: &Network) {
    for (i, j, guard) in net.conflicts() {
        let shorts = [(i, j), (j, i)].map(|(first, second)| {
            let of_both = |table: &[u16]| [table[first], table[second]];
            pair_short(t, &pair(of_both(&c.widths), of_both(&c.starts), guard as u8))
        });
        if let ([Some(one), Some(two)], true) = (shorts, c.starts[i] != c.starts[j]) {
            t.check("as short whichever path is named first", c, one == two);
        }
    }
}

/// How many slots the library says that a pair is short, held against its slots.
fn pair_short(t: &mut Tally, c: &Case) -> Option<usize> {
    let net = c.network();
    let got = compare::judge(t, c)?.answer;
    hold(t, c, &net, brute::first_close_pair(&net, &c.plan()), got);
    Some(got.short)
}

/// Number 8 names the first pair whose slots are too close, and its shortfall is what they lack.
/// With another number, 7 where a start is missing and else 0, nothing is short.
fn hold(t: &mut Tally, c: &Case, net: &Network, clash: Option<(usize, usize)>, got: Answer) {
    let plan = c.plan();
    let holds = match clash {
        _ if plan.contains(&0) => got.number == 7 && got.short == 0,
        None => got.number == 0 && got.short == 0,
        Some((i, j)) => {
            let named = got.number == 8 && got.place == cell(i, j) && got.short > 0;
            named && brute::is_shortfall(net, &plan, (i, j), got.short)
        }
    };
    t.check("a clash and its shortfall are those of the slots", c, holds);
}
