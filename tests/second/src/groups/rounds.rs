//! The last of 10,000 rounds: orders that only a few swaps improve, and a seed with which the
//! first of these swaps is drawn in the very last round. With one round less nothing is kept.

use crate::compare::{self, Case, Outcome, Tally};
use crate::gen::{self, Rng, Shape};
use crate::net::*;
use crate::rules;

pub const PIECES: usize = 2;

pub fn piece(t: &mut Tally, rng: &mut Rng, number: usize) {
    let found = if number % 2 == 0 { rare_order(rng) } else { rare_greedy(rng) };
    let Some((mut c, swaps)) = found else { return };
    let Some(seed) = late_seed(rng, c.n, &swaps) else { return };
    c.seed = seed;
    t.cases += 1;
    let call = if number % 2 == 0 { compare::improve } else { compare::plan };
    for (rounds, kept) in [(MAX_ROUNDS, 1), (MAX_ROUNDS - 1, 0)] {
        let c = Case { rounds, ..c.clone() };
        if let Some(Outcome { answer, .. }) = call(t, &c) {
            t.check("the last round counts, and no more", &c, answer.more[1] == kept);
        }
    }
}

/// So few swaps that 9,999 rounds may well miss them all.
const FEW: usize = 3;

/// The swaps that improve an order.
type Swaps = Vec<(usize, usize)>;

/// All of them if they are few; otherwise the first of them.
fn improving_swaps(net: &Network, order: &[usize]) -> Swaps {
    let now = rules::highest(net, &rules::pack(net, order));
    let mut found = Vec::new();
    let mut order = order.to_vec();
    for a in 0..order.len() {
        for b in 0..a {
            order.swap(a, b);
            if rules::highest(net, &rules::pack(net, &order)) < now {
                found.push((a, b));
            }
            order.swap(a, b);
            if found.len() > FEW {
                return found;
            }
        }
    }
    found
}

/// An order that few swaps improve: a well improved one with one swap undone.
fn rare_order(rng: &mut Rng) -> Option<(Case, Swaps)> {
    let n = rng.range(80, 96);
    let mut c = gen::case(rng, n, Shape::Density(40));
    let net = c.network();
    let lent: Vec<usize> = c.order[..n].iter().map(|&p| usize::from(p)).collect();
    let mut order = rules::improve(&net, &lent, c.seed, MAX_ROUNDS).order;
    for _ in 0..100 {
        let swaps = improving_swaps(&net, &order);
        if (1..=FEW).contains(&swaps.len()) {
            (0..c.n).for_each(|k| c.order[k] = order[k] as u8);
            return Some((c, swaps));
        }
        match swaps.first() {
            Some(&(a, b)) => order.swap(a, b),
            None => order.swap(rng.below(c.n), rng.below(c.n)),
        }
    }
    None
}

/// A network whose greedy order few swaps improve.
fn rare_greedy(rng: &mut Rng) -> Option<(Case, Swaps)> {
    for _ in 0..200 {
        let n = rng.range(80, 96);
        let density = rng.pick(&[2, 3, 4, 6]);
        let c = gen::case(rng, n, Shape::Density(density));
        let net = c.network();
        let swaps = improving_swaps(&net, &rules::greedy_order(&net));
        if rules::sides(&net).is_none() && (1..=FEW).contains(&swaps.len()) {
            return Some((c, swaps));
        }
    }
    None
}

/// 1664525 times this is 1, wrapped at 32 bits.
const BACK: u32 = 4276115653;

/// The state before a state: 1664525 is odd, so a step can be taken back.
fn state_before(x: u32) -> u32 {
    x.wrapping_sub(1_013_904_223).wrapping_mul(BACK)
}

/// A seed whose draws meet one of the swaps in round 10,000 and none of them before.
fn late_seed(rng: &mut Rng, n: usize, swaps: &[(usize, usize)]) -> Option<u32> {
    let meets = |a: usize, b: usize| swaps.contains(&(a, b)) || swaps.contains(&(b, a));
    for _ in 0..2_000_000 {
        let last = rng.bits() as u32;
        let first = state_before(last);
        if !meets(rules::place_of(first, n), rules::place_of(last, n)) {
            continue;
        }
        let seed = (0..2 * MAX_ROUNDS).fold(last, |x, _| state_before(x));
        let mut state = seed;
        let early = (1..MAX_ROUNDS).any(|_| {
            let one = rules::next_state(state);
            state = rules::next_state(one);
            meets(rules::place_of(one, n), rules::place_of(state, n))
        });
        if !early {
            return Some(seed);
        }
    }
    None
}

#[test]
fn a_step_and_back() {
    for x in [0, 1, 77_777, 1 << 31, u32::MAX] {
        assert_eq!(state_before(rules::next_state(x)), x);
    }
}
