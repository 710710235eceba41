//! Self-checks that need no library: the figures of RULES 20 and outside vectors, on this
//! program's own implementation.

use crate::ask;
use crate::brute;
use crate::calls::{self, Answer};
use crate::net::*;
use crate::rules;
use crate::sheet;

/// Network T of RULES 20.
fn t() -> Network {
    Network::of(&[2, 4, 3], &[(0, 1, 1), (1, 2, 2), (0, 2, 0)])
}

/// The tables of a network, cells past n zero.
fn tables(widths: &[u16], conflicts: &[(usize, usize, u8)]) -> (Vec<u16>, Vec<u8>) {
    let mut table = widths.to_vec();
    table.resize(PATHS, 0);
    let mut guards = vec![NONE; CELLS];
    for &(i, j, guard) in conflicts {
        guards[cell(i, j)] = guard;
        guards[cell(j, i)] = guard;
    }
    (table, guards)
}

fn t_tables() -> (Vec<u16>, Vec<u8>) {
    tables(&[2, 4, 3], &[(0, 1, 1), (1, 2, 2), (0, 2, 0)])
}

fn long<T: Copy + Default>(first: &[T]) -> Vec<T> {
    let mut table = first.to_vec();
    table.resize(PATHS, T::default());
    table
}

fn refused(number: usize, place: usize) -> Answer {
    Answer::new(number, place, [0, 0])
}

/// A clash of a pair, and how many slots it is short.
fn clash(i: usize, j: usize, short: usize) -> Answer {
    refused(8, cell(i, j)).with_short(short)
}

fn packs(order: [usize; 3], starts: [usize; 3], highest: usize) {
    assert_eq!(rules::pack(&t(), &order), starts);
    assert_eq!(rules::highest(&t(), &starts), highest);
}

#[test]
fn p1_to_p4_packing_and_greedy() {
    packs([0, 1, 2], [1, 4, 10], 12);
    packs([2, 1, 0], [11, 6, 1], 12);
    packs([1, 0, 2], [6, 1, 8], 10);
    assert_eq!(rules::greedy_order(&t()), [0, 2, 1]);
    packs([0, 2, 1], [1, 8, 3], 11);
}

#[test]
fn p5_pressing() {
    let (widths, guards) = t_tables();
    let mut starts = long(&[20, 10, 30]);
    assert_eq!(calls::press(3, &widths, &guards, &mut starts), Answer::done(10, 0));
    assert_eq!(starts, long(&[6, 1, 8]));
}

#[test]
fn p6_no_two_sides() {
    let (widths, guards) = t_tables();
    let mut order = long(&[9, 9, 9]);
    assert_eq!(calls::two_sides(3, &widths, &guards, &mut order), refused(9, 0));
    assert_eq!(order, long(&[9, 9, 9]));
}

#[test]
fn p7_improving() {
    assert_eq!(rules::next_state(1), 1_015_568_748);
    assert_eq!(rules::next_state(1_015_568_748), 1_586_005_467);
    assert_eq!(rules::place_of(1_015_568_748, 3), 0);
    assert_eq!(rules::place_of(1_586_005_467, 3), 1);
    let (widths, guards) = t_tables();
    let (mut order, mut starts) = (long(&[0, 2, 1]), long(&[]));
    let got = calls::improve(3, &widths, &guards, &mut order, &mut starts, 1, 1);
    assert_eq!((got, order), (Answer::done(10, 1), long(&[2, 0, 1])));
}

#[test]
fn p8_judging() {
    let (widths, guards) = tables(&[2, 2], &[(0, 1, 1)]);
    assert_eq!(calls::judge(2, &widths, &guards, &long(&[1, 4])), Answer::done(0, 0));
    assert_eq!(calls::judge(2, &widths, &guards, &long(&[1, 3])), clash(0, 1, 1));
}

/// Judging two paths in conflict.
fn judged(widths: [u16; 2], guard: u8, starts: [u16; 2]) -> Answer {
    let (widths, guards) = tables(&widths, &[(0, 1, guard)]);
    calls::judge(2, &widths, &guards, &long(&starts))
}

/// Worked by hand: with equal starts path 0 is the lower one, and its width alone counts. From 7,
/// width 2 ends at 8 and asks for 10, width 5 ends at 11 and asks for 13.
#[test]
fn short_from_equal_starts() {
    assert_eq!(judged([2, 5], 1, [7, 7]), clash(0, 1, 3));
    assert_eq!(judged([5, 2], 1, [7, 7]), clash(0, 1, 6));
    assert_eq!(judged([1, 1], 0, [1, 1]), clash(0, 1, 1));
}

/// Worked by hand: path 1 takes 8 to 11 and asks for 14. The cell is that of 0 and 1 all the same.
#[test]
fn short_with_the_lower_number_above() {
    assert_eq!(judged([3, 4], 2, [12, 8]), clash(0, 1, 2));
    assert_eq!(judged([3, 4], 2, [13, 8]), clash(0, 1, 1));
    assert_eq!(judged([3, 4], 2, [14, 8]), Answer::done(0, 0));
}

/// Worked by hand: blocks with guard 0 may touch; one common slot is one slot short.
#[test]
fn short_with_guard_0() {
    assert_eq!(judged([3, 3], 0, [4, 7]), Answer::done(0, 0));
    assert_eq!(judged([3, 3], 0, [4, 6]), clash(0, 1, 1));
    assert_eq!(judged([3, 3], 0, [4, 5]), clash(0, 1, 2));
}

/// Worked by hand: one block inside the other. 100 to 163 asks for 196. No pair lacks more than 96.
#[test]
fn short_deep_inside() {
    assert_eq!(judged([64, 1], 32, [100, 110]), clash(0, 1, 86));
    assert_eq!(judged([1, 64], 32, [110, 100]), clash(0, 1, 86));
    assert_eq!(judged([64, 1], 32, [100, 163]), clash(0, 1, 33));
    assert_eq!(judged([64, 64], 32, [16_384, 16_384]), clash(0, 1, 96));
}

/// Worked by hand: path 1 takes 10 to 13, asks 15 of path 2 and 14 of path 3. The first pair is
/// named, whether it lacks more than the second or less. Path 0 is in nobody's way.
#[test]
fn short_at_the_first_pair() {
    let conflicts = [(0, 1, 0), (1, 2, 1), (1, 3, 0)];
    let (widths, guards) = tables(&[2, 4, 3, 6], &conflicts);
    let judge = |starts: [u16; 4]| calls::judge(4, &widths, &guards, &long(&starts));
    assert_eq!(judge([1, 10, 11, 12]), clash(1, 2, 4));
    assert_eq!(judge([1, 10, 14, 12]), clash(1, 2, 1));
    assert_eq!(judge([1, 10, 15, 12]), clash(1, 3, 2));
}

/// A wrong start comes before a clash, wherever the two are, and is not short.
#[test]
fn short_is_0_with_7() {
    let (widths, guards) = tables(&[2, 4, 3], &[(0, 1, 1)]);
    let judge = |starts: [u16; 3]| calls::judge(3, &widths, &guards, &long(&starts));
    assert_eq!(judge([5, 5, 0]), refused(7, 2));
    assert_eq!(judge([0, 1, 1]), refused(7, 0));
    assert_eq!(judge([5, 16_385, 1]), refused(7, 1));
}

/// Pressing answers a clash as judging does, and leaves the plan.
#[test]
fn short_in_pressing() {
    let (widths, guards) = t_tables();
    let mut starts = long(&[20, 10, 12]);
    assert_eq!(calls::press(3, &widths, &guards, &mut starts), clash(1, 2, 4));
    assert_eq!(starts, long(&[20, 10, 12]));
    let mut wrong = long(&[20, 10, 0]);
    assert_eq!(calls::press(3, &widths, &guards, &mut wrong), refused(7, 2));
}

/// All small pairs: the shortfall is the least number of steps that clears the slots, and the two
/// paths may be named either way.
#[test]
fn short_by_slots() {
    for number in 0..4 * 4 * 4 * 9 * 9 {
        let digit = |unit: usize, base: usize| number / unit % base;
        let guard = digit(16, 4);
        let net = Network::of(&[1 + digit(1, 4), 1 + digit(4, 4)], &[(0, 1, guard as u8)]);
        let starts = [1 + digit(64, 9), 1 + digit(576, 9)];
        let short = rules::shortfall(&net, &starts, 0, 1, guard);
        assert_eq!((0..).find(|&m| brute::clears(&net, &starts, (0, 1), m)), Some(short));
        assert!(brute::is_shortfall(&net, &starts, (0, 1), short));
        assert_eq!(short == 0, brute::valid_by_sets(&net, &starts));
        assert_eq!(short, rules::shortfall(&net, &starts, 1, 0, guard));
    }
}

/// Why a path of T stands where it does: the answer, and the table of the chain, which held 9s.
fn why_in_t(starts: [u16; 3], path: usize) -> (Answer, Vec<u8>) {
    let (widths, guards) = t_tables();
    let mut chain = vec![9; PATHS];
    let answer = calls::why(3, &widths, &guards, &long(&starts), path, &mut chain);
    (answer, chain)
}

/// A chain in its table of 9s, and how far its last path can come down.
fn chain(paths: &[u8], down: usize) -> (Answer, Vec<u8>) {
    let mut table = paths.to_vec();
    table.resize(PATHS, 9);
    (Answer::done(paths.len(), down), table)
}

/// Worked by hand in the plans of P1 to P4. Starts 1, 4, 10: path 1 ends at 7 and asks 10 of path
/// 2, path 0 ends at 2 and asks 4 of path 1. Starts 6, 1, 8: path 0 ends at 7 and asks 8 of path 2,
/// path 1 ends at 4 and asks 6 of path 0 and 7 of path 2.
#[test]
fn why_in_packed_plans() {
    assert_eq!(why_in_t([1, 4, 10], 2), chain(&[2, 1, 0], 0));
    assert_eq!(why_in_t([1, 4, 10], 1), chain(&[1, 0], 0));
    assert_eq!(why_in_t([1, 4, 10], 0), chain(&[0], 0));
    assert_eq!(why_in_t([11, 6, 1], 0), chain(&[0, 1, 2], 0));
    assert_eq!(why_in_t([6, 1, 8], 2), chain(&[2, 0, 1], 0));
    assert_eq!(why_in_t([1, 8, 3], 1), chain(&[1, 2, 0], 0));
}

/// Worked by hand in the plan of P5, before it is pressed: starts 20, 10, 30. Path 0 ends at 21 and
/// asks 22 of path 2; path 1 ends at 13, asks 15 of path 0 and 16 of path 2.
#[test]
fn why_in_loose_plans() {
    assert_eq!(why_in_t([20, 10, 30], 2), chain(&[2], 8));
    assert_eq!(why_in_t([20, 10, 30], 0), chain(&[0], 5));
    assert_eq!(why_in_t([20, 10, 30], 1), chain(&[1], 9));
    assert_eq!(why_in_t([2, 5, 11], 2), chain(&[2, 1, 0], 1));
    assert_eq!(why_in_t([1, 5, 11], 2), chain(&[2, 1], 1));
    assert_eq!(why_in_t([1, 4, 11], 2), chain(&[2], 1));
    assert_eq!(why_in_t([16_384, 1, 8], 0), chain(&[0], 16_373));
}

/// Path 2 rests on paths 0 and 1 in one slot each; path 0 on 1 and 2, where it is the upper one.
#[test]
fn why_with_two_supports() {
    let why = |conflicts: &[(usize, usize, u8)], starts: [usize; 3], path: usize| {
        rules::why(&Network::of(&[1, 1, 1], conflicts), &starts, path).chain
    };
    assert_eq!(why(&[(0, 2, 0), (1, 2, 0)], [1, 1, 2], 2), [2, 0]);
    assert_eq!(why(&[(0, 1, 0), (0, 2, 0)], [2, 1, 1], 0), [0, 1]);
    assert_eq!(why(&[(1, 2, 0)], [1, 1, 2], 2), [2, 1]);
    assert_eq!(why(&[(0, 2, 1), (1, 2, 0)], [1, 2, 3], 2), [2, 0]);
}

/// 6 comes after 7 and 8, with place 0; a chain's table of another size is 2.
#[test]
fn why_refused() {
    let unchanged = |answer: Answer| (answer, vec![9; PATHS]);
    assert_eq!(why_in_t([1, 4, 10], 3), unchanged(refused(6, 0)));
    assert_eq!(why_in_t([1, 4, 10], usize::MAX), unchanged(refused(6, 0)));
    assert_eq!(why_in_t([1, 4, 9], 3), unchanged(clash(1, 2, 1)));
    assert_eq!(why_in_t([5, 5, 20], 0), unchanged(clash(0, 1, 3)));
    assert_eq!(why_in_t([5, 5, 0], 3), unchanged(refused(7, 2)));
    let (widths, guards) = t_tables();
    let short = calls::why(129, &widths, &guards, &long(&[1, 4, 10]), 3, &mut [9; PATHS - 1]);
    assert_eq!(short, refused(2, 0));
}

/// All plans of three paths with starts up to 7: the chain and the way down by the slots.
#[test]
fn why_by_slots() {
    let nets = [
        Network::of(&[2, 1, 1], &[(0, 1, 1), (1, 2, 0), (0, 2, 0)]),
        Network::of(&[1, 2, 1], &[(0, 1, 0), (1, 2, 1)]),
    ];
    for net in nets {
        let plans = (0..343).map(|number| brute::plan_of(number, 7, 3));
        for starts in plans.filter(|starts| brute::valid_by_sets(&net, starts)) {
            for path in 0..3 {
                let reason = rules::why(&net, &starts, path);
                let last = reason.chain[reason.chain.len() - 1];
                let support = |p: usize| brute::first_support(&net, &starts, p);
                assert!(reason.chain.windows(2).all(|two| support(two[0]) == Some(two[1])));
                assert_eq!((reason.chain[0], support(last)), (path, None));
                assert!(brute::is_way_down(&net, &starts, last, reason.down));
                assert!(!brute::is_way_down(&net, &starts, last, reason.down + 1));
                assert!(reason.down == 0 || !brute::is_way_down(&net, &starts, last, 0));
            }
        }
    }
}

#[test]
fn p9_draws() {
    assert_eq!(rules::next_state(0), 0x3C6E_F35F);
    assert_eq!(rules::next_state(0x3C6E_F35F), 0x4750_2932);
    assert_eq!(rules::place_of(0x3C6E_F35F, 4), 0);
    assert_eq!(rules::place_of(0x4750_2932, 4), 1);
}

/// The floor of a list, by tables, the list handed in in every order.
fn floor_in_any_order(widths: &[u16], conflicts: &[(usize, usize, u8)], list: &[u8]) -> usize {
    let n = widths.len();
    let (widths, guards) = tables(widths, conflicts);
    let mut floors = Vec::new();
    rules::each_order(&mut list.to_vec(), 0, &mut |list| {
        floors.push(calls::floor(n, &widths, &guards, list));
    });
    let floor = floors[0];
    assert!(floors.iter().all(|other| *other == floor));
    assert_eq!((floor.number, floor.place), (0, 0));
    floor.more[0]
}

/// Widths 2, 4, 3 and the walk 1, 0, 2 over the guards 1 and 0; it was 9 by twice the guard 0.
#[test]
fn p10_floor() {
    let (widths, guards) = t_tables();
    assert_eq!(calls::floor(3, &widths, &guards, &[0, 1, 2]), Answer::done(10, 0));
    let conflicts = [(0, 1, 1), (1, 2, 2), (0, 2, 0)];
    assert_eq!(floor_in_any_order(&[2, 4, 3], &conflicts, &[0, 1, 2]), 10);
    assert_eq!(brute::coarse_floor(&t(), &[0, 1, 2]), 9);
}

/// Worked by hand: one path is its width, two are their widths and guard, whatever else there is.
#[test]
fn floor_of_one_or_two() {
    let conflicts = [(0, 1, 1), (1, 2, 2), (0, 2, 0)];
    let of = |list: &[u8]| floor_in_any_order(&[2, 4, 3], &conflicts, list);
    assert_eq!([of(&[0]), of(&[1]), of(&[2])], [2, 4, 3]);
    assert_eq!([of(&[0, 1]), of(&[1, 2]), of(&[0, 2])], [2 + 1 + 4, 4 + 2 + 3, 2 + 3]);
    assert_eq!(floor_in_any_order(&[64], &[], &[0]), 64);
    assert_eq!(floor_in_any_order(&[64, 64], &[(0, 1, 32)], &[0, 1]), 160);
}

/// Worked by hand: three paths have three guards, and the largest one is left out. So the least one
/// does not come twice.
#[test]
fn floor_of_three() {
    let of = |guards: [u8; 3]| {
        let [a, b, c] = guards;
        floor_in_any_order(&[5, 1, 3], &[(0, 1, a), (0, 2, b), (1, 2, c)], &[0, 1, 2])
    };
    assert_eq!(of([4, 7, 9]), 9 + 4 + 7);
    assert_eq!(of([9, 4, 7]), 9 + 4 + 7);
    assert_eq!(of([7, 9, 4]), 9 + 4 + 7);
    assert_eq!(of([0, 32, 32]), 9 + 32);
    assert_eq!(of([0, 0, 32]), 9);
}

/// Worked by hand. Two pairs: one bridge of 5 has to be crossed. One centre, path 2: only two of its
/// three guards of 1 can be used. And guards 1, 2, 3 from 0 to 3, where going on from 0 to 1, the
/// nearest, leads to 1 + 9 + 4, while 1, 0, 2, 3 is 1 + 2 + 4.
#[test]
fn floor_of_four() {
    let of = |guards: [u8; 6]| {
        let [a, b, c, d, e, f] = guards;
        let conflicts = [(0, 1, a), (0, 2, b), (0, 3, c), (1, 2, d), (1, 3, e), (2, 3, f)];
        floor_in_any_order(&[1, 2, 3, 4], &conflicts, &[0, 1, 2, 3])
    };
    assert_eq!(of([0, 5, 5, 5, 5, 0]), 10 + 5);
    assert_eq!(of([10, 1, 10, 1, 10, 1]), 10 + 1 + 1 + 10);
    assert_eq!(of([1, 2, 3, 9, 9, 4]), 10 + 7);
}

/// Worked by hand: low guards, 7 in all, from each path to the next of 3, 6, 0, 5, 1, 7, 2, 4, and
/// 30 elsewhere. The coarse floor has no guard at all.
#[test]
fn floor_of_eight_in_a_line() {
    let line = [3, 6, 0, 5, 1, 7, 2, 4];
    let low = [1, 0, 2, 0, 1, 0, 3];
    let guard = |i: usize, j: usize| {
        let pair = line.windows(2).position(|two| two == [i, j] || two == [j, i]);
        pair.map_or(30, |step| low[step])
    };
    let mut conflicts = Vec::new();
    (0..8).for_each(|j| conflicts.extend((0..j).map(|i| (i, j, guard(i, j)))));
    let (widths, guards) = tables(&[1, 2, 3, 4, 5, 6, 7, 8], &conflicts);
    for turn in 0..8 {
        let mut list = [0, 1, 2, 3, 4, 5, 6, 7];
        list.rotate_left(turn);
        assert_eq!(calls::floor(8, &widths, &guards, &list), Answer::done(36 + 7, 0));
        list.reverse();
        assert_eq!(calls::floor(8, &widths, &guards, &list), Answer::done(36 + 7, 0));
    }
    let net = Network::of(&[1, 2, 3, 4, 5, 6, 7, 8], &conflicts);
    assert_eq!(brute::coarse_floor(&net, &[0, 1, 2, 3, 4, 5, 6, 7]), 36);
}

/// Refused as before: the length, then the first entry at fault.
#[test]
fn floor_refused() {
    let (widths, mut guards) = t_tables();
    let of = |guards: &[u8], list: &[u8]| calls::floor(3, &widths, guards, list);
    assert_eq!(of(&guards, &[]), refused(15, 0));
    assert_eq!(of(&guards, &[0, 1, 2, 0, 1, 2, 0, 1, 2]), refused(15, 0));
    assert_eq!(of(&guards, &[0, 1, 2, 3]), refused(15, 3));
    assert_eq!(of(&guards, &[0, 2, 2, 3]), refused(15, 2));
    (guards[cell(0, 2)], guards[cell(2, 0)]) = (NONE, NONE);
    assert_eq!(of(&guards, &[0, 1, 2]), refused(15, 2));
    assert_eq!(of(&guards, &[0, 2, 1]), refused(15, 1));
    assert_eq!(of(&guards, &[1, 2]), Answer::done(9, 0));
}

/// All guards 0 to 2 and widths 1 to 2 of four paths that are all in conflict.
fn four_in_conflict() -> impl Iterator<Item = Network> {
    (0..729 * 16).map(|number| {
        let widths = [0, 1, 2, 3].map(|path| 1 + (number >> path & 1));
        let guard = |power: u32| (number / 16 / 3_usize.pow(power) % 3) as u8;
        let pairs = [(0, 1), (0, 2), (0, 3), (1, 2), (1, 3), (2, 3)];
        let conflicts: Vec<_> = (0..).zip(pairs).map(|(at, (i, j))| (i, j, guard(at))).collect();
        Network::of(&widths, &conflicts)
    })
}

/// By orders as by sets, never below the coarse floor and never above the best plan.
#[test]
fn floors_by_orders_and_by_sets() {
    let mut higher = 0;
    for net in four_in_conflict() {
        for list in [&[2][..], &[3, 0], &[1, 3, 2], &[0, 1, 2, 3]] {
            let floor = rules::floor(&net, list);
            assert_eq!(floor, brute::floor_by_sets(&net, list));
            let old = brute::coarse_floor(&net, list);
            assert!(old <= floor && floor <= brute::best_by_orders(&net.part(list)));
            higher += usize::from(old < floor);
        }
    }
    assert!(higher > 0);
}

/// Where no guard reaches past a path in between, the floor of all paths is the best highest slot,
/// by all orders and by all plans. Where one does, it may be lower.
#[test]
fn floor_and_best_plan() {
    let (mut reached, mut below) = (0, 0);
    for net in four_in_conflict() {
        let (floor, best) = (rules::floor(&net, &[0, 1, 2, 3]), brute::best_by_orders(&net));
        if brute::only_neighbours_push(&net) {
            assert_eq!(floor, best);
            reached += 1;
            if best <= 8 {
                assert_eq!(brute::best_by_plans(&net), best);
            }
        } else {
            below += usize::from(floor < best);
        }
    }
    assert!(reached > 0 && below > 0);
    let past = Network::of(&[1, 1, 1], &[(0, 1, 0), (1, 2, 0), (0, 2, 2)]);
    assert_eq!((rules::floor(&past, &[0, 1, 2]), brute::best_by_plans(&past)), (3, 4));
}

/// The widest paths, run.
#[test]
fn run_widest() {
    let (widths, guards) = tables(&[64], &[]);
    let mut starts = long(&[]);
    let got = calls::pack(1, &widths, &guards, &long(&[0]), &mut starts);
    assert_eq!(got, Answer::done(64, 0));
    let (widths, guards) = tables(&[64, 64], &[(0, 1, 32)]);
    let got = calls::pack(2, &widths, &guards, &long(&[0, 1]), &mut starts);
    assert_eq!(got, Answer::done(160, 0));
}

/// Each limit passed by one, run.
#[test]
fn run_limits() {
    let (widths, guards) = t_tables();
    let judge = |n: usize, w: &[u16], g: &[u8], s: &[u16]| calls::judge(n, w, g, s);
    let starts = long(&[20, 10, 30]);
    assert_eq!(judge(0, &widths, &guards, &starts), refused(1, 0));
    assert_eq!(judge(129, &widths, &guards, &starts), refused(1, 0));
    assert_eq!(judge(129, &widths[1..], &guards, &starts), refused(2, 0));
    assert_eq!(judge(3, &long(&[2, 0, 3]), &guards, &starts), refused(3, 1));
    assert_eq!(judge(3, &long(&[2, 4, 65]), &guards, &starts), refused(3, 2));
    let (_, high) = tables(&[2, 4, 3], &[(1, 2, 33)]);
    assert_eq!(judge(3, &widths, &high, &starts), refused(4, 130));
    let mut uneven = guards.clone();
    uneven[cell(2, 0)] = 5;
    assert_eq!(judge(3, &widths, &uneven, &starts), refused(5, 2));
    assert_eq!(judge(3, &widths, &guards, &long(&[20, 16_385, 30])), refused(7, 1));
    let (mut order, mut room) = (long(&[0, 2, 1]), long(&[]));
    let got = calls::plan(3, &widths, &guards, &mut order, &mut room, 1, 10_001);
    assert_eq!(got, refused(10, 0));
    assert_eq!(calls::plan(3, &widths, &guards, &mut order, &mut room, 1, 10_000).number, 0);
}

fn read(text: &str) -> Answer {
    let (mut labels, mut guards) = (vec![1; LABELS], vec![1; CELLS]);
    sheet::read(text.as_bytes(), &mut labels, &mut long(&[1]), &mut guards, &mut long(&[1]))
}

/// The smallest sheets, run; and labels that are equal as numbers only.
#[test]
fn run_sheets() {
    assert_eq!(read(""), refused(11, 1));
    assert_eq!(read("paths 0\n"), refused(1, 1));
    assert_eq!(read("paths 0"), refused(11, 1));
    assert_eq!(read("paths 129\n"), refused(1, 1));
    assert_eq!(read("paths 100000\n"), refused(11, 1));
    assert_eq!(read("paths 2\n0417 2\n417 4\nguards 0\n"), Answer::done(2, 0));
    assert_eq!(read("paths 2\nA 2\nA 0\nguards 0\n"), refused(12, 3));
    assert_eq!(read("paths 2\nA 2\nB 0\nguards 0\n"), refused(3, 3));
    assert_eq!(read("paths 2\nA 2\nB 65537\nguards 0\n"), refused(3, 3));
    assert_eq!(read("paths 2\nA 2\nB 1\nguards 1\nA B 255\n"), refused(4, 5));
    assert_eq!(read("paths 2\nA 2\nB 1\nguards 1\nB B 255\n"), refused(13, 5));
    assert_eq!(read("paths 2\nA 2\nB 1\nguards 2\nA B 1\nB A 255\n"), refused(14, 6));
    assert_eq!(read("paths 1\nA 2\nguards 2001\n"), refused(1, 3));
    assert_eq!(read("paths 1\nA 2\nguards 0\nstarts 2\n"), refused(1, 4));
    assert_eq!(read("paths 1\nA 2\nguards 0\nstarts 1\nA 0\n"), refused(7, 5));
    assert_eq!(read("paths 1\nA 2\nguards 0\nstarts 1\nB 0\n"), refused(13, 5));
    assert_eq!(read("paths 1\nA 2\nguards 0\nstarts 1\nA 1\n\n"), refused(11, 6));
    assert_eq!(read("paths 1\nA 2\nguards 0\nstarts 1\n"), refused(11, 5));
}

/// The example of RULES 19.
#[test]
fn run_program() {
    let input = "paths 3\n0417 2\n417 4\nA9 3\nguards 2\n0417 417 1\n417 A9 2\n";
    let output = format!("{input}starts 3\n0417 1\n417 6\nA9 1\n");
    assert_eq!(sheet::program(input.as_bytes()), output.as_bytes());
    assert_eq!(sheet::program(b"paths 2\nA 1\nb 1\n"), b"refused 11 line 3\n");
    assert_eq!(sheet::program(output.as_bytes()), output.as_bytes());
}

const ASKED: &str = "paths 3\n0417 2\n417 4\nA9 1\nguards 2\n0417 417 1\n417 A9 2\n";

/// What ask prints for words with spaces between, and for the network above with these starts.
fn asked(words: &str, starts: [usize; 3]) -> String {
    let [a, b, c] = starts;
    asked_of(words, &format!("{ASKED}starts 3\n0417 {a}\n417 {b}\nA9 {c}\n"))
}

fn asked_of(words: &str, text: &str) -> String {
    let args: Vec<Vec<u8>> = words.split(' ').map(|word| word.into()).collect();
    String::from_utf8(ask::program(&args, text.as_bytes())).expect("it prints text")
}

/// Worked by hand: 0417 ends at 2 and asks 4 of 417, which ends at 7 and asks 10 of A9.
#[test]
fn ask_why() {
    let chain = "A9 has slot 10.\nBelow it 417 has slots 4 to 7, and the guard is 2.\n\
                 Below it 0417 has slots 1 to 2, and the guard is 1.\n\
                 0417 is in slot 1, so A9 cannot come down in this order.\n";
    assert_eq!(asked("why A9", [1, 4, 10]), chain);
    let alone = "0417 has slots 1 to 2.\n0417 is in slot 1 and cannot come down.\n";
    assert_eq!(asked("why 0417", [1, 4, 10]), alone);
    assert_eq!(asked("why A9", [1, 4, 12]), "A9 has slot 12.\nA9 can come down 2 slots.\n");
    let free = "A9 has slot 11.\nBelow it 417 has slots 5 to 8, and the guard is 2.\n\
                417 can come down 1 slot.\n";
    assert_eq!(asked("why A9", [1, 5, 11]), free);
    let one = "417 has slots 4 to 7.\nBelow it A9 has slot 1, and the guard is 2.\n\
               A9 is in slot 1, so 417 cannot come down in this order.\n";
    assert_eq!(asked("why 417", [9, 4, 1]), one);
}

#[test]
fn ask_judge_and_refusals() {
    let valid = "The plan is valid. Its highest slot is 10.\n";
    assert_eq!(asked("judge", [1, 4, 10]), valid);
    for words in ["judge", "why A9", "why B"] {
        assert_eq!(asked(words, [1, 3, 9]), "0417 and 417 clash: 1 slot short.\n");
        assert_eq!(asked(words, [4, 4, 1]), "0417 and 417 clash: 3 slots short.\n");
        assert_eq!(asked_of(words, ASKED), "The sheet has no plan.\n");
        assert_eq!(asked_of(words, "paths 0\n"), "refused 1 line 1\n");
    }
    assert_eq!(asked("why B", [1, 4, 10]), "No path is called B.\n");
}

#[test]
fn ask_for_words() {
    for words in ["why ", "why a9", "why ABCDEFGHI", "why A_9"] {
        let label = "A label has 1 to 8 capitals, digits or hyphens.\n";
        assert_eq!(asked_of(words, "paths 0\n"), label);
    }
    assert_eq!(asked_of("why", ""), "Say which path: why LABEL.\n");
    for words in ["", "Why A9", "judge A9", "why A9 A9", "why  ", "judges", "order 1 1", "Order 1"]
    {
        assert_eq!(asked_of(words, ""), "The words are why, judge and order.\n");
    }
    assert_eq!(ask::program(&[], b""), b"The words are why, judge and order.\n");
}

/// Worked by hand from anchor 0: 0417 has its middle 2 steps up, 417 6 + 4, A9 18 + 1. A lower anchor
/// lowers all of them.
#[test]
fn ask_order() {
    let sheet = "order 3\n0417 2 2\n417 10 4\nA9 19 1\n";
    assert_eq!(asked("order 0", [1, 4, 10]), sheet);
    let lower = "order 3\n0417 -8 2\n417 0 4\nA9 9 1\n";
    assert_eq!(asked("order -10", [1, 4, 10]), lower);
    let ends = "order 3\n0417 -1022 2\n417 -1014 4\nA9 -1005 1\n";
    assert_eq!(asked("order -1024", [1, 4, 10]), ends);
    assert_eq!(asked("order 1024", [1, 3, 9]), "0417 and 417 clash: 1 slot short.\n");
    assert_eq!(asked_of("order 1024", ASKED), "The sheet has no plan.\n");
    assert_eq!(asked_of("order 1024", "paths 0\n"), "refused 1 line 1\n");
    assert_eq!(asked_of("order", ""), "Say the anchor: order ANCHOR.\n");
    for anchor in ["", "-", "-0", "+1", "01", "-01", "--1", "1025", "-1025", "100000", "65537", "A"]
    {
        let line = "An anchor is a whole number, -1024 to 1024.\n";
        assert_eq!(asked_of(&format!("order {anchor}"), ASKED), line);
    }
}

/// The longest sheet: RULES 13.
#[test]
fn the_longest_sheet() {
    let c = crate::gen::longest(&mut crate::gen::Rng::new(1, 0, 0));
    let mut text = vec![0; LONGEST_SHEET + 10];
    let got = sheet::write(c.n, &c.labels, &c.widths, &c.guards, &c.starts, &mut text);
    assert_eq!(got, Answer::done(LONGEST_SHEET, 0));
    text.truncate(LONGEST_SHEET - 1);
    let got = sheet::write(c.n, &c.labels, &c.widths, &c.guards, &c.starts, &mut text);
    assert_eq!(got, refused(16, 0));
}

/// 001 Table II: the guard is the number of links in common; the best plan has 13 slots,
/// and the floor says so.
#[test]
fn table_two_of_001() {
    let conflicts = [(0, 1, 1), (0, 2, 1), (0, 3, 2), (1, 2, 1), (1, 3, 2), (2, 3, 2)];
    let net = Network::of(&[3, 2, 3, 1], &conflicts);
    assert_eq!(brute::best_by_orders(&net), 13);
    assert_eq!(brute::best_by_plans(&net), 13);
    assert_eq!(rules::floor(&net, &[0, 1, 2, 3]), 13);
}

/// 000 Theorem 2.3.1: one guard and one width on a graph of chromatic number k give the best
/// plan (k-1) GB + k w.
fn one_guard_one_width(paths: usize, edges: &[(usize, usize)], k: usize, orders: bool) {
    for (guard, width) in [(0, 1), (1, 1), (2, 1), (1, 2), (3, 2)] {
        let conflicts: Vec<_> = edges.iter().map(|&(i, j)| (i, j, guard as u8)).collect();
        let net = Network::of(&vec![width; paths], &conflicts);
        let best = (k - 1) * guard + k * width;
        assert_eq!(brute::best_by_plans(&net), best);
        if orders {
            assert_eq!(brute::best_by_orders(&net), best);
        }
    }
}

fn ring(paths: usize) -> Vec<(usize, usize)> {
    (0..paths).map(|i| (i, (i + 1) % paths)).collect()
}

#[test]
fn odd_rings() {
    one_guard_one_width(3, &ring(3), 3, true);
    one_guard_one_width(5, &ring(5), 3, true);
    one_guard_one_width(7, &ring(7), 3, true);
}

#[test]
fn even_rings() {
    one_guard_one_width(4, &ring(4), 2, true);
    one_guard_one_width(6, &ring(6), 2, true);
}

#[test]
fn complete_graph_on_five() {
    let edges: Vec<_> = (0..5).flat_map(|i| (0..i).map(move |j| (j, i))).collect();
    one_guard_one_width(5, &edges, 5, true);
}

#[test]
fn petersen_graph() {
    let mut edges = ring(5);
    edges.extend((0..5).map(|i| (i, i + 5)));
    edges.extend((0..5).map(|i| (5 + i, 5 + (i + 2) % 5)));
    one_guard_one_width(10, &edges, 3, false);
}

/// A ring of five, a shadow for each of its paths, and one path joined to all shadows.
#[test]
fn groetzsch_graph() {
    let mut edges = ring(5);
    for i in 0..5 {
        edges.extend([(5 + i, (i + 1) % 5), (5 + i, (i + 4) % 5), (5 + i, 10)]);
    }
    one_guard_one_width(11, &edges, 4, false);
}

/// Theorem 6's ratio fails: greedy from the first path reaches 60, the best plan has 36, and
/// the floor says so.
#[test]
fn greedy_against_best() {
    let conflicts = [(0, 1, 24), (0, 2, 8), (0, 3, 8), (1, 2, 16), (1, 3, 32), (2, 3, 16)];
    let net = Network::of(&[1; 4], &conflicts);
    assert_eq!(brute::best_by_orders(&net), 36);
    assert_eq!(brute::best_by_plans(&net), 36);
    assert_eq!(rules::floor(&net, &[0, 1, 2, 3]), 36);
}
