//! Floors by the shortest walk (RULES 12): the checks, which other groups use too; lists of each
//! length anywhere in a network, with guards among which a search can go astray; wrong lists.

use crate::brute;
use crate::calls::Answer;
use crate::compare::{self, Call, Case, Tally};
use crate::gen::{self, Rng, Shape, SHAPES};
use crate::net::*;
use crate::rules;

pub const PIECES: usize = 40;

pub fn piece(t: &mut Tally, rng: &mut Rng, number: usize) {
    for kind in KINDS {
        for length in 1..=MAX_LIST {
            laid_list(t, rng, kind, length);
        }
    }
    wrong_lengths(t, rng);
    wrong_entries(t, rng);
    refusals(t, rng);
    if number == 0 {
        lowest_and_highest(t, rng);
    }
}

/// A copy with what a floor is asked with, and no more.
pub fn bare(c: &Case) -> Case {
    let (widths, guards, list) = (c.widths.clone(), c.guards.clone(), c.list.clone());
    Case { n: c.n, widths, guards, list, ..Case::default() }
}

fn paths(list: &[u8]) -> Vec<usize> {
    list.iter().map(|&path| usize::from(path)).collect()
}

fn bytes(list: &[usize]) -> Vec<u8> {
    list.iter().map(|&path| path as u8).collect()
}

/// Asks for the floor of the case's list, right or wrong, in a network without a fault, and holds
/// the answer against all walks and against the coarse floor. The floor comes back, if there is
/// one.
pub fn told(t: &mut Tally, c: &Case, net: &Network) -> Option<usize> {
    let answer = compare::floor(t, c)?.answer;
    let list = paths(&c.list);
    let right = brute::all_in_conflict(net, &list);
    let mut say = |what: &str, holds: bool| t.check_of(Call::Floor, what, c, holds);
    say("just a list that is in conflict has a floor", right == (answer.number == 0));
    if !right || answer.number != 0 {
        return None;
    }
    let floor = answer.more[0];
    say("no walk is shorter, and one is as short", floor == brute::floor_by_sets(net, &list));
    say("the floor is not below the coarse one", floor >= brute::coarse_floor(net, &list));
    Some(floor)
}

/// No plan of the list's paths alone is below their floor; and where only neighbours push each
/// other, the best one reaches it.
pub fn by_best_plan(t: &mut Tally, c: &Case, net: &Network, floor: usize) {
    let alone = net.part(&paths(&c.list));
    let best = brute::best_by_orders(&alone);
    t.check_of(Call::Floor, "no floor is above the best", c, floor <= best);
    if brute::only_neighbours_push(&alone) {
        t.check_of(Call::Floor, "where neighbours push, the floor is the best", c, floor == best);
    }
}

/// How the guards of a list are laid.
#[derive(Clone, Copy, Debug, PartialEq)]
enum Kind {
    /// Each from 0 to the most.
    Any(usize),
    Equal(usize),
    /// All equal but so many.
    AllBut(usize),
    /// 0 in each of two clusters, 32 from one to the other.
    Clusters,
    /// Low from each path to the next in a hidden order, and only there.
    Line,
    /// Low to and from one path, and only there.
    Star,
    /// Going to the nearest path next is not the shortest walk.
    Lures,
    /// No guard reaches past a path in between, so that the floor is the best highest slot.
    Neighbours,
}

const KINDS: [Kind; 12] = [
    Kind::Any(MAX_GUARD),
    Kind::Any(3),
    Kind::Equal(0),
    Kind::Equal(1),
    Kind::Equal(MAX_GUARD),
    Kind::AllBut(1),
    Kind::AllBut(2),
    Kind::Clusters,
    Kind::Line,
    Kind::Star,
    Kind::Lures,
    Kind::Neighbours,
];

/// A network of paths with these widths, all in conflict, the guards of the kind.
fn laid(rng: &mut Rng, kind: Kind, widths: &[usize]) -> Network {
    let length = widths.len();
    let low_where = |rng: &mut Rng, so: bool| if so { rng.range(0, 2) } else { rng.range(20, 32) };
    match kind {
        Kind::Any(most) => square(widths, |_, _| rng.range(0, most)),
        Kind::Equal(guard) => square(widths, |_, _| guard),
        Kind::AllBut(others) => all_but(rng, others, widths),
        Kind::Clusters => {
            let first = rng.range(1, (length - 1).max(1));
            square(widths, |i, j| if (i < first) == (j < first) { 0 } else { MAX_GUARD })
        }
        Kind::Line => square(widths, |i, j| low_where(rng, i + 1 == j)),
        Kind::Star => square(widths, |i, _| low_where(rng, i == 0)),
        Kind::Lures => lures(rng, widths),
        Kind::Neighbours => neighbours(rng, widths),
    }
}

/// Each two paths in conflict; the guard is asked for with the lower path first.
fn square(widths: &[usize], mut guard: impl FnMut(usize, usize) -> usize) -> Network {
    let pairs = (0..widths.len()).flat_map(|j| (0..j).map(move |i| (i, j)));
    let conflicts: Vec<_> = pairs.map(|(i, j)| (i, j, guard(i, j) as u8)).collect();
    Network::of(widths, &conflicts)
}

fn all_but(rng: &mut Rng, others: usize, widths: &[usize]) -> Network {
    let values = [0, 1, 2, 15, 31, 32];
    let (most, rare) = (rng.pick(&values), rng.pick(&values));
    let pairs = widths.len() * (widths.len() - 1) / 2;
    let picked: Vec<usize> = (0..others).map(|_| rng.below(pairs.max(1))).collect();
    let mut pair = 0;
    square(widths, |_, _| {
        pair += 1;
        if picked.contains(&(pair - 1)) {
            rare
        } else {
            most
        }
    })
}

/// Guards that lead astray whoever goes to the nearest path next. With five paths, where they are
/// rarest, one in ten does.
fn lures(rng: &mut Rng, widths: &[usize]) -> Network {
    let mut any = || square(widths, |_, _| rng.range(0, MAX_GUARD));
    let mut found = any();
    while !astray(&found) {
        found = any();
    }
    found
}

/// Whether going to the nearest path next is a longer walk than there has to be, wherever it begins.
/// Three or four paths always have a beginning from which it is not; there the first is looked at.
fn astray(net: &Network) -> bool {
    let all: Vec<usize> = (0..net.paths()).collect();
    let widths: usize = all.iter().map(|&p| net.width(p)).sum();
    let least = brute::floor_by_sets(net, &all) - widths;
    let firsts = match net.paths() {
        1 | 2 => 0,
        3 | 4 => 1,
        every => every,
    };
    all[..firsts].iter().all(|&first| nearest_walk(net, first) > least)
}

fn nearest_walk(net: &Network, first: usize) -> usize {
    let mut left: Vec<usize> = (0..net.paths()).filter(|&p| p != first).collect();
    let (mut last, mut walked) = (first, 0);
    while !left.is_empty() {
        let guards = left.iter().map(|&p| (net.guard(last, p).expect("each two in conflict"), p));
        let (guard, next) = guards.min().expect("a path is left");
        left.retain(|&p| p != next);
        walked += guard;
        last = next;
    }
    walked
}

/// Guards from 0 to 32, each lowered to the way over any third path.
fn neighbours(rng: &mut Rng, widths: &[usize]) -> Network {
    let mut net = square(widths, |_, _| rng.range(0, MAX_GUARD));
    while !brute::only_neighbours_push(&net) {
        let direct = |i: usize, j: usize| net.guard(i, j).unwrap_or(0);
        let over = |i: usize, j: usize, p: usize| direct(i, p) + widths[p] + direct(p, j);
        let between = |i: usize, j: usize| (0..widths.len()).filter(move |&p| p != i && p != j);
        let shortest = |i: usize, j: usize| between(i, j).map(|p| over(i, j, p)).min();
        net = square(widths, |i, j| direct(i, j).min(shortest(i, j).unwrap_or(MAX_GUARD)));
    }
    net
}

/// The length of the shortest walk, where the kind says it.
fn known_walk(kind: Kind, net: &Network) -> Option<usize> {
    let steps = net.paths() - 1;
    match kind {
        Kind::Equal(guard) => Some(steps * guard),
        Kind::Clusters => Some(if steps == 0 { 0 } else { MAX_GUARD }),
        Kind::Line => (0..steps).map(|p| net.guard(p, p + 1)).sum(),
        _ => None,
    }
}

/// One list anywhere in a network of any size, asked for in several orders and as a network by
/// itself.
fn laid_list(t: &mut Tally, rng: &mut Rng, kind: Kind, length: usize) {
    let (n, shape) = (size(rng, length), rng.pick(&SHAPES));
    let mut c = bare(&gen::case(rng, n, shape));
    let hidden = scattered(rng, n, length);
    let widths: Vec<usize> = hidden.iter().map(|&p| usize::from(c.widths[p])).collect();
    let alone = laid(rng, kind, &widths);
    for (i, j, guard) in alone.conflicts() {
        gen::set_guard(&mut c, hidden[i], hidden[j], guard as u8);
    }
    t.cases += 1;
    let net = c.network();
    let mut floors = Vec::new();
    for list in lists(rng, kind, &hidden) {
        c.list = bytes(&list);
        floors.extend(told(t, &c, &net));
    }
    floors.extend(by_itself(t, rng, &alone));
    let Some(&floor) = floors.first() else { return };
    let same = floors.iter().all(|&other| other == floor);
    t.check_of(Call::Floor, "the floor is one in any order, and by itself", &c, same);
    if let Some(walk) = known_walk(kind, &alone) {
        let known = floor == widths.iter().sum::<usize>() + walk;
        t.check_of(Call::Floor, "the walk is the one that was laid", &c, known);
    }
}

/// The paths of a network with a list of this length: no more than these, few, as many as there can
/// be, or any number.
fn size(rng: &mut Rng, length: usize) -> usize {
    match rng.below(4) {
        0 => length,
        1 => rng.range(length, MAX_LIST + 4),
        2 => PATHS,
        _ => rng.range(length, PATHS),
    }
}

/// So many paths of a network in any order; now and then only its first and last ones.
fn scattered(rng: &mut Rng, n: usize, count: usize) -> Vec<usize> {
    let mut paths: Vec<usize> = (0..n).collect();
    if rng.percent(25) {
        paths.rotate_right(rng.below(count + 1));
    } else {
        rng.shuffle(&mut paths);
    }
    paths.truncate(count);
    rng.shuffle(&mut paths);
    paths
}

/// The orders in which a list is handed in: all of up to four paths; of a line all that begin
/// elsewhere in it, and some with both its ends inside; else one, its reverse and another.
fn lists(rng: &mut Rng, kind: Kind, hidden: &[usize]) -> Vec<Vec<usize>> {
    let mut found: Vec<Vec<usize>> = Vec::new();
    if hidden.len() <= 4 {
        rules::each_order(&mut hidden.to_vec(), 0, &mut |order| found.push(order.to_vec()));
    } else if kind == Kind::Line {
        let turned = |by: usize| [&hidden[by..], &hidden[..by]].concat();
        found.extend((0..hidden.len()).map(turned));
        found.extend((0..2).map(|_| ends_inside(rng, hidden)));
    } else {
        let mut shuffled = || {
            let mut list = hidden.to_vec();
            rng.shuffle(&mut list);
            list
        };
        found = vec![shuffled(), shuffled()];
        found.push(found[0].iter().rev().copied().collect());
    }
    found
}

/// An order in which neither end of the line is first or last: the walk has to begin and to end in
/// the middle of the list.
fn ends_inside(rng: &mut Rng, line: &[usize]) -> Vec<usize> {
    let (mut ends, mut inner) = (vec![line[0], line[line.len() - 1]], line.to_vec());
    inner.retain(|path| !ends.contains(path));
    rng.shuffle(&mut inner);
    let (first, last) = (inner.remove(0), inner.remove(0));
    ends.extend(inner);
    rng.shuffle(&mut ends);
    [vec![first], ends, vec![last]].concat()
}

/// A network that is all in conflict as tables, with junk past it, and all its paths as the list.
fn all_as_list(rng: &mut Rng, alone: &Network) -> Case {
    let n = alone.paths();
    let mut c = bare(&gen::case(rng, n, Shape::Alone));
    (0..n).for_each(|i| c.widths[i] = alone.width(i) as u16);
    for (i, j, guard) in alone.conflicts() {
        gen::set_guard(&mut c, i, j, guard as u8);
    }
    c.list = gen::order(rng, n)[..n].to_vec();
    c
}

/// The floor of all paths of a network, held against its best plan where there are not too many
/// orders.
fn by_itself(t: &mut Tally, rng: &mut Rng, alone: &Network) -> Option<usize> {
    let c = all_as_list(rng, alone);
    let floor = told(t, &c, alone)?;
    if c.n <= 6 || rng.percent(10) {
        by_best_plan(t, &c, alone, floor);
    }
    Some(floor)
}

/// The lowest floor that there is, and the highest: 8 x 64 + 7 x 32.
fn lowest_and_highest(t: &mut Tally, rng: &mut Rng) {
    for (length, width, guard, want) in [(1, 1, 0, 1), (MAX_LIST, MAX_WIDTH, MAX_GUARD, 736)] {
        let alone = square(&vec![width; length], |_, _| guard);
        let c = all_as_list(rng, &alone);
        t.cases += 1;
        if let Some(floor) = told(t, &c, &alone) {
            t.check_of(Call::Floor, "floors are from 1 to 736", &c, floor == want);
        }
    }
}

/// A network with a right list of this length, and what stands past n looking like paths that are
/// in conflict with all others.
fn right_list(rng: &mut Rng, n: usize, length: usize) -> Case {
    let mut c = bare(&gen::case(rng, n, Shape::Density(100)));
    for past in n..PATHS {
        c.widths[past] = 1;
        (0..past).for_each(|path| gen::set_guard(&mut c, path, past, 0));
    }
    c.list = bytes(&scattered(rng, n, length));
    c
}

/// The answer to a wrong list, held against the place that is known to be wrong.
fn wrong_list(t: &mut Tally, c: &Case, place: usize) {
    t.cases += 1;
    if let Some(got) = compare::floor(t, c) {
        let refused = got.answer == Answer::new(15, place, [0, 0]);
        t.check_of(Call::Floor, "a wrong list is 15 at its first fault", c, refused);
    }
}

/// No path; nine and more that are all in conflict; so many that the length is right once it is
/// cut, to 8 or to 16 bits. Place 0, also where an entry is wrong too.
fn wrong_lengths(t: &mut Tally, rng: &mut Rng) {
    let cut = rng.range(1, MAX_LIST);
    for length in [0, 9, 10, 20, 256, 256 + cut, 65_536, 65_536 + cut] {
        let n = rng.range(20, PATHS);
        let mut c = right_list(rng, n, length.min(20));
        c.list.resize(length, c.n as u8 - 1);
        wrong_list(t, &c, 0);
        if length > 0 {
            let at = rng.below(length);
            c.list[at] = rng.pick(&[c.n as u8, 255]);
            wrong_list(t, &c, 0);
        }
    }
}

/// At each position in turn, and at some after it, an entry that is no path, that came before, or
/// that lacks a conflict with one before.
fn wrong_entries(t: &mut Tally, rng: &mut Rng) {
    for place in 0..MAX_LIST {
        for fault in 0..3 {
            let (n, length) = (rng.range(MAX_LIST, PATHS), rng.range(place + 1, MAX_LIST));
            let mut c = right_list(rng, n, length);
            for position in (place..length).rev() {
                if position > place && rng.percent(70) {
                    continue;
                }
                let other = if position == place { fault } else { rng.below(3) };
                wrong_entry(rng, &mut c, position, other);
            }
            wrong_list(t, &c, place);
        }
    }
}

/// The first position has nothing before it: there only a number that is no path is wrong.
fn wrong_entry(rng: &mut Rng, c: &mut Case, position: usize, fault: usize) {
    let earlier = rng.below(position.max(1));
    let (path, before) = (c.list[position], c.list[earlier]);
    match fault {
        1 if position > 0 => c.list[position] = before,
        2 if position > 0 => gen::set_guard(c, usize::from(path), usize::from(before), NONE),
        _ => c.list[position] = rng.pick(&[c.n as u8, PATHS as u8, 254, 255]),
    }
}

/// The refusals in their order.
const ROW: [usize; 6] = [2, 1, 3, 4, 5, 15];

/// Every set of refusals at once: the first of the row is answered.
fn refusals(t: &mut Tally, rng: &mut Rng) {
    for set in 0..1 << ROW.len() {
        let chosen: Vec<usize> = (0..ROW.len()).filter(|place| set >> place & 1 == 1).collect();
        let (n, length) = (rng.range(2, 12), rng.range(2, MAX_LIST));
        let mut c = right_list(rng, n, length.min(n));
        let (one, other) = (usize::from(c.list[0]), usize::from(c.list[1]));
        let pair = (one.min(other), one.max(other));
        // From the last to the first, so that no earlier table is of another size by then.
        for &place in chosen.iter().rev() {
            spoil(rng, &mut c, ROW[place], pair);
        }
        let want = chosen.first().map_or(0, |&place| ROW[place]);
        t.cases += 1;
        if let Some(got) = compare::floor(t, &c) {
            let first = got.answer.number == want;
            t.check_of(Call::Floor, "the first refusal of the row", &c, first);
            let bare = (got.answer.more[0] == 0) == (want != 0);
            t.check_of(Call::Floor, "a refusal has no floor", &c, bare);
        }
    }
}

/// Makes a case that is refused with a number; the two paths of the pair are in the list.
fn spoil(rng: &mut Rng, c: &mut Case, number: usize, (i, j): (usize, usize)) {
    let length = rng.pick(&[0, 1, PATHS - 1, PATHS + 1, 2 * PATHS]);
    match number {
        15 => spoil_list(rng, c),
        5 => c.guards[cell(j, i)] = if c.guards[cell(j, i)] == 3 { NONE } else { 3 },
        4 => c.guards[rng.pick(&[cell(i, j), cell(j, i), cell(j, j)])] = rng.pick(&[33, 254]),
        3 => c.widths[rng.pick(&[i, j])] = rng.pick(&[0, 65, 256, 65_535]),
        1 => c.n = rng.pick(&[0, 129, 257, 1 << 32, usize::MAX]),
        _ if rng.percent(50) => c.widths.resize(length, 1),
        _ => c.guards.resize(rng.pick(&[0, length, CELLS - 1, CELLS + 1]), NONE),
    }
}

fn spoil_list(rng: &mut Rng, c: &mut Case) {
    let (position, fault) = (rng.below(c.list.len()), rng.below(3));
    match rng.below(5) {
        0 => c.list.clear(),
        1 => c.list.resize(rng.pick(&[9, 20]), 0),
        _ => wrong_entry(rng, c, position, fault),
    }
}

/// Lures lead astray, equal guards do not. Among neighbours no guard reaches past a path; in a star
/// those past the centre do.
#[test]
fn lures_and_neighbours() {
    let mut rng = Rng::new(1, 0, 0);
    for length in 3..=MAX_LIST {
        let widths: Vec<usize> = (0..length).map(|_| rng.range(1, 3)).collect();
        assert!(astray(&laid(&mut rng, Kind::Lures, &widths)));
        assert!(!astray(&laid(&mut rng, Kind::Equal(1), &widths)));
        assert!(brute::only_neighbours_push(&laid(&mut rng, Kind::Neighbours, &widths)));
        assert!(!brute::only_neighbours_push(&laid(&mut rng, Kind::Star, &widths)));
    }
}

/// Guards for which the walk is known, by both ways of finding it.
#[test]
fn known_walks() {
    let mut rng = Rng::new(2, 0, 0);
    for kind in KINDS {
        for length in 1..=MAX_LIST {
            let widths: Vec<usize> = (0..length).map(|_| rng.range(1, MAX_WIDTH)).collect();
            let net = laid(&mut rng, kind, &widths);
            let all: Vec<usize> = (0..length).collect();
            let floor = rules::floor(&net, &all);
            assert_eq!(floor, brute::floor_by_sets(&net, &all));
            if let Some(walk) = known_walk(kind, &net) {
                assert_eq!(floor, widths.iter().sum::<usize>() + walk);
            }
        }
    }
}

/// A line's ends are inside, and no path is lost.
#[test]
fn ends_are_inside() {
    let mut rng = Rng::new(3, 0, 0);
    for length in 5..=MAX_LIST {
        let line: Vec<usize> = (10..10 + length).collect();
        let mut list = ends_inside(&mut rng, &line);
        for end in [list[0], list[length - 1]] {
            assert!(end != line[0] && end != line[length - 1]);
        }
        list.sort_unstable();
        assert_eq!(list, line);
    }
}
