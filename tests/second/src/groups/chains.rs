//! Why a path stands where it stands (RULES 25): the checks, which other groups use too; plans
//! loosened upwards, paths that rest on several others, every plan of a few paths, every set of
//! refusals.

use crate::brute::{self, Sides};
use crate::calls::Answer;
use crate::compare::{self, Call, Case, Tally};
use crate::gen::{self, Rng, Shape, SHAPES};
use crate::net::*;
use crate::rules;

pub const PIECES: usize = 60;
const EACH: usize = 20;

pub fn piece(t: &mut Tally, rng: &mut Rng, number: usize) {
    for _ in 0..EACH {
        let (n, shape) = (rng.range(2, 12), rng.pick(&SHAPES));
        let c = gen::case(rng, n, shape);
        t.cases += 1;
        loosened(t, rng, &c);
        supports(t, rng);
    }
    every_plan(t, rng);
    refusals(t, rng);
    if number == 0 {
        ladders(t, rng);
    }
}

/// What the library told of a path.
pub struct Told {
    pub answer: Answer,
    /// The chain; empty where it was refused or names what is no path.
    pub chain: Vec<usize>,
}

/// Asks about the case's path, and holds each claim of RULES 25 against the slots. The plan may be
/// wrong.
pub fn told(t: &mut Tally, c: &Case, net: &Network) -> Option<Told> {
    let (answer, table) = compare::why(t, c)?;
    let mut chain: Vec<usize> = table.iter().take(answer.more[0]).map(|&p| p.into()).collect();
    if answer.number == 0 {
        let paths = chain.len() == answer.more[0] && chain.iter().all(|&p| p < c.n);
        let first = paths && chain.first() == Some(&c.path);
        t.check_of(Call::Why, "a chain is of paths, and the path itself is first", c, first);
        if first {
            hold(t, c, net, &chain, answer.more[1]);
        } else {
            chain.clear();
        }
    }
    Some(Told { answer, chain })
}

fn hold(t: &mut Tally, c: &Case, net: &Network, chain: &[usize], down: usize) {
    let (plan, last) = (c.plan(), chain.len() - 1);
    let mut say = |what: &str, holds: bool| t.check_of(Call::Why, what, c, holds);
    let support = |p: usize| brute::first_support(net, &plan, p);
    let links = chain.windows(2).all(|two| support(two[0]) == Some(two[1]));
    say("each link is the first path that the one before rests on", links);
    say("starts fall along a chain", chain.windows(2).all(|two| plan[two[0]] > plan[two[1]]));
    let end = chain.iter().position(|&p| plan[p] == 1 || support(p).is_none());
    say("a chain goes on to slot 1 or a free path, and no further", end == Some(last));
    let so_far = brute::is_way_down(net, &plan, chain[last], down);
    say("a chain's last path can come down so far", so_far);
}

/// The same of a plan that has no free path, as packing, pressing and planning make them.
pub fn to_slot_1(t: &mut Tally, c: &Case, net: &Network) -> Option<Told> {
    let told = told(t, c, net)?;
    let plan = c.plan();
    let ends = told.answer.more[1] == 0 && told.chain.last().is_some_and(|&p| plan[p] == 1);
    t.check_of(Call::Why, "in a made plan a chain ends in slot 1", c, ends);
    let below = |two: &[usize]| Some(net.width(two[1]) + net.guard(two[0], two[1])?);
    let sum: Option<usize> = told.chain.windows(2).map(below).sum();
    let added = sum.map(|slots| slots + 1) == Some(plan[c.path]);
    t.check_of(Call::Why, "widths and guards of a chain add up to the start", c, added);
    Some(told)
}

/// A path in the packed and in the pressed plan of a case, and now and then in them loosened.
pub fn made_plans(t: &mut Tally, rng: &mut Rng, c: &Case, net: &Network) {
    let mut made = without_sheet(c);
    for plan in [packed(c, net), rules::press(net, &c.plan())] {
        set_plan(&mut made, &plan);
        made.path = rng.below(c.n);
        to_slot_1(t, &made, net);
        if rng.percent(40) {
            gen::loosen(rng, &mut made.starts[..c.n]);
            made.path = rng.below(c.n);
            told(t, &made, net);
        }
    }
}

fn packed(c: &Case, net: &Network) -> Vec<usize> {
    let order: Vec<usize> = c.order[..c.n].iter().map(|&p| usize::from(p)).collect();
    rules::pack(net, &order)
}

pub fn set_plan(c: &mut Case, plan: &[usize]) {
    (0..c.n).for_each(|i| c.starts[i] = plan[i] as u16);
}

/// A copy without what only other calls take: the text can be long.
pub fn without_sheet(c: &Case) -> Case {
    Case {
        n: c.n,
        widths: c.widths.clone(),
        guards: c.guards.clone(),
        starts: c.starts.clone(),
        chain: c.chain.clone(),
        path: c.path,
        ..Case::default()
    }
}

/// Each path of a plan, and numbers that no path has: 6, place 0, where the plan is valid. Where a
/// chain ends in slot 1, no valid plan of the same sides puts its path lower: `leasts` has all with
/// starts up to the highest one of this plan.
pub fn every_path(t: &mut Tally, c: &Case, net: &Network, leasts: &[(Sides, Vec<usize>)]) {
    let plan = c.plan();
    let sides = brute::sides_of(net, &plan);
    let least = leasts.iter().find(|known| known.0 == sides).map(|known| &known.1);
    let mut c = without_sheet(c);
    for path in 0..c.n {
        c.path = path;
        let Some(Told { answer, chain }) = told(t, &c, net) else { return };
        if answer.number == 0 && chain.last().is_some_and(|&p| plan[p] == 1) {
            let lowest = least.is_some_and(|starts| starts[path] >= plan[path]);
            t.check_of(Call::Why, "no plan of the same sides puts the path lower", &c, lowest);
        }
    }
    let valid = !plan.contains(&0) && brute::valid_by_sets(net, &plan);
    for path in [c.n, c.n + 1, usize::MAX] {
        c.path = path;
        let Some(Told { answer, .. }) = told(t, &c, net) else { return };
        let refused = answer == Answer::new(6, 0, [0, 0]);
        t.check_of(Call::Why, "no such path is 6, if the plan is valid", &c, refused == valid);
    }
}

/// A packed plan loosened upwards, and the plan of the case: each path.
fn loosened(t: &mut Tally, rng: &mut Rng, c: &Case) {
    let (net, mut made) = (c.network(), without_sheet(c));
    set_plan(&mut made, &packed(c, &net));
    gen::loosen(rng, &mut made.starts[..c.n]);
    each_path(t, c, &net);
    each_path(t, &made, &net);
}

/// One path above all others that are in its way, which rests on some of them, each with its own
/// width and guard. Others would fit, were they in conflict, or lack a slot, or are far above it.
fn supports(t: &mut Tally, rng: &mut Rng) {
    let n = if rng.percent(50) { rng.range(2, 6) } else { rng.range(7, PATHS) };
    let mut c = gen::case(rng, n, Shape::Alone);
    let (asked, start, rare) = (rng.below(n), rng.pick(&[200, MAX_START]), rng.pick(&[5, 30, 80]));
    let mut wanted = None;
    for other in (0..n).filter(|&p| p != asked) {
        let (width, guard) = (rng.range(1, MAX_WIDTH), rng.range(0, MAX_GUARD));
        c.widths[other] = width as u16;
        let fits = start - guard - width;
        let kind = if rng.percent(rare) { 0 } else { rng.range(1, 4) };
        c.starts[other] = match kind {
            0 | 1 => fits,
            2 => fits - 1,
            3 => fits - rng.range(1, 100),
            _ => start.min(MAX_START - 200) + 150,
        } as u16;
        let above = usize::from(c.starts[other]) > start;
        if kind != 1 && (kind < 4 || above) {
            gen::set_guard(&mut c, asked, other, guard as u8);
        }
        if kind == 0 && wanted.is_none() {
            wanted = Some(other);
        }
    }
    (c.starts[asked], c.path) = (start as u16, asked);
    t.cases += 1;
    let net = c.network();
    if let Some(told) = told(t, &c, &net) {
        let link = told.answer.number == 0 && told.chain.get(1).copied() == wanted;
        t.check_of(Call::Why, "of several supports the lowest number is named", &c, link);
    }
}

/// The highest start of the plans below.
const TOP: usize = 5;

/// Every path of every plan of a small network of four paths.
fn every_plan(t: &mut Tally, rng: &mut Rng) {
    let mut c = without_sheet(&gen::case(rng, 4, Shape::Alone));
    let guards = rng.pick(&[[NONE, 0, 1], [0, 0, NONE], [0, 1, 1]]);
    (0..4).for_each(|i| c.widths[i] = rng.pick(&[1, 1, 2]));
    (0..4).for_each(|i| (0..i).for_each(|j| gen::set_guard(&mut c, i, j, rng.pick(&guards))));
    let net = c.network();
    let leasts = brute::leasts(&net, TOP);
    t.cases += 1;
    for number in 0..TOP.pow(4) as u64 {
        let plan = brute::plan_of(number, TOP, 4);
        set_plan(&mut c, &plan);
        every_path(t, &c, &net, &leasts);
    }
}

/// Each path of a valid plan.
pub fn each_path(t: &mut Tally, c: &Case, net: &Network) {
    let mut c = without_sheet(c);
    for path in 0..c.n {
        c.path = path;
        told(t, &c, net);
    }
}

/// The refusals in their order.
const ROW: [usize; 8] = [2, 1, 3, 4, 5, 7, 8, 6];

/// Every set of refusals at once: the first of the row is answered, and nothing is changed.
fn refusals(t: &mut Tally, rng: &mut Rng) {
    for set in 0..1 << ROW.len() {
        let n = rng.range(2, 9);
        let mut c = gen::case(rng, n, Shape::Density(80));
        let (i, j) = (rng.below(n - 1), n - 1);
        if c.guards[cell(i, j)] == NONE {
            gen::set_guard(&mut c, i, j, 0);
            c.starts = gen::loose_plan(rng, &c);
        }
        let chosen = |number: &usize| {
            let place = ROW.iter().position(|r| r == number);
            place.is_some_and(|place| set >> place & 1 == 1)
        };
        // From the last to the first, so that no earlier table is of another size by then.
        for number in ROW.iter().rev().filter(|number| chosen(number)) {
            spoil(rng, &mut c, *number, (i, j));
        }
        let want = ROW.iter().copied().find(|number| chosen(number)).unwrap_or(0);
        t.cases += 1;
        if let Some((answer, _)) = compare::why(t, &c) {
            t.check_of(Call::Why, "the first refusal of the row", &c, answer.number == want);
            let bare = ![2, 1, 6].contains(&want) || answer.place == 0;
            t.check_of(Call::Why, "2, 1 and 6 have place 0", &c, bare);
        }
    }
}

/// Makes a case that is refused with a number; the pair is in conflict.
fn spoil(rng: &mut Rng, c: &mut Case, number: usize, (i, j): (usize, usize)) {
    let length = rng.pick(&[0, 1, PATHS - 1, PATHS + 1, 2 * PATHS]);
    match number {
        6 => c.path = rng.pick(&[c.n, c.n + 1, 127, 128, 255, 256, 1 << 32, usize::MAX]),
        8 => c.starts[j] = c.starts[i],
        7 => c.starts[rng.pick(&[i, j])] = rng.pick(&[0, 16_385, 32_768, 65_535]),
        5 => c.guards[cell(j, i)] = if c.guards[cell(j, i)] == 3 { NONE } else { 3 },
        4 => c.guards[rng.pick(&[cell(i, j), cell(j, i), cell(j, j)])] = rng.pick(&[33, 254]),
        3 => c.widths[rng.pick(&[i, j])] = rng.pick(&[0, 65, 256, 65_535]),
        1 => c.n = rng.pick(&[0, 129, 257, 1 << 32, usize::MAX]),
        _ => match rng.below(4) {
            0 => c.widths.resize(length, 1),
            1 => c.guards.resize(rng.pick(&[0, length, CELLS - 1, CELLS + 1]), NONE),
            2 => c.starts.resize(length, 1),
            _ => c.chain.resize(length, 9),
        },
    }
}

/// All paths in conflict and packed: the chain from the last one has all of them, up to 128.
fn ladders(t: &mut Tally, rng: &mut Rng) {
    for n in [1, 2, 3, 64, 126, 127, 128] {
        let mut c = gen::case(rng, n, Shape::Density(100));
        (0..n).for_each(|i| (0..i).for_each(|j| gen::set_guard(&mut c, i, j, 32)));
        let mut order: Vec<usize> = (0..n).collect();
        rng.shuffle(&mut order);
        let net = c.network();
        set_plan(&mut c, &rules::pack(&net, &order));
        c.path = order[n - 1];
        t.cases += 1;
        order.reverse();
        if let Some(told) = to_slot_1(t, &c, &net) {
            t.check_of(Call::Why, "a ladder has all paths", &c, told.chain == order);
        }
    }
}
