//! Random networks of up to 6 paths: every call compared, and every answer of the library held
//! against brute force: slot sets, all orders, all plans, all sides.

use crate::brute;
use crate::compare::{self, Call, Case, Outcome, Tally};
use crate::gen::{self, Rng, Shape, SHAPES};
use crate::groups::{chains, clashes, floors};
use crate::net::*;
use crate::rules;

pub const PIECES: usize = 1_050;
const EACH: usize = 100;

pub fn piece(t: &mut Tally, rng: &mut Rng, _: usize) {
    for _ in 0..EACH {
        let (n, shape) = (rng.range(1, 6), shape(rng));
        let mut c = gen::case(rng, n, shape);
        c.rounds = rng.pick(&[0, 1, 2, 3, 5, 8, 13, 40, 200]);
        let net = c.network();
        let best = brute::best_by_orders(&net);
        t.cases += 1;
        search(t, &c, &net, best);
        judging(t, rng, &c, &net);
        packing(t, rng, &c, &net, best);
        pressing(t, &c, &net);
        sides(t, &c, &net, best);
        planning(t, &c, &net, best);
        improving(t, &c, &net);
        flooring(t, rng, &c, &net, best);
        sheets(t, &c);
        reasons(t, &mut rng.aside(), &c, &net);
    }
}

fn shape(rng: &mut Rng) -> Shape {
    if rng.percent(50) {
        rng.pick(&SHAPES)
    } else {
        Shape::Density(rng.range(10, 100))
    }
}

/// The best of all orders is the best of all plans: some plan keeps within so many slots, and
/// none within one slot less. Only where there are few plans to try.
fn search(t: &mut Tally, c: &Case, net: &Network, best: usize) {
    let plans = (best as u64).pow(net.paths() as u32);
    if plans <= 5_000 {
        t.check("some plan reaches the best", c, brute::plan_within(net, best));
        t.check("no valid plan is lower", c, !brute::plan_within(net, best - 1));
    }
}

/// Every plan is judged and pressed as its slots say; of the first, each pair is judged alone too.
fn judging(t: &mut Tally, rng: &mut Rng, c: &Case, net: &Network) {
    for k in 0..3 {
        let c = Case { starts: gen::any_plan(rng, c), ..c.clone() };
        clashes::by_slots(t, &c, net);
        if k == 0 {
            clashes::each_pair(t, &c, net);
        }
    }
}

/// A plan that the library made is valid and ends where it says.
fn sound(t: &mut Tally, what: &str, c: &Case, net: &Network, got: &Outcome) {
    let plan = got.plan(c.n);
    let started = plan.iter().all(|&s| s >= 1);
    let ends = brute::last_slot(net, &plan) == got.answer.more[0];
    t.check(what, c, started && ends && brute::valid_by_sets(net, &plan));
}

fn packing(t: &mut Tally, rng: &mut Rng, c: &Case, net: &Network, best: usize) {
    let Some(got) = compare::pack(t, c) else { return };
    sound(t, "a packed plan is valid", c, net, &got);
    t.check("packing is not below the best", c, got.answer.more[0] >= best);
    let mut back = c.clone();
    back.order[..c.n].reverse();
    if let Some(other) = compare::pack(t, &back) {
        let same = other.answer.more[0] == got.answer.more[0];
        t.check("an order and its reverse reach the same slot", c, same);
    }
    let two = Case { order: c.second.clone(), ..c.clone() };
    if let (Some(other), Some(which)) = (compare::pack(t, &two), compare::better(t, c)) {
        let second = other.answer.more[0] < got.answer.more[0];
        t.check("the better is the lower", c, which.answer.number == 1 + usize::from(second));
    }
    let any = Case { order: gen::order(rng, c.n), second: c.order.clone(), ..c.clone() };
    compare::better(t, &any);
}

/// Pressing gives every path the least start that it has in any plan of the same sides.
fn pressing(t: &mut Tally, c: &Case, net: &Network) {
    let Some(got) = compare::press(t, c) else { return };
    let before = c.plan();
    let after = got.plan(c.n);
    sound(t, "a pressed plan is valid", c, net, &got);
    t.check("pressing keeps the sides", c, brute::same_sides(net, &before, &after));
    let chains = (0..c.n).all(|p| after[p] == brute::least_by_chains(net, &before, p));
    t.check("a pressed start ends the longest chain below it", c, chains);
    if let Some(least) = brute::least_by_plans(net, &before, got.answer.more[0] + 1) {
        t.check("a pressed start is the least of all plans of its sides", c, after == least);
    }
    if let Some(again) = compare::press(t, &Case { starts: got.starts.clone(), ..c.clone() }) {
        t.check("pressing twice changes nothing", c, again.starts == got.starts);
    }
}

/// The sides are those found among all sets, and their order packs to the best plan there is.
fn sides(t: &mut Tally, c: &Case, net: &Network, best: usize) {
    let Some(got) = compare::two_sides(t, c) else { return };
    let Some(high) = brute::sides_by_sets(net) else {
        t.check("without sides it is 9", c, got.answer.number == 9);
        return;
    };
    let (upper, mut want): (Vec<usize>, Vec<usize>) = (0..c.n).partition(|&p| high[p]);
    let low = want.len();
    want.extend(upper);
    let same = got.answer.number == 0 && got.answer.more[0] == low && got.paths(c.n) == want;
    t.check("low side by number, then high side by number", c, same);
    if let Some(packed) = compare::pack(t, &Case { order: got.order.clone(), ..c.clone() }) {
        t.check("two sides pack to the best", c, packed.answer.more[0] == best);
        let height = brute::two_sided_height(net);
        t.check("two sides pack to the named height", c, packed.answer.more[0] == height);
    }
}

fn planning(t: &mut Tally, c: &Case, net: &Network, best: usize) {
    let sides = brute::sides_by_sets(net).is_some();
    if let Some(got) = compare::plan(t, c) {
        sound(t, "a plan is valid", c, net, &got);
        let reached = got.answer.more[0];
        t.check("planning is not below the best", c, reached >= best);
        t.check(
            "with two sides the plan is best, none kept",
            c,
            !sides || (reached == best && got.answer.more[1] == 0),
        );
    }
    if let Some(got) = compare::plan(t, &Case { rounds: 0, ..c.clone() }) {
        let greedy = brute::greedy_by_definition(net, &got.paths(c.n));
        t.check("greedy by definition", c, sides || greedy);
        t.check("no rounds, none kept", c, got.answer.more[1] == 0);
    }
}

/// So many rounds at once are so many times one round, the state running on.
fn improving(t: &mut Tally, c: &Case, net: &Network) {
    let Some(whole) = compare::improve(t, c) else { return };
    sound(t, "an improved plan is valid", c, net, &whole);
    if c.rounds > 13 {
        return;
    }
    let mut now = Case { rounds: 0, ..c.clone() };
    let mut kept = 0;
    let mut last = compare::improve(t, &now);
    now.rounds = 1;
    for _ in 0..c.rounds {
        if let Some(got) = compare::improve(t, &now) {
            kept += got.answer.more[1];
            now.seed = rules::next_state(rules::next_state(now.seed));
            now.order = got.order.clone();
            last = Some(got);
        }
    }
    if let Some(got) = last {
        let same = got.order == whole.order && got.starts == whole.starts;
        let numbers = [got.answer.more[0], kept] == whole.answer.more;
        t.check("round by round", c, same && numbers);
    }
}

/// Every valid plan reaches a floor (RULES 12).
fn flooring(t: &mut Tally, rng: &mut Rng, c: &Case, net: &Network, best: usize) {
    let mut c = floors::bare(c);
    for _ in 0..3 {
        c.list = gen::list(rng, &c);
        if let Some(floor) = floors::told(t, &c, net) {
            t.check_of(Call::Floor, "no floor is above the best", &c, floor <= best);
            if c.list.len() == c.n && brute::only_neighbours_push(net) {
                let reached = floor == best;
                t.check_of(Call::Floor, "the floor of all paths is the best", &c, reached);
            }
        }
        c.list = gen::any_list(rng, &c);
        floors::told(t, &c, net);
    }
}

/// Of half the networks: a path of the packed and of the pressed plan, or one of the planned one
/// and each of the loose one.
fn reasons(t: &mut Tally, rng: &mut Rng, c: &Case, net: &Network) {
    if !t.chooses(Call::Why) {
        return;
    }
    match rng.below(6) {
        0..=1 => chains::made_plans(t, rng, c, net),
        2 => {
            let mut planned = chains::without_sheet(c);
            chains::set_plan(&mut planned, &rules::plan(net, c.seed, c.rounds.min(13)).starts);
            chains::to_slot_1(t, &planned, net);
            chains::each_path(t, c, net);
        }
        _ => {}
    }
}

/// Written and read, the tables are the same again.
fn sheets(t: &mut Tally, c: &Case) {
    // The longest sheet of six paths has 567 bytes.
    let c = Case { text: vec![b'~'; 600], ..c.clone() };
    let Some((answer, mut text)) = compare::write(t, &c) else { return };
    text.truncate(answer.more[0]);
    let Some((got, back)) = compare::read(t, &Case { text, ..c.clone() }) else { return };
    let labels = back.labels[..LABEL * c.n] == c.labels[..LABEL * c.n];
    let same = back.widths[..c.n] == c.widths[..c.n] && back.starts[..c.n] == c.starts[..c.n];
    let row = |case: &Case, i: usize| case.guards[cell(i, 0)..cell(i, c.n)].to_vec();
    let rows = (0..c.n).all(|i| row(&back, i) == row(&c, i));
    let read = got.number == 0 && got.more[0] == c.n;
    t.check("written and read", &c, read && labels && same && rows);
}
