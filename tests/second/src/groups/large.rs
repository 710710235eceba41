//! Larger networks, up to 128 paths, from sparse to full, two-sided ones and odd rings among
//! them, with rounds from none to 10,000.

use crate::brute;
use crate::compare::{self, Call, Case, Tally};
use crate::gen::{self, Rng, Shape, SHAPES};
use crate::groups::{chains, floors};
use crate::net::*;

pub const PIECES: usize = 600;
const EACH: usize = 4;

pub fn piece(t: &mut Tally, rng: &mut Rng, number: usize) {
    for k in 0..EACH {
        let n = if rng.percent(40) { PATHS } else { rng.range(7, PATHS) };
        let mut c = gen::case(rng, n, SHAPES[(EACH * number + k) % SHAPES.len()]);
        c.rounds = rounds(rng, number, k);
        t.cases += 1;
        calls(t, rng, &c);
    }
    if number == 0 {
        fullest(t, rng);
    }
}

/// Mostly few rounds; every fortieth piece has one network with 10,000.
fn rounds(rng: &mut Rng, number: usize, k: usize) -> usize {
    match number % 40 {
        0 if k == 0 => MAX_ROUNDS,
        n if n % 8 == 1 => rng.range(100, 1_000),
        n if n % 8 == 2 => 0,
        _ => rng.range(0, 60),
    }
}

fn calls(t: &mut Tally, rng: &mut Rng, c: &Case) {
    compare::all_calls(t, c);
    for k in 0..3 {
        let planned = Case { starts: gen::any_plan(rng, c), ..c.clone() };
        compare::judge(t, &planned);
        compare::press(t, &planned);
        if k == 0 {
            compare::why(t, &planned);
        }
    }
    flooring(t, rng, c);
    made_plans(t, c);
    reverse(t, c);
    // Starts at the limit: 001's validity needs ends beyond 16,384.
    let far = Case { starts: far_plan(rng, c), ..c.clone() };
    compare::judge(t, &far);
    compare::press(t, &far);
    reasons(t, &mut rng.aside(), c, &far);
}

/// Lists that are right, which the plan of the case reaches, and lists with anything in them.
fn flooring(t: &mut Tally, rng: &mut Rng, c: &Case) {
    let net = c.network();
    let reached = brute::last_slot(&net, &c.plan());
    let mut c = floors::bare(c);
    for _ in 0..2 {
        c.list = gen::list(rng, &c);
        if let Some(floor) = floors::told(t, &c, &net) {
            t.check_of(Call::Floor, "a valid plan reaches every floor", &c, floor <= reached);
        }
        c.list = gen::any_list(rng, &c);
        floors::told(t, &c, &net);
    }
}

/// A path of the packed and of the pressed plan; of the loose and of the far one the path that
/// starts highest, where the longest chains begin; and a path that the far one has not.
fn reasons(t: &mut Tally, rng: &mut Rng, c: &Case, far: &Case) {
    if !t.chooses(Call::Why) {
        return;
    }
    let net = c.network();
    chains::made_plans(t, rng, c, &net);
    for mut c in [c, far].map(chains::without_sheet) {
        c.path = highest_path(&c);
        chains::told(t, &c, &net);
    }
    compare::why(t, &Case { path: c.n, ..chains::without_sheet(far) });
}

fn highest_path(c: &Case) -> usize {
    (0..c.n).max_by_key(|&p| c.starts[p]).unwrap_or(0)
}

/// What planning and improving leave is accepted by the judge, and pressing it cannot raise it.
fn made_plans(t: &mut Tally, c: &Case) {
    let short = Case { rounds: c.rounds.min(30), ..c.clone() };
    for made in [compare::plan(t, &short), compare::improve(t, &short)].into_iter().flatten() {
        let made_case = Case { starts: made.starts.clone(), order: made.order, ..c.clone() };
        if let Some(judged) = compare::judge(t, &made_case) {
            t.check("a made plan is valid", &made_case, judged.answer.number == 0);
        }
        if t.chooses(Call::Why) {
            chains::to_slot_1(t, &made_case, &made_case.network());
        }
        if let Some(pressed) = compare::press(t, &made_case) {
            let lower = pressed.answer.more[0] <= made.answer.more[0];
            t.check("pressing does not raise a plan", &made_case, lower);
        }
    }
}

fn reverse(t: &mut Tally, c: &Case) {
    let mut back = c.clone();
    back.order[..c.n].reverse();
    if let (Some(one), Some(two)) = (compare::pack(t, c), compare::pack(t, &back)) {
        let same = one.answer.more[0] == two.answer.more[0];
        t.check("an order and its reverse reach the same slot", c, same);
    }
}

/// A valid plan as high as it may be.
fn far_plan(rng: &mut Rng, c: &Case) -> Vec<u16> {
    let mut starts = gen::loose_plan(rng, c);
    gen::raise(&mut starts[..c.n]);
    starts
}

/// The network that reaches the bound of RULES 5, 12,256.
fn fullest(t: &mut Tally, rng: &mut Rng) {
    let mut c = gen::case(rng, PATHS, Shape::Density(100));
    c.widths.fill(64);
    (0..PATHS).for_each(|i| (0..i).for_each(|j| gen::set_guard(&mut c, i, j, 32)));
    c.starts = gen::loose_plan(rng, &c);
    c.rounds = 40;
    t.cases += 1;
    calls(t, rng, &c);
    if t.chooses(Call::Pack) {
        if let Some(got) = compare::pack(t, &c) {
            t.check("the fullest network reaches 12,256", &c, got.answer.more[0] == 12_256);
        }
    }
}
