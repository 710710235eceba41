//! The program ask, named by NESBRUNKA_ASK: what it prints for plans of every kind, damaged sheets,
//! labels that no path has, anchors, and arguments of every kind.

use crate::ask;
use crate::compare::{Call, Case, Tally};
use crate::damage::Draft;
use crate::gen::{self, Rng, SHAPES};
use crate::groups::{program, sheets};
use crate::net::*;
use crate::order::LONGEST_ORDER;
use crate::rules;

pub const PIECES: usize = 30;
const EACH: usize = 10;

/// The program, if the variable names one.
pub fn named() -> Option<String> {
    std::env::var("NESBRUNKA_ASK").ok().filter(|name| !name.is_empty())
}

pub fn piece(t: &mut Tally, rng: &mut Rng, number: usize) {
    let Some(program) = named().filter(|_| t.chooses(Call::Ask)) else { return };
    if number == 0 {
        for (args, text) in special(rng) {
            one(t, &program, args, text, usize::MAX);
        }
        orders(t, rng, &program);
        for args in WRONG {
            unread(t, &program, many(args));
        }
        for anchor in WRONG_ANCHORS {
            unread(t, &program, order(anchor));
        }
        unread(t, &program, Vec::new());
    }
    for k in 0..EACH {
        let c = planned(rng, k, number % 5 == 1);
        let starts = k != 6 || number % 2 == 1;
        let text = match k {
            7 => sheets::damaged(rng, 13 * number),
            _ => Draft::new(rng, &c, starts).text(),
        };
        let args = match k {
            8 => any_args(rng, &c),
            5 => vec![b"judge".to_vec()],
            6 | 7 if rng.percent(50) => vec![b"judge".to_vec()],
            9 => vec![b"why".to_vec(), unknown(rng, &c)],
            _ => vec![b"why".to_vec(), label(&c, c.path)],
        };
        let small = k == 1 && text.len() < 3_000;
        let step = if small { rng.range(1, 7) } else { rng.pick(&[usize::MAX, 1_000]) };
        one(t, &program, args, text, step);
    }
    for k in ORDERED {
        let c = planned(rng, k, number % 5 == 1);
        let text = match k {
            7 => sheets::damaged(rng, 13 * number + 5),
            _ => Draft::new(rng, &c, k != 6).text(),
        };
        let args = match k {
            8 => any_order_args(rng),
            _ => order(gen::anchor(rng).to_string().as_bytes()),
        };
        one(t, &program, args, text, rng.pick(&[usize::MAX, 1_000]));
    }
}

/// The plans that are ordered, by their kinds: planned, packed, loosened, any, without starts, a
/// damaged sheet, any arguments.
const ORDERED: [usize; 7] = [0, 1, 2, 4, 6, 7, 8];

/// A network with a plan: packed, planned, loosened, loose, or anything.
fn planned(rng: &mut Rng, k: usize, large: bool) -> Case {
    loop {
        let n = if large { rng.range(10, PATHS) } else { rng.range(1, 9) };
        let shape = rng.pick(&SHAPES);
        let mut c = gen::case(rng, n, shape);
        let net = c.network();
        if net.conflicts().len() > MAX_PAIRS {
            continue;
        }
        let order: Vec<usize> = c.order[..n].iter().map(|&p| usize::from(p)).collect();
        let made = match k {
            0 => rules::plan(&net, c.seed, 5).starts,
            1..=3 => rules::pack(&net, &order),
            _ => c.plan(),
        };
        (0..n).for_each(|i| c.starts[i] = made[i] as u16);
        match k {
            2 | 3 => gen::loosen(rng, &mut c.starts[..n]),
            4 => c.starts = gen::any_plan(rng, &c),
            5 | 9 if rng.percent(30) => c.starts = gen::any_plan(rng, &c),
            _ => {}
        }
        return c;
    }
}

fn label(c: &Case, path: usize) -> Vec<u8> {
    let bytes = &c.labels[LABEL * path..LABEL * (path + 1)];
    bytes.iter().copied().take_while(|&b| b != 0).collect()
}

/// A label that is not the sheet's, or hardly: some differ from one of them by a byte.
fn unknown(rng: &mut Rng, c: &Case) -> Vec<u8> {
    let known: Vec<Vec<u8>> = (0..c.n).map(|path| label(c, path)).collect();
    let mut near = known[rng.below(c.n)].clone();
    match rng.below(4) {
        0 if near.len() < LABEL => near.push(b'0'),
        1 if near.len() < LABEL => near.insert(0, b'0'),
        2 if near.len() > 1 => near.truncate(near.len() - 1),
        _ => near = gen::label(rng, &known),
    }
    near
}

/// Words and labels that are right or nearly right, too few, too many.
fn any_args(rng: &mut Rng, c: &Case) -> Vec<Vec<u8>> {
    let mut own = label(c, c.path);
    match rng.below(9) {
        0 => own.resize(LABEL + 1, b'A'),
        1 => own.insert(rng.below(own.len() + 1), rng.pick(b"a_ .\n\t\x01\x7F\x80\xFF")),
        2 => own.make_ascii_lowercase(),
        3 => own.clear(),
        _ => {}
    }
    let words = many(b"why|why|why|why|judge|Why|whyy|wh||judges|judg|why ");
    let mut args = vec![words[rng.below(words.len())].clone(), own];
    match rng.below(6) {
        0 => args.truncate(rng.below(2)),
        1 => args.push(rng.pick(&[&b"A"[..], b"", b"why"]).to_vec()),
        2 => args.reverse(),
        _ => {}
    }
    args
}

/// Arguments with a bar between each two.
fn many(args: &[u8]) -> Vec<Vec<u8>> {
    args.split(|&b| b == b'|').map(|arg| arg.to_vec()).collect()
}

const NETWORK: &str = "paths 3\n0417 2\n417 4\nA9 1\nguards 2\n0417 417 1\n417 A9 2\n";

fn with_starts(starts: [usize; 3]) -> String {
    let [a, b, c] = starts;
    format!("{NETWORK}starts 3\n0417 {a}\n417 {b}\nA9 {c}\n")
}

/// Arguments that ask nothing of a sheet.
const WRONG: [&[u8]; 26] = [
    b"",
    b"why",
    b"Why",
    b"whyy",
    b"wh",
    b"judges",
    b"judge|A9",
    b"judge|",
    b"why|A9|A9",
    b"why|",
    b"why|ABCDEFGHI",
    b"why|a9",
    b"why|A9 ",
    b"why|A9\n",
    b"why|\xFF\xFE",
    b"Why|A9",
    b"order",
    b"Order|0",
    b"orders|0",
    b"orde|0",
    b"order |0",
    b"order|0|0",
    b"order|0|",
    b"order||",
    b"0|order",
    b"order|0|417|A9",
];

/// What is no anchor: no number of an order sheet's form, or too far.
const WRONG_ANCHORS: [&[u8]; 30] = [
    b"",
    b"-",
    b"--1",
    b"+1",
    b"-0",
    b"00",
    b"01",
    b"-01",
    b"1-",
    b" 1",
    b"1 ",
    b"1\n",
    b"-1 ",
    b"1.0",
    b"1e3",
    b"0x10",
    b"A",
    b"1025",
    b"-1025",
    b"2048",
    b"65537",
    b"99999",
    b"-99999",
    b"100000",
    b"-123456",
    b"4294967297",
    b"18446744073709551617",
    b"\xFF",
    b"\xE2\x88\x921",
    b"000000000000000000000000000001",
];

fn order(anchor: &[u8]) -> Vec<Vec<u8>> {
    vec![b"order".to_vec(), anchor.to_vec()]
}

/// Anchors right and wrong, the word nearly right, too few, too many.
fn any_order_args(rng: &mut Rng) -> Vec<Vec<u8>> {
    let mut anchor = gen::anchor(rng).to_string().into_bytes();
    match rng.below(6) {
        0 => anchor = gen::wrong_anchor(rng).to_string().into_bytes(),
        1 => anchor.insert(rng.below(anchor.len() + 1), rng.pick(b"0-+ .,a\n\x80")),
        2 => anchor = rng.pick(&WRONG_ANCHORS).to_vec(),
        _ => {}
    }
    let mut args = order(&anchor);
    match rng.below(8) {
        0 => args.truncate(1),
        1 => args.push(anchor),
        2 => args.reverse(),
        3 => args[0] = rng.pick(&[&b"Order"[..], b"orders", b"why", b"judge", b"orde"]).to_vec(),
        _ => {}
    }
    args
}

/// Every wrong anchor, the right ones at the ends and about 0, with inputs of each kind; the longest
/// sheet, whose order sheet is the longest one, and more than it.
fn orders(t: &mut Tally, rng: &mut Rng, program: &str) {
    let (none, refused) = (NETWORK.to_string(), "paths 0\n".to_string());
    let inputs = [with_starts([1, 4, 10]), with_starts([1, 3, 9]), none, refused];
    let inputs = inputs.map(String::into_bytes);
    for (number, anchor) in WRONG_ANCHORS.into_iter().enumerate() {
        one(t, program, order(anchor), inputs[number % inputs.len()].clone(), usize::MAX);
    }
    for anchor in [-1_024, -1_023, -11, -4, -1, 0, 1, 9, 1_023, 1_024] {
        for text in &inputs {
            one(t, program, order(anchor.to_string().as_bytes()), text.clone(), usize::MAX);
        }
    }
    let mut c = gen::longest(rng);
    // A valid plan, in which each n has five digits and each m two.
    for i in 0..PATHS as u16 {
        let path = usize::from(i);
        (c.widths[path], c.starts[path]) = (10 + i % 40, 4_500 + 92 * i);
    }
    let longest = Draft::new(rng, &c, true).text();
    let args = order(b"1024");
    let ordered = ask::program(&args, &longest).len() == LONGEST_ORDER;
    t.check("the longest order sheet has 2,314 bytes", &c, ordered);
    one(t, program, args.clone(), longest.clone(), usize::MAX);
    one(t, program, args.clone(), longest.clone(), 4_096);
    one(t, program, args, [longest, b"x".to_vec()].concat(), usize::MAX);
}

/// A run with arguments that ask nothing of a sheet: it is left unread.
fn unread(t: &mut Tally, program: &str, args: Vec<Vec<u8>>) {
    t.cases += 1;
    let text = with_starts([1, 4, 10]).into_bytes();
    let want = [ask::program(&args, &text), text.clone()].concat();
    let got = program::run_and_left(program, &args, &text);
    let how = format!("{}, and what is left of its input", words(&args));
    t.program(Call::Ask, &how, &Case { text, ..Case::default() }, &got, &want);
}

/// Each kind of wrong arguments with inputs of each kind, each form of the lines, the longest
/// sheet, and more than it.
fn special(rng: &mut Rng) -> Vec<(Vec<Vec<u8>>, Vec<u8>)> {
    let right: [&[u8]; 5] = [b"judge", b"why|0417", b"why|417", b"why|A9", b"why|41"];
    let plans = [[1, 4, 7], [1, 4, 10], [1, 4, 11], [2, 5, 11], [9, 4, 1], [4, 4, 1], [1, 3, 9]];
    let plans = plans.map(with_starts);
    let (none, refused) = (NETWORK.to_string(), "paths 0\n".to_string());
    let inputs = [&plans[1], &plans[6], &none, &refused];
    let mut found = vec![(Vec::new(), plans[1].clone().into_bytes())];
    for (number, args) in WRONG.into_iter().enumerate() {
        found.push((many(args), inputs[number % inputs.len()].clone().into_bytes()));
    }
    for args in right {
        let sheets = plans.iter().chain([&none, &refused]);
        found.extend(sheets.map(|sheet| (many(args), sheet.clone().into_bytes())));
    }
    let c = gen::longest(rng);
    let longest = Draft::new(rng, &c, true).text();
    let longer = [longest.clone(), b"x".to_vec()].concat();
    for text in [longest, longer, vec![b'A'; 300_000]] {
        found.extend(
            [&b"judge"[..], b"why|000-LONG", b"why"].map(|args| (many(args), text.clone())),
        );
    }
    found
}

fn one(t: &mut Tally, program: &str, args: Vec<Vec<u8>>, text: Vec<u8>, step: usize) {
    t.cases += 1;
    let want = ask::program(&args, &text);
    let got = program::run(program, &args, &text, step);
    let how = format!("{}, {}", words(&args), program::pace(step));
    t.program(Call::Ask, &how, &Case { text, ..Case::default() }, &got, &want);
}

/// Arguments as they are shown.
fn words(args: &[Vec<u8>]) -> String {
    let shown: Vec<String> = args.iter().map(|arg| format!("\"{}\"", arg.escape_ascii())).collect();
    format!("[{}]", shown.join(", "))
}
