//! The speed table: the library against plain Rust of the same rules, for the centre against plain
//! C, from one run. Only ratios are printed, as times differ from machine to machine.

// Some calls are measured by calls.rs alone.
#[allow(dead_code)]
mod library;
mod networks;
mod order;
mod rules;
mod sheet;
mod turns;

use nesbrunka::{CELLS, NO_CONFLICT, ORDER_MOST, PAIRS_MOST, PATHS, SHEET_MOST};
use networks::{blocks, longest, ordered, pairs, Block, Network, Random, PERCENTS, SIZES};
use rules::{all_orders, by_sets, look_back, push, Order, Packer, Starts, Walker};
use std::hint::black_box;
use std::time::Instant;
use turns::{done, median, ratios};

extern "C" {
    /// The library's packing with no tests; for this table alone.
    fn bench_pack_into(
        n: usize, widths: *const u16, widths_length: usize, guards: *const u8,
        guards_length: usize, order: *const u8, order_length: usize, starts: *mut u16,
        starts_length: usize,
    ) -> usize;

    // centre.c
    fn plain_centre(anchor: i32, start: usize, width: usize) -> f64;
    fn plain_centre_number(anchor: i32, start: usize, width: usize) -> usize;
}

fn engine(net: &Network, order: &Order, starts: &mut Starts) -> usize {
    let (w, g, o) = (net.widths.as_ptr(), net.guards.as_ptr(), order.as_ptr());
    // SAFETY: each pointer and length are those of one table; the one written is borrowed alone.
    unsafe { bench_pack_into(net.n, w, PATHS, g, CELLS, o, PATHS, starts.as_mut_ptr(), PATHS) }
}

/// What is measured of a call at one size and share of pairs, in the order of the rows.
const ROWS: [&str; 8] = [
    "judge, a valid plan / plain scans of the same tests",
    "pack / looking back, no tests",
    "pack without its tests / the same loop in Rust",
    "press / a sort and looking back, no tests",
    "why, the longest chain / plain scans, with the same tests",
    "why, the longest chain / the library's judge of the same plan",
    "improve, 10,000 rounds / looking back, no tests",
    "improve, 10,000 rounds / the same loop in Rust, no tests",
];

fn measured(n: usize, percent: usize, random: &mut Random) -> [f64; 8] {
    let net = Network::new(n, pairs(n, percent), random);
    // Each work takes so long that a clock can tell: 64 plans or orders, so often.
    let times = 1 + 4096 / (n * n);
    let [pack, alone] = packing(&net, times);
    let [looking_back, same_loop] = improving(&net);
    let (judge, press) = (judging(&net, times), pressing(&net, times));
    let [plain_why, judged] = explaining(&net, times);
    [judge, pack, alone, press, plain_why, judged, looking_back, same_loop]
}

/// A valid plan for each order: its packing.
fn plans(net: &Network) -> Vec<Starts> {
    let plan = |order| {
        let mut starts = [0; PATHS];
        look_back(net, order, &mut starts);
        starts
    };
    net.orders.iter().map(plan).collect()
}

fn judging(net: &Network, times: usize) -> f64 {
    let plans = plans(net);
    for plan in &plans {
        let mut close = *plan;
        close[0] = close[net.n - 1];
        assert!(library::judge(net, plan) == (0, 0, 0) && rules::judge(net, plan) == (0, 0, 0));
        assert!(library::judge(net, &close) == rules::judge(net, &close), "the judgements differ");
    }
    let all = |judge: fn(&Network, &Starts) -> rules::Judgement| {
        for plan in (0..times).flat_map(|_| &plans) {
            black_box(judge(black_box(net), black_box(plan)));
        }
    };
    ratios(101, [&mut || all(library::judge), &mut || all(rules::judge)])[1]
}

fn packing(net: &Network, times: usize) -> [f64; 2] {
    for (order, plan) in net.orders.iter().zip(plans(net)) {
        for pack in [library::pack, engine, push] {
            let mut starts = [0; PATHS];
            assert!(pack(net, order, &mut starts) == look_back(net, order, &mut { plan }));
            assert!(starts == plan, "the packings differ");
        }
    }
    let all = |pack: Packer| {
        let mut starts = [0; PATHS];
        for order in (0..times).flat_map(|_| &net.orders) {
            black_box(pack(black_box(net), black_box(order), black_box(&mut starts)));
        }
    };
    let called = ratios(101, [&mut || all(library::pack), &mut || all(look_back)]);
    let alone = ratios(101, [&mut || all(engine), &mut || all(push)]);
    [called[1], alone[1]]
}

fn pressing(net: &Network, times: usize) -> f64 {
    let plans = plans(net);
    for plan in &plans {
        let (mut one, mut two) = (*plan, *plan);
        assert!(library::press(net, &mut one) == rules::press(net, &mut two) && one == two);
    }
    let all = |press: fn(&Network, &mut Starts) -> usize| {
        for plan in (0..times).flat_map(|_| &plans) {
            black_box(press(black_box(net), black_box(&mut { *plan })));
        }
    };
    ratios(101, [&mut || all(library::press), &mut || all(rules::press)])[1]
}

/// Of each plan the path of the longest chain.
fn explaining(net: &Network, times: usize) -> [f64; 2] {
    let longest = |plan: Starts| {
        let length = |&path: &usize| rules::why(net, &plan, path, &mut [0; PATHS]).0;
        (plan, (0..net.n).max_by_key(length).expect("a path"))
    };
    let asked: Vec<(Starts, usize)> = plans(net).into_iter().map(longest).collect();
    for (plan, path) in &asked {
        let (mut one, mut two) = ([0; PATHS], [0; PATHS]);
        let found = library::why(net, plan, *path, &mut one);
        assert!(found == rules::why(net, plan, *path, &mut two) && one == two, "the chains differ");
    }
    let each = || (0..times).flat_map(|_| &asked);
    let all = |why: fn(&Network, &Starts, usize, &mut Order) -> rules::Chained| {
        let mut chain = [0; PATHS];
        for (plan, path) in each() {
            black_box(why(black_box(net), black_box(plan), *path, black_box(&mut chain)));
        }
    };
    let plain = ratios(101, [&mut || all(library::why), &mut || all(rules::why)])[1];
    let judge = || {
        for (plan, _) in each() {
            black_box(library::judge(black_box(net), black_box(plan)));
        }
    };
    [plain, ratios(101, [&mut || all(library::why), &mut || judge()])[1]]
}

fn improving(net: &Network) -> [f64; 2] {
    let order = &net.orders[0];
    let expected = rules::improve(look_back, net, order, 10000);
    assert!(library::improve(net, order, 10000) == expected, "the rounds differ");
    assert!(rules::improve(push, net, order, 10000) == expected, "the rounds differ");
    let called = &mut || done(library::improve(net, order, 10000));
    let plain = &mut || done(rules::improve(look_back, net, order, 10000));
    let same = &mut || done(rules::improve(push, net, order, 10000));
    let found = ratios(15, [called, plain, same]);
    [found[1], found[2]]
}

/// Of a line of 128 paths the whole planning, by 1,000 rounds of improving at 128 and 50 %.
fn planning(random: &mut Random) -> f64 {
    let (two, dense) = (Network::line(128, random), Network::new(128, pairs(128, 50), random));
    let plan = &mut || done(library::plan(&two, 1000));
    let rounds = &mut || done(library::improve(&dense, &dense.orders[0], 1000));
    ratios(101, [plan, rounds])[1]
}

/// A list of so many paths of a network in which all are in conflict, with any guards or equal ones:
/// the floor by all orders of the list, and by the same sets in Rust.
fn flooring(n: usize, k: usize, equal: bool, random: &mut Random) -> [f64; 2] {
    let mut net = Network::new(n, pairs(n, 100), random);
    if equal {
        net.guards.iter_mut().filter(|guard| **guard != NO_CONFLICT).for_each(|guard| *guard = 7);
    }
    let lists: Vec<&[u8]> = net.orders.iter().map(|order| &order[..k]).collect();
    for list in &lists {
        let found = [all_orders, by_sets].map(|search| rules::floor(search, &net, list));
        assert!(found == [library::floor(&net, list); 2], "the floors differ");
    }
    let all = |floor: &dyn Fn(&[u8]) -> usize, times: usize| {
        for list in (0..times).flat_map(|_| &lists) {
            black_box(floor(black_box(list)));
        }
    };
    // Eight paths have 40,320 orders.
    let times = [1000, 1000, 300, 100, 30, 10, 1, 1][k - 1] / (1 + n / 40) + 1;
    let called = |list: &[u8]| library::floor(black_box(&net), list);
    let found = [all_orders as Walker, by_sets].map(|search| {
        let plain = |list: &[u8]| rules::floor(search, black_box(&net), list);
        ratios(31, [&mut || all(&called, times), &mut || all(&plain, times)])[1]
    });
    found
}

/// The lists whose floors are measured.
const LISTS: [(&str, usize, bool); 6] = [
    ("one path", 1, false),
    ("two paths", 2, false),
    ("four paths, any guards", 4, false),
    ("five paths, any guards", 5, false),
    ("eight paths, any guards", 8, false),
    ("eight paths, equal guards", 8, true),
];

/// Prints the table of floors; the most that eight paths take of all orders.
fn floors(random: &mut Random) -> f64 {
    println!("| floor, with its tests / all orders, the same sets in Rust | n = 8 | n = 128 |");
    println!("|---|---|---|");
    let mut most: f64 = 0.0;
    for (title, k, equal) in LISTS {
        let found = [8, 128].map(|n| flooring(n, k, equal, random));
        let cell = |ratios: [f64; 2]| ratios.map(|ratio| format!("{ratio:.3}")).join(", ");
        println!("| {title} | {} |", found.map(cell).join(" | "));
        if k == 8 {
            most = found.iter().map(|ratios| ratios[0]).fold(most, f64::max);
        }
    }
    println!();
    most
}

/// The longest sheet: reading and writing it.
fn sheets(random: &mut Random) -> [f64; 2] {
    let t = longest(random);
    let (mut plain, mut text) = (Vec::with_capacity(SHEET_MOST), vec![0; SHEET_MOST]);
    assert!(sheet::write(&t, &mut plain) == Ok(SHEET_MOST), "not the longest sheet");
    assert!(library::write(&t, &mut text) == SHEET_MOST && text == plain, "the sheets differ");
    let (a, b) = (library::read(&text), sheet::read(&text).ok().expect("the sheet is right"));
    assert!(a == b && a == t, "the tables differ");
    let read = &mut || done(library::read(black_box(&plain)));
    let plain_read = &mut || done(sheet::read(black_box(&plain)));
    let reading = ratios(101, [read, plain_read])[1];
    let write = &mut || done(library::write(black_box(&t), &mut text));
    let plain_write = &mut || done(sheet::write(black_box(&t), &mut plain));
    [reading, ratios(101, [write, plain_write])[1]]
}

/// The order sheets of so many paths from some anchors: writing and reading them.
fn ordering(n: usize, random: &mut Random) -> [f64; 2] {
    const ANCHORS: [i32; 4] = [-1024, -6, 0, 1024];
    let t = ordered(n, random);
    let (mut plain, mut text) = (Vec::with_capacity(ORDER_MOST), vec![0; ORDER_MOST]);
    let sheets = ANCHORS.map(|anchor| {
        let (mut one, mut two) = ([0; PATHS], [0; PATHS]);
        let length = library::order_write(anchor, &t, &mut text);
        assert!(order::write(anchor, &t, &mut plain) == Ok(length) && text[..length] == plain);
        library::order_read(anchor, &plain, &t, &mut one);
        assert!(order::read(anchor, &plain, &t, &mut two) == Ok(()) && one == two);
        assert!(one == t.starts, "the starts differ");
        (anchor, plain.clone())
    });
    // Each work takes so long that a clock can tell.
    let each = || (0..1 + 512 / n).flat_map(|_| &sheets);
    let write = &mut || {
        for (anchor, _) in each() {
            done(library::order_write(*anchor, black_box(&t), black_box(&mut text)));
        }
    };
    let plain_write = &mut || {
        for (anchor, _) in each() {
            done(order::write(*anchor, black_box(&t), black_box(&mut plain)));
        }
    };
    let writing = ratios(101, [write, plain_write])[1];
    let (mut one, mut two) = ([0; PATHS], [0; PATHS]);
    let read = &mut || {
        for (anchor, sheet) in each() {
            done(library::order_read(*anchor, black_box(sheet), black_box(&t), &mut one));
        }
    };
    let plain_read = &mut || {
        for (anchor, sheet) in each() {
            done(order::read(*anchor, black_box(sheet), black_box(&t), black_box(&mut two)));
        }
    };
    [writing, ratios(101, [read, plain_read])[1]]
}

/// A call for each block, many times. Nothing but a sum is kept of the answers, so that the calls
/// alone are measured.
fn asked(blocks: &[Block], call: impl Fn(Block) -> u64) {
    for _ in 0..16 {
        done(black_box(blocks).iter().fold(0, |sum: u64, &block| sum.wrapping_add(call(block))));
    }
}

/// The centres of blocks and their numbers, by plain C.
fn centring(random: &mut Random) -> [f64; 2] {
    let centre = |(anchor, start, width): Block| nesbrunka::centre(anchor, start, width).to_bits();
    let number = |(anchor, start, width)| nesbrunka::centre_number(anchor, start, width) as u64;
    // SAFETY: no table is lent.
    let plain = |(anchor, start, width)| unsafe { plain_centre(anchor, start, width) }.to_bits();
    let plain_number =
        |(anchor, start, width)| unsafe { plain_centre_number(anchor, start, width) } as u64;
    let blocks = blocks(1024, random);
    for block in blocks.iter().copied().chain(REFUSED) {
        assert!(centre(block) == plain(block) && number(block) == plain_number(block));
    }
    let called = &mut || asked(&blocks, centre);
    let found = ratios(101, [called, &mut || asked(&blocks, plain)])[1];
    let called = &mut || asked(&blocks, number);
    [found, ratios(101, [called, &mut || asked(&blocks, plain_number)])[1]]
}

/// Blocks that are refused.
const REFUSED: [Block; 6] =
    [(-1025, 1, 1), (1025, 0, 0), (0, 0, 0), (0, 1, 65), (0, 0, 64), (0, 16385, 1)];

/// Prints the table of order sheets and the centre; the most that each of them takes of plain code.
fn orders(random: &mut Random) -> [f64; 2] {
    println!("| order sheet, with its tests / plain Rust | n = 7 | n = 40 | n = 128 |");
    println!("|---|---|---|---|");
    let found = SIZES.map(|n| ordering(n, random));
    for (row, title) in ["writing", "reading"].iter().enumerate() {
        println!("| {title} | {} |", found.map(|m| format!("{:.2}", m[row])).join(" | "));
    }
    let [centre, number] = centring(random);
    println!("\nThe centre of a block: {centre:.2}, its number: {number:.2} of plain C.\n");
    [found.iter().flatten().copied().fold(0.0, f64::max), centre.max(number)]
}

/// A dense sheet has all pairs, up to the most that a sheet holds; a sparse one a fifth of them.
fn dense(n: usize) -> usize {
    pairs(n, 100).min(PAIRS_MOST)
}

/// The plan program by a plain one, whole process, on a sheet of so many pairs.
fn program(n: usize, pairs: usize, random: &mut Random) -> f64 {
    let mut text = Vec::new();
    let t = Network::new(n, pairs, random).tables();
    sheet::write(&t, &mut text).expect("the tables are right");
    std::fs::write("target/bench/input.sheet", &text).expect("target/bench");
    let turn = |_| {
        let (a, ours) = run("target/bin/plan");
        let (b, plain) = run("target/bench/plain");
        assert!(a == b && a.starts_with(b"paths "), "the programs differ");
        ours / plain
    };
    median((0..51).map(turn).collect())
}

/// One run of a program: what it printed, and its seconds, process and all.
fn run(program: &str) -> (Vec<u8>, f64) {
    let sheet = std::fs::File::open("target/bench/input.sheet").expect("the sheet");
    let began = Instant::now();
    let out = std::process::Command::new(program).stdin(sheet).output().expect("the program");
    (out.stdout, began.elapsed().as_secs_f64())
}

/// A goal that was set for a figure.
fn goal(what: &str, most: f64, found: f64) {
    let word = if found <= most { "met" } else { "MISSED" };
    println!("{what}: {found:.2}, goal at most {most:.2}, {word}");
}

fn main() {
    let random = &mut Random::new();
    println!(
        "Below 1 the library is faster. In each cell: 5, 50 and 100 % of the pairs in conflict.\n"
    );
    println!("| call, with its tests / plain Rust | n = 7 | n = 40 | n = 128 |\n|---|---|---|---|");
    let found = SIZES.map(|n| PERCENTS.map(|percent| measured(n, percent, random)));
    for (row, title) in ROWS.iter().enumerate() {
        let cell = |at: &[[f64; 8]; 3]| at.map(|m| format!("{:.2}", m[row])).join(", ");
        println!("| {title} | {} |", found.each_ref().map(cell).join(" | "));
    }
    let count = |part: usize| SIZES.map(|n| (dense(n) / part).to_string()).join(", ");
    let mut programs = |part: usize| SIZES.map(|n| program(n, dense(n) / part, random));
    let (dense_found, sparse_found) = (programs(1), programs(5));
    for (name, part, found) in [("sparse", 5, sparse_found), ("dense", 1, dense_found)] {
        let cells = found.map(|ratio| format!("{ratio:.2}")).join(" | ");
        println!(
            "| the plan program, whole process, {name} sheet ({} pairs) | {cells} |",
            count(part)
        );
    }
    let [reading, writing] = sheets(random);
    println!("\nThe longest sheet: reading {reading:.2}, writing {writing:.2} of plain Rust.\n");
    let floor = floors(random);
    let [order, centre] = orders(random);
    let half = found[2][1];
    goal("pack, 128 paths, 50 %", 0.25, half[1]);
    goal("pack without its tests, 128 paths, 50 %", 1.2, half[2]);
    let worst = found.iter().flatten().map(|m| m[5]).fold(0.0, f64::max);
    goal("why by judging the same plan, the worst of all", 1.3, worst);
    goal("improve by looking back, 128 paths, 50 %", 0.1, half[6]);
    goal("improve by the same loop, 128 paths, 50 %", 1.2, half[7]);
    goal("the floor of eight paths by all orders, the worst of all", 0.2, floor);
    goal("the plan program, dense sheet of 128 paths", 0.25, dense_found[2]);
    goal("reading and writing the longest sheet", 1.5, reading.max(writing));
    goal("reading and writing an order sheet, the worst of all", 1.5, order);
    goal("the centre and its number by plain C, the worse of both", 2.0, centre);
    goal("planning a line of 128 paths / 1,000 rounds at 50 %", 0.05, planning(random));
}
