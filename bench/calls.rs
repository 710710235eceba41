//! Times the calls of one build of the library, as against.rs asks. It prints the names of what it
//! can time, one a line, then an empty line; each line `NAME TIMES` of standard input is then
//! answered by the seconds of so many calls.

#[allow(dead_code)]
mod library;
mod networks;
#[allow(dead_code)]
mod rules;
#[allow(dead_code)]
mod sheet;
#[allow(dead_code)]
mod turns;

use nesbrunka::{LIST_MOST, ORDER_MOST, PATHS, SHEET_MOST};
use networks::{blocks, longest, ordered, pairs, Network, Random, PERCENTS, SIZES};
use rules::Starts;
use std::hint::black_box;
use std::io::BufRead;
use std::rc::Rc;
use turns::{done, seconds};

/// A call with all that it is given.
struct Case {
    name: String,
    call: Box<dyn FnMut()>,
}

/// A call on a network and a valid plan of it.
type Work = fn(&Network, &Starts);

const ON_ANY: [(&str, Work); 8] = [
    ("judge", |net, plan| done(library::judge(net, plan))),
    ("pack", |net, _| done(library::pack(net, &net.orders[0], &mut [0; PATHS]))),
    ("press", |net, plan| done(library::press(net, &mut { *plan }))),
    ("why", |net, plan| done(library::why(net, plan, net.n - 1, &mut [0; PATHS]))),
    ("better", |net, _| done(library::better(net, &net.orders[0], &net.orders[1]))),
    ("improve, 1,000 rounds", |net, _| done(library::improve(net, &net.orders[0], 1000))),
    ("plan, 1,000 rounds", |net, _| done(library::plan(net, 1000))),
    ("floor", |net, _| done(library::floor(net, black_box(&[0])))),
];

const ON_LINES: [(&str, Work); 2] = [
    ("two_sides", |net, _| done(library::two_sides(net, &mut [0; PATHS]))),
    ("plan", |net, _| done(library::plan(net, 1000))),
];

fn main() {
    let mut cases = cases();
    cases.iter().for_each(|case| println!("{}", case.name));
    println!();
    for line in std::io::stdin().lock().lines() {
        let line = line.expect("a line");
        let (name, times) = line.rsplit_once(' ').expect("a name and a number");
        let case = cases.iter_mut().find(|case| case.name == name).expect("a case");
        let times: usize = times.parse().expect("a number");
        println!("{}", seconds(&mut || (0..times).for_each(|_| (case.call)())));
    }
}

fn cases() -> Vec<Case> {
    let random = &mut Random::new();
    let mut cases = Vec::new();
    for n in SIZES {
        for percent in PERCENTS {
            let net = Network::new(n, pairs(n, percent), random);
            cases.extend(on(net, &format!("{n} paths, {percent} %"), &ON_ANY));
        }
        cases.extend(on(Network::line(n, random), &format!("line of {n}"), &ON_LINES));
    }
    cases.push(floor_of_eight(random));
    cases.extend(sheets(random));
    for n in SIZES {
        cases.extend(order_sheets(n, random));
    }
    cases.push(centres(random));
    cases
}

/// The floor of the longest list, in a network in which all paths are in conflict.
fn floor_of_eight(random: &mut Random) -> Case {
    let net = Network::new(40, pairs(40, 100), random);
    let call = Box::new(move || {
        done(library::floor(black_box(&net), black_box(&net.orders[0][..LIST_MOST])))
    });
    Case { name: "floor, eight of 40 paths".to_string(), call }
}

fn on<'a>(
    net: Network, what: &'a str, calls: &'a [(&str, Work)],
) -> impl Iterator<Item = Case> + 'a {
    let mut plan = [0; PATHS];
    rules::look_back(&net, &net.orders[0], &mut plan);
    let net = Rc::new(net);
    calls.iter().map(move |&(name, work)| {
        let net = Rc::clone(&net);
        let call = Box::new(move || work(black_box(&net), black_box(&plan)));
        Case { name: format!("{name}, {what}"), call }
    })
}

/// Reading and writing the longest sheet.
fn sheets(random: &mut Random) -> [Case; 2] {
    let t = longest(random);
    let mut text = vec![0; SHEET_MOST];
    library::write(&t, &mut text);
    let sheet = text.clone();
    let read = Box::new(move || done(library::read(black_box(&sheet))));
    let write = Box::new(move || done(library::write(black_box(&t), &mut text)));
    [("read", read as Box<dyn FnMut()>), ("write", write)]
        .map(|(name, call)| Case { name: format!("{name}, the longest sheet"), call })
}

/// Reading and writing an order sheet.
fn order_sheets(n: usize, random: &mut Random) -> [Case; 2] {
    let t = Rc::new(ordered(n, random));
    let mut text = vec![0; ORDER_MOST];
    let length = library::order_write(-6, &t, &mut text);
    text.truncate(length);
    let (sheet, lent, mut starts) = (text.clone(), Rc::clone(&t), [0; PATHS]);
    let read = Box::new(move || {
        done(library::order_read(-6, black_box(&sheet), black_box(&lent), &mut starts))
    });
    let write = Box::new(move || done(library::order_write(-6, black_box(&t), &mut text)));
    [("order_read", read as Box<dyn FnMut()>), ("order_write", write)]
        .map(|(name, call)| Case { name: format!("{name}, {n} paths"), call })
}

/// The centres of some blocks, and their numbers.
fn centres(random: &mut Random) -> Case {
    let blocks = blocks(64, random);
    let call = Box::new(move || {
        for &(anchor, start, width) in black_box(&blocks) {
            done(nesbrunka::centre_number(anchor, start, width));
            done(nesbrunka::centre(anchor, start, width));
        }
    });
    Case { name: "centre and centre_number, 64 blocks".to_string(), call }
}
