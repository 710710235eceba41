//! The independent second program: the rules written again, in plain Rust, and compared with
//! the library through its C face.
//!
//! `net`, `rules`, `calls`, `sheet`, `order` and `ask` are the rules; `brute` looks for its
//! promises in all orders, plans and sides; `gen` and `damage` make cases; `ffi` and `compare` make
//! one comparison; `groups` are the groups of comparisons.

mod ask;
mod brute;
mod calls;
mod compare;
mod damage;
mod ffi;
#[cfg(test)]
mod figures;
mod gen;
mod groups;
mod net;
mod order;
#[cfg(test)]
mod order_figures;
mod rules;
mod sheet;

use compare::{Call, Chosen, Tally, CALLS};
use gen::Rng;
use groups::{program, Group, GROUPS};
use std::io::{Read, Write};
use std::process::ExitCode;
use std::sync::atomic::{AtomicUsize, Ordering};
use std::sync::Mutex;
use std::thread;
use std::time::{Duration, Instant};

const USAGE: &str = "\
second [--seed S] [--minutes M] [--only CALL,..] [--groups GROUP,..] [--threads T] [--trace]
  --seed S      the seed of the random cases (default 1)
  --minutes M   goes on with new seeds until so many minutes have passed
  --only        calls to compare: judge pack press two_sides plan improve better floor why read
                write program ask centre order_write order_read (default: all)
  --groups      groups to run: exhaustive sizes small large rounds faults sheets program clashes
                chains ask floors centres orders
  --threads T   threads (default: as many as there are processors)
  --trace       names each call and its case before it is made (for a library that crashes)
second --print [WORD ..]  prints what the plan program has to print for standard input, or with
                words the program ask that is given them; calls no library
NESBRUNKA_LIB (when built, an absolute path) is the folder of libnesbrunka.a, NESBRUNKA_PLAN the
plan program, NESBRUNKA_ASK the program ask.";

struct Options {
    seed: u64,
    minutes: f64,
    chosen: Chosen,
    groups: Vec<&'static Group>,
    threads: usize,
}

fn main() -> ExitCode {
    let mut args = std::env::args().skip(1).peekable();
    if args.next_if(|arg| arg == "--print").is_some() {
        return print(&args.map(String::into_bytes).collect::<Vec<_>>());
    }
    match options(args) {
        Err(message) => {
            eprintln!("{message}");
            ExitCode::from(2)
        }
        Ok(options) => run(&options),
    }
}

/// One run of the plan program, or with words of the program ask, by this program's own rules: the
/// examples' answers come from here.
fn print(words: &[Vec<u8>]) -> ExitCode {
    let mut text = Vec::new();
    let read = std::io::stdin().read_to_end(&mut text);
    let said = if words.is_empty() { sheet::program(&text) } else { ask::program(words, &text) };
    let done = read.and_then(|_| std::io::stdout().write_all(&said));
    ExitCode::from(u8::from(done.is_err()))
}

fn options(mut args: impl Iterator<Item = String>) -> Result<Options, String> {
    let calls = CALLS.iter().map(|call| call.0).collect();
    let mut o = Options {
        seed: 1,
        minutes: 0.0,
        chosen: Chosen { calls, trace: false },
        groups: GROUPS.iter().collect(),
        threads: thread::available_parallelism().map_or(1, |p| p.get()),
    };
    while let Some(arg) = args.next() {
        let mut value = || args.next().ok_or(format!("{arg} needs a value\n{USAGE}"));
        match arg.as_str() {
            "--seed" => o.seed = number(&value()?)?,
            "--minutes" => o.minutes = number(&value()?)?,
            "--threads" => o.threads = number::<usize>(&value()?)?.max(1),
            "--trace" => o.chosen.trace = true,
            "--only" => o.chosen.calls = value()?.split(',').map(call).collect::<Result<_, _>>()?,
            "--groups" => o.groups = value()?.split(',').map(group).collect::<Result<_, _>>()?,
            _ => return Err(USAGE.into()),
        }
    }
    Ok(o)
}

fn number<T: std::str::FromStr>(text: &str) -> Result<T, String> {
    text.parse().map_err(|_| format!("not a number: {text}"))
}

fn call(name: &str) -> Result<Call, String> {
    let found = CALLS.iter().find(|call| call.1 == name);
    found.map(|call| call.0).ok_or(format!("no such call: {name}"))
}

fn group(name: &str) -> Result<&'static Group, String> {
    GROUPS.iter().find(|group| group.name == name).ok_or(format!("no such group: {name}"))
}

fn run(o: &Options) -> ExitCode {
    if program::named().is_none() && o.chosen.calls.contains(&Call::Program) {
        println!("NESBRUNKA_PLAN is not set: the plan program is skipped");
    }
    if groups::ask::named().is_none() && o.chosen.calls.contains(&Call::Ask) {
        println!("NESBRUNKA_ASK is not set: the program ask is skipped");
    }
    let begin = Instant::now();
    let mut total = Tally::new(&o.chosen, String::new());
    let mut seed = o.seed;
    loop {
        for group in &o.groups {
            if seed == o.seed || group.random {
                run_group(o, group, seed, &mut total);
            }
        }
        seed = seed.wrapping_add(1);
        if begin.elapsed() >= Duration::from_secs_f64(60.0 * o.minutes) || total.different > 0 {
            break;
        }
    }
    report(&total, begin.elapsed());
    ExitCode::from(u8::from(total.different > 0))
}

/// Runs the pieces of a group on the threads, prints its line and adds it to the total.
fn run_group<'a>(o: &'a Options, group: &Group, seed: u64, total: &mut Tally<'a>) {
    let begin = Instant::now();
    let next = AtomicUsize::new(0);
    let found = Mutex::new(Vec::new());
    let index = GROUPS.iter().position(|g| g.name == group.name).unwrap_or(0) as u64;
    let worker = || loop {
        let piece = next.fetch_add(1, Ordering::Relaxed);
        if piece >= group.pieces {
            break;
        }
        let mut tally =
            Tally::new(&o.chosen, format!("group {}, seed {seed}, piece {piece}", group.name));
        (group.piece)(&mut tally, &mut Rng::new(seed, index, piece as u64), piece);
        if tally.different > 0 {
            // What is under way is finished; no new piece is begun.
            next.fetch_add(group.pieces, Ordering::Relaxed);
        }
        found.lock().expect("no worker panics").push((piece, tally));
    };
    thread::scope(|scope| {
        for _ in 0..o.threads {
            let named = thread::Builder::new().stack_size(8 << 20);
            named.spawn_scoped(scope, worker).expect("a thread can be started");
        }
    });
    let mut pieces = found.into_inner().expect("no worker panics");
    pieces.sort_by_key(|(piece, _)| *piece);
    let mut sum = Tally::new(&o.chosen, String::new());
    pieces.into_iter().for_each(|(_, tally)| sum.add(tally));
    println!(
        "{} (seed {seed}): {} {}, {} calls, {} brute-force checks, {} different, {:.1} s",
        group.name,
        sum.cases,
        group.counts,
        sum.calls.iter().sum::<u64>(),
        sum.checks,
        sum.different,
        begin.elapsed().as_secs_f64()
    );
    total.add(sum);
}

fn report(total: &Tally, time: Duration) {
    for shown in &total.shown {
        println!("DIFFERENT {shown}");
    }
    for (call, name) in CALLS {
        let count = total.calls[call as usize];
        let seen = total.numbers[call as usize].iter().enumerate().filter(|(_, times)| **times > 0);
        let seen: Vec<String> = seen.map(|(number, times)| format!("{number} x {times}")).collect();
        if count > 0 {
            println!("{name}: {count} compared; answers {}", seen.join(", "));
        }
    }
    println!("brute-force checks: {}", total.checks);
    println!("{:.0} s", time.as_secs_f64());
    println!("{} compared, {} different", total.compared(), total.different);
}
