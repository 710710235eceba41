//! The plan program, named by NESBRUNKA_PLAN: what it prints on valid and damaged sheets, whole
//! and in small pieces.

use crate::compare::{Call, Case, Tally};
use crate::damage::Draft;
use crate::gen::{self, Rng, SHAPES};
use crate::groups::sheets;
use crate::net::*;
use crate::sheet;
use std::ffi::OsStr;
use std::io::{Read, Write};
use std::net::Shutdown;
use std::os::fd::OwnedFd;
use std::os::unix::ffi::OsStrExt;
use std::os::unix::net::UnixStream;
use std::process::{Command, Stdio};
use std::thread;
use std::time::Duration;

pub const PIECES: usize = 60;
const EACH: usize = 10;

/// The program, if the variable names one.
pub fn named() -> Option<String> {
    std::env::var("NESBRUNKA_PLAN").ok().filter(|name| !name.is_empty())
}

pub fn piece(t: &mut Tally, rng: &mut Rng, number: usize) {
    let Some(program) = named().filter(|_| t.chooses(Call::Program)) else { return };
    if number == 0 {
        for text in special(rng) {
            one(t, &program, text, usize::MAX);
        }
    }
    for k in 0..EACH {
        let text = if k < 4 { valid(rng, k == 0) } else { sheets::damaged(rng, number * EACH + k) };
        let small = k % 3 == 0 && text.len() < 3_000;
        let step = if small { rng.range(1, 7) } else { rng.pick(&[usize::MAX, 1_000, 4_096]) };
        one(t, &program, text, step);
    }
}

fn valid(rng: &mut Rng, large: bool) -> Vec<u8> {
    loop {
        let n = if large { rng.range(10, PATHS) } else { rng.range(1, 12) };
        let shape = rng.pick(&SHAPES);
        let c = gen::case(rng, n, shape);
        if c.network().conflicts().len() <= MAX_PAIRS {
            let starts = rng.percent(50);
            return Draft::new(rng, &c, starts).text();
        }
    }
}

/// The worked example, the empty text, the longest sheet, and more than it.
fn special(rng: &mut Rng) -> Vec<Vec<u8>> {
    let worked = b"paths 3\n0417 2\n417 4\nA9 3\nguards 2\n0417 417 1\n417 A9 2\n".to_vec();
    let clash = b"paths 2\nA 2\nB 2\nguards 1\nB A 1\nstarts 2\nA 1\nB 1\n".to_vec();
    let c = gen::longest(rng);
    let longest = Draft::new(rng, &c, true).text();
    let plus = |more: &[u8]| [longest.clone(), more.to_vec()].concat();
    vec![
        worked,
        clash,
        Vec::new(),
        b"\n".to_vec(),
        b"paths 0\n".to_vec(),
        longest.clone(),
        plus(b"\n"),
        plus(b"x"),
        plus(&vec![b'9'; 100_000]),
        plus(&longest),
        vec![b'A'; 1_000_000],
        vec![b'\n'; 300_000],
        vec![0; 70_000],
        longest[..longest.len() - 1].to_vec(),
    ]
}

fn one(t: &mut Tally, program: &str, text: Vec<u8>, step: usize) {
    t.cases += 1;
    let want = sheet::program(&text);
    let got = run(program, &[], &text, step);
    t.program(Call::Program, &pace(step), &Case { text, ..Case::default() }, &got, &want);
}

/// How fast the input came, in words.
pub fn pace(step: usize) -> String {
    match step {
        usize::MAX => "at once".into(),
        _ => format!("{step} bytes at a time"),
    }
}

/// What a program prints, its input delivered in steps. RULES 19 names no exit status; an
/// end by a signal is shown as such.
pub fn run(program: &str, args: &[Vec<u8>], text: &[u8], step: usize) -> Vec<u8> {
    let args = args.iter().map(|arg| OsStr::from_bytes(arg));
    let mut command = Command::new(program);
    let started = command.args(args).stdin(Stdio::piped()).stdout(Stdio::piped()).spawn();
    let mut child = match started {
        Ok(child) => child,
        Err(e) => return format!("(not started: {e})").into_bytes(),
    };
    let mut input = child.stdin.take().expect("its input is a pipe");
    let mut output = child.stdout.take().expect("its output is a pipe");
    let mut printed = Vec::new();
    thread::scope(|scope| {
        scope.spawn(move || {
            for (number, part) in text.chunks(step.min(text.len().max(1))).enumerate() {
                // A program that has refused may have closed its input.
                if input.write_all(part).is_err() {
                    break;
                }
                // Time for the program to take the first pieces one by one.
                if number < 3 && step < 100 {
                    thread::sleep(Duration::from_millis(2));
                }
            }
        });
        let _ = output.read_to_end(&mut printed);
    });
    match child.wait() {
        Ok(status) if status.code().is_some() => printed,
        other => format!("(ended: {other:?}) {}", printed.escape_ascii()).into_bytes(),
    }
}

/// What a program prints, and after it what it has left of its input, which is short.
pub fn run_and_left(program: &str, args: &[Vec<u8>], text: &[u8]) -> Vec<u8> {
    let run = || {
        let (mut ours, mut theirs) = UnixStream::pair()?;
        ours.write_all(text)?;
        ours.shutdown(Shutdown::Write)?;
        let args = args.iter().map(|arg| OsStr::from_bytes(arg));
        let mut command = Command::new(program);
        let input = Stdio::from(OwnedFd::from(theirs.try_clone()?));
        let mut printed = command.args(args).stdin(input).output()?.stdout;
        theirs.read_to_end(&mut printed)?;
        Ok(printed)
    };
    run().unwrap_or_else(|e: std::io::Error| format!("(not run: {e})").into_bytes())
}
