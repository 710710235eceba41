//! Reads a sheet from standard input, plans it with seed 1 and 1,000 rounds, judges the plan and
//! prints the sheet with its starts. Refused, it prints the number and the line, as the plan
//! program does. The exit status is 0 for a plan, 1 for a refusal, 2 where something else went
//! wrong: what was printed is then not to be used.
//!
//! A plan that the sheet came with is replaced; what judging it answers is said on standard error.
//!
//! Standard input and output that are closed from the start are not seen: before `main` Rust's
//! runtime opens the null device in their place.

use nesbrunka::{judge, plan, read, write, Judged};
use nesbrunka::{CELLS, DONE, LABEL, LABELS, PATHS, REFUSED_CLASH, SHEET_MOST};
use std::error::Error;
use std::io::{self, Read, Write};
use std::process::ExitCode;

/// What is printed: the sheet with its plan, or a line that says why not.
enum Answer {
    Planned(Vec<u8>),
    Refused(String),
}

fn main() -> ExitCode {
    match run() {
        Ok(status) => ExitCode::from(status),
        Err(trouble) => {
            say(&format!("plan: {trouble}"));
            ExitCode::from(2)
        }
    }
}

fn run() -> Result<u8, Box<dyn Error>> {
    // One byte more than the longest sheet: a longer text is refused by these bytes alone.
    let mut text = Vec::new();
    io::stdin().take(SHEET_MOST as u64 + 1).read_to_end(&mut text)?;
    let (status, printed) = match answer(&text)? {
        Answer::Planned(sheet) => (0, sheet),
        Answer::Refused(line) => (1, line.into_bytes()),
    };
    let mut output = io::stdout();
    output.write_all(&printed)?;
    output.flush()?;
    Ok(status)
}

fn answer(text: &[u8]) -> Result<Answer, String> {
    let (mut labels, mut guards) = ([0; LABELS], [0; CELLS]);
    let (mut widths, mut starts, mut order) = ([0; PATHS], [0; PATHS], [0; PATHS]);
    let sheet = read(text, &mut labels, &mut widths, &mut guards, &mut starts);
    if sheet.number != DONE {
        return Ok(Answer::Refused(format!("refused {} line {}\n", sheet.number, sheet.place)));
    }
    let n = sheet.n;
    let judge = |starts: &[u16]| judge(n, &widths, &guards, starts);
    // A sheet has all its starts or none.
    if starts[0] != 0 {
        say(&said(judge(&starts), &labels)?);
    }
    let planned = plan(n, &widths, &guards, &mut order, &mut starts, 1, 1000);
    expect("plan", planned.number, planned.place)?;
    let judged = judge(&starts);
    expect("judge", judged.number, judged.place)?;
    let mut room = vec![0; SHEET_MOST];
    let written = write(n, &labels, &widths, &guards, &starts, &mut room);
    expect("write", written.number, written.place)?;
    room.truncate(written.length);
    say(&format!("{n} paths, highest slot {}, {} swaps kept", planned.highest, planned.kept));
    Ok(Answer::Planned(room))
}

/// On standard error, as far as that takes it: what is said there changes no answer.
fn say(words: &str) {
    let _ = writeln!(io::stderr(), "{words}");
}

/// What is said of the sheet's own plan, which is valid or has a clash.
fn said(judged: Judged, labels: &[u8]) -> Result<String, String> {
    if judged.number != REFUSED_CLASH {
        expect("judge", judged.number, judged.place)?;
        return Ok("the sheet's plan is valid".to_string());
    }
    let (a, b) = (label(labels, judged.place / PATHS), label(labels, judged.place % PATHS));
    let slots = if judged.short == 1 { "slot" } else { "slots" };
    Ok(format!("the sheet's plan: {a} and {b} are {} {slots} short", judged.short))
}

/// A path's label, without the zero bytes that fill it.
fn label(labels: &[u8], path: usize) -> String {
    let filled = String::from_utf8_lossy(&labels[LABEL * path..][..LABEL]);
    filled.trim_end_matches('\0').to_string()
}

/// A sheet that was read is planned, valid and written: a refusal there is no answer.
fn expect(call: &str, number: usize, place: usize) -> Result<(), String> {
    match number {
        DONE => Ok(()),
        _ => Err(format!("{call}: refused {number} at {place}")),
    }
}
