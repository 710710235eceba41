//! Sheets: valid ones read, written, read and written again; damaged ones of every kind; and
//! tables written into texts too short, exactly right and longer.

use crate::compare::{self, Case, Tally};
use crate::damage::{self, Draft, DAMAGES, LINE_KINDS};
use crate::gen::{self, Rng, Shape, SHAPES};
use crate::net::*;

pub const PIECES: usize = 500;
const VALID: usize = 8;
const DAMAGED: usize = 100;

pub fn piece(t: &mut Tally, rng: &mut Rng, number: usize) {
    for k in 0..VALID {
        let c = sheet_case(rng, k == 0);
        let starts = rng.percent(60);
        let text = Draft::new(rng, &c, starts).text();
        t.cases += 1;
        round_trip(t, rng, &c, text);
        writing(t, rng, &c);
    }
    for k in 0..DAMAGED {
        let text = damaged(rng, number * DAMAGED + k);
        t.cases += 1;
        reading(t, rng, text);
    }
    match number {
        0 => longest(t, rng),
        1..=12 => every_byte(t, rng, number - 1),
        13..=20 => pair_counts(t, rng),
        _ => {}
    }
}

/// A network for a sheet: small as a rule; the writer's limit of 2,000 pairs is kept.
fn sheet_case(rng: &mut Rng, large: bool) -> Case {
    loop {
        let n = if large { rng.range(1, PATHS) } else { rng.range(1, 9) };
        let shape = rng.pick(&SHAPES);
        let mut c = gen::case(rng, n, shape);
        if c.network().conflicts().len() <= MAX_PAIRS {
            starts_at_edges(rng, &mut c);
            return c;
        }
    }
}

/// Now and then a start that is the last of its number of digits or the first of the next. A
/// sheet's plan need not be valid, so any start will do.
fn starts_at_edges(rng: &mut Rng, c: &mut Case) {
    const EDGES: [u16; 9] = [9, 10, 99, 100, 999, 1_000, 9_999, 10_000, MAX_START as u16];
    for i in 0..c.n {
        if rng.percent(20) {
            c.starts[i] = rng.pick(&EDGES);
        }
    }
}

/// Tables full of junk, for the reader to clear.
fn junk_tables(rng: &mut Rng, text: Vec<u8>) -> Case {
    Case {
        widths: vec![rng.bits() as u16; PATHS],
        guards: vec![rng.bits() as u8; CELLS],
        starts: vec![rng.bits() as u16; PATHS],
        labels: vec![rng.bits() as u8; LABELS],
        text,
        ..Case::default()
    }
}

fn reading(t: &mut Tally, rng: &mut Rng, text: Vec<u8>) {
    let case = junk_tables(rng, text);
    if let Some((answer, back)) = compare::read(t, &case) {
        if answer.number == 0 {
            compare::write(t, &Case { text: vec![b'.'; case.text.len() + 3], ..back });
        }
    }
}

/// RULES 15: a sheet that is read and written settles.
fn round_trip(t: &mut Tally, rng: &mut Rng, c: &Case, text: Vec<u8>) {
    let case = junk_tables(rng, text);
    let Some((answer, back)) = compare::read(t, &case) else { return };
    t.check("a valid sheet is read", &case, answer.number == 0 && answer.more[0] == c.n);
    let room = vec![b'%'; case.text.len() + rng.below(9)];
    let Some((one, first)) = compare::write(t, &Case { text: room.clone(), ..back }) else {
        return;
    };
    t.check("a sheet is as long as it was", &case, one.more[0] == case.text.len());
    let again = Case { text: first[..one.more[0].min(first.len())].to_vec(), ..case.clone() };
    let Some((_, back)) = compare::read(t, &again) else { return };
    let Some((_, second)) = compare::write(t, &Case { text: room, ..back }) else { return };
    t.check("the same bytes the second time", &case, first == second);
}

/// A text that is empty, one byte too short, exactly right, longer; starts right, none, and
/// some of them wrong.
fn writing(t: &mut Tally, rng: &mut Rng, c: &Case) {
    let mut c = c.clone();
    if rng.percent(30) {
        c.starts[..c.n].fill(0);
    }
    c.text = vec![b'*'; LONGEST_SHEET];
    let Some((answer, _)) = compare::write(t, &c) else { return };
    let length = answer.more[0];
    for room in [0, length.saturating_sub(1), length, length + 1, length + 300] {
        c.text = vec![b'*'; room];
        compare::write(t, &c);
    }
    let path = rng.below(c.n);
    c.starts[path] = rng.pick(&[0, 0, 1, 16_384, 16_385, 65_535]);
    compare::write(t, &c);
}

/// A sheet with one damage of each kind at each kind of line in turn, now and then with more.
pub fn damaged(rng: &mut Rng, turn: usize) -> Vec<u8> {
    let large = turn % 50 == 0;
    let c = sheet_case(rng, large);
    let kind = LINE_KINDS[turn % LINE_KINDS.len()];
    let starts = rng.percent(70);
    let mut draft = Draft::new(rng, &c, starts);
    damage::damage(rng, &mut draft, turn / LINE_KINDS.len() % DAMAGES, kind);
    for _ in 0..rng.pick(&[0, 0, 0, 0, 1, 2]) {
        let (what, kind) = (rng.below(DAMAGES), rng.pick(&LINE_KINDS));
        if !draft.lines.is_empty() {
            damage::damage(rng, &mut draft, what, kind);
        }
    }
    draft.text()
}

/// The longest sheet: read, written, and with a byte more or less.
fn longest(t: &mut Tally, rng: &mut Rng) {
    let c = gen::longest(rng);
    let text = Draft::new(rng, &c, true).text();
    t.check("the longest sheet has 45,489 bytes", &Case::default(), text.len() == LONGEST_SHEET);
    t.cases += 1;
    round_trip(t, rng, &c, text.clone());
    writing(t, rng, &c);
    let mut longer = text.clone();
    longer.push(b'\n');
    reading(t, rng, longer);
    reading(t, rng, text[..text.len() - 1].to_vec());
    reading(t, rng, vec![b'\n'; LONGEST_SHEET]);
    reading(t, rng, [text, b"starts 128\n".to_vec()].concat());
}

/// Small sheets with every byte dropped, doubled, and replaced by every other; every beginning
/// of them, and the empty text.
fn every_byte(t: &mut Tally, rng: &mut Rng, part: usize) {
    let sheets: [&[u8]; 2] = [
        b"paths 2\nA 2\n-9 64\nguards 1\n-9 A 32\nstarts 2\nA 16384\n-9 1\n",
        b"paths 3\n0417 2\n417 4\nA9 3\nguards 2\n0417 417 1\n417 A9 2\n",
    ];
    for (number, sheet) in sheets.into_iter().enumerate() {
        for at in 0..=sheet.len() {
            if (at + number) % 12 != part {
                continue;
            }
            reading(t, rng, sheet[..at].to_vec());
            reading(t, rng, sheet[at..].to_vec());
            t.cases += 2;
            for byte in 0..=255 {
                let mut inserted = sheet.to_vec();
                inserted.insert(at, byte);
                reading(t, rng, inserted);
                let mut changed = sheet.to_vec();
                changed.get_mut(at).into_iter().for_each(|b| *b = byte);
                reading(t, rng, changed);
                t.cases += 2;
            }
            let mut dropped = sheet.to_vec();
            dropped.drain(at..(at + 1).min(sheet.len()));
            reading(t, rng, dropped);
            t.cases += 1;
        }
    }
}

/// Just 2,000 pairs, one more, and many more: number 1 for pairs stands after 12 and before 7.
fn pair_counts(t: &mut Tally, rng: &mut Rng) {
    for wanted in [1_999, 2_000, 2_001, 2_016, 4_000, 8_128] {
        let n = if wanted <= 2_016 { rng.range(64, PATHS) } else { PATHS };
        let mut c = gen::case(rng, n, Shape::Alone);
        let mut every: Vec<(usize, usize)> = Vec::new();
        (0..n).for_each(|i| every.extend((0..i).map(|j| (i, j))));
        rng.shuffle(&mut every);
        for &(i, j) in every.iter().take(wanted) {
            gen::set_guard(&mut c, i, j, rng.range(0, MAX_GUARD) as u8);
        }
        t.cases += 1;
        writing(t, rng, &c);
        let text = Draft::new(rng, &c, true).text();
        reading(t, rng, text);
        // With a label that comes twice, and with a wrong start.
        let (from, to) = (LABEL * (n - 2), LABEL * (n - 1));
        c.labels.copy_within(from..to, to);
        writing(t, rng, &c);
    }
}
