//! Sheets written by hand, line by line, and damage of every kind at every kind of line.

use crate::compare::Case;
use crate::gen::{self, Rng};
use crate::net::*;

/// The kinds of lines, in their order.
#[derive(Clone, Copy, Debug, PartialEq, Eq)]
pub enum Kind {
    Paths,
    Path,
    Guards,
    Guard,
    Starts,
    Start,
    /// In an order sheet: the count line, and a path's line.
    Order,
    Ordered,
}

/// The kinds of a sheet; an order sheet has the other two.
pub const LINE_KINDS: [Kind; 6] =
    [Kind::Paths, Kind::Path, Kind::Guards, Kind::Guard, Kind::Starts, Kind::Start];

/// A sheet in the making: its lines without their line feeds, and what follows the last one.
#[derive(Clone)]
pub struct Draft {
    pub lines: Vec<(Kind, Vec<u8>)>,
    pub tail: Vec<u8>,
    /// Bytes cut off at the end.
    pub cut: usize,
}

impl Draft {
    /// The sheet of a case: its guard lines in any order, with either label first.
    pub fn new(rng: &mut Rng, c: &Case, starts: bool) -> Draft {
        let labels: Vec<String> = (0..c.n).map(|i| label_text(c, i)).collect();
        let mut lines = vec![(Kind::Paths, format!("paths {}", c.n))];
        lines.extend((0..c.n).map(|i| (Kind::Path, format!("{} {}", labels[i], c.widths[i]))));
        let guards = guard_lines(rng, c, &labels);
        lines.push((Kind::Guards, format!("guards {}", guards.len())));
        lines.extend(guards.into_iter().map(|line| (Kind::Guard, line)));
        if starts {
            lines.push((Kind::Starts, format!("starts {}", c.n)));
            lines.extend((0..c.n).map(|i| (Kind::Start, format!("{} {}", labels[i], c.starts[i]))));
        }
        Draft::of(lines)
    }

    /// The order sheet of a case, whose anchor and starts may be out of range.
    pub fn order(c: &Case) -> Draft {
        let mut lines = vec![(Kind::Order, format!("order {}", c.n))];
        for i in 0..c.n {
            let steps = steps(c, i, i64::from(c.starts[i]));
            lines.push((Kind::Ordered, format!("{} {steps} {}", label_text(c, i), c.widths[i])));
        }
        Draft::of(lines)
    }

    fn of(lines: Vec<(Kind, String)>) -> Draft {
        let lines = lines.into_iter().map(|(kind, line)| (kind, line.into_bytes())).collect();
        Draft { lines, tail: Vec::new(), cut: 0 }
    }

    pub fn text(&self) -> Vec<u8> {
        let mut text = Vec::new();
        for (_, line) in &self.lines {
            text.extend_from_slice(line);
            text.push(b'\n');
        }
        text.extend_from_slice(&self.tail);
        text.truncate(text.len().saturating_sub(self.cut));
        text
    }

    /// A random line of a kind, or any line if there is none of it.
    fn find(&self, rng: &mut Rng, kind: Kind) -> usize {
        let of_kind: Vec<usize> =
            (0..self.lines.len()).filter(|&k| self.lines[k].0 == kind).collect();
        if of_kind.is_empty() {
            rng.below(self.lines.len())
        } else {
            rng.pick(&of_kind)
        }
    }

    /// A label of one of the path lines, as it stands.
    fn some_label(&self, rng: &mut Rng) -> Vec<u8> {
        let at = self.find(rng, Kind::Path);
        field_of(&self.lines[at].1, 0)
    }
}

/// The n of a path at any start: anchor + 2(start - 1) + width.
pub fn steps(c: &Case, path: usize, start: i64) -> i64 {
    i64::from(c.anchor) + 2 * (start - 1) + i64::from(c.widths[path])
}

pub fn label_text(c: &Case, path: usize) -> String {
    let bytes = c.labels[LABEL * path..LABEL * (path + 1)].iter().take_while(|&&b| b != 0);
    bytes.map(|&b| b as char).collect()
}

fn guard_lines(rng: &mut Rng, c: &Case, labels: &[String]) -> Vec<String> {
    let mut lines = Vec::new();
    for i in 0..c.n {
        for j in 0..i {
            let guard = c.guards[cell(i, j)];
            if guard != NONE {
                let (one, two) = if rng.percent(50) { (i, j) } else { (j, i) };
                lines.push(format!("{} {} {}", labels[one], labels[two], guard));
            }
        }
    }
    rng.shuffle(&mut lines);
    lines
}

fn fields(line: &[u8]) -> Vec<Vec<u8>> {
    line.split(|&b| b == b' ').map(<[u8]>::to_vec).collect()
}

fn field_of(line: &[u8], number: usize) -> Vec<u8> {
    fields(line).get(number).cloned().unwrap_or_default()
}

/// Changes one field of a line.
fn change_field(line: &mut Vec<u8>, number: usize, change: impl FnOnce(&mut Vec<u8>)) {
    let mut all = fields(line);
    let number = number.min(all.len() - 1);
    change(&mut all[number]);
    *line = all.join(&b' ');
}

/// Changes the last field, which is the line's number.
fn change_number(line: &mut Vec<u8>, change: impl FnOnce(&mut Vec<u8>)) {
    change_field(line, usize::MAX, change);
}

const BYTES: &[u8] = b" \n\r\t\0-0159AZaz_.+,:/@[`{\x0B\x0C\x1F\x7F\x80\xA0\xEF\xFF";

#[rustfmt::skip]
const NUMBERS: [&str; 44] = [
    "0", "1", "2", "3", "31", "32", "33", "63", "64", "65", "127", "128", "129", "254", "255",
    "256", "257", "288", "320", "1999", "2000", "2001", "9999", "10000", "16383", "16384", "16385",
    "32767", "32768", "65535", "65536", "65537", "65600", "81920", "99999", "100000", "65537000000",
    "4294967297", "18446744073709551617", "00", "01", "007", "-1", "+1",
];

/// The number of kinds of damage.
pub const DAMAGES: usize = 58;

/// One damage of a kind at a line of a kind.
pub fn damage(rng: &mut Rng, d: &mut Draft, what: usize, kind: Kind) {
    let at = d.find(rng, kind);
    match what {
        0..=17 => damage_bytes(rng, &mut d.lines[at].1, what),
        18..=33 => damage_fields(rng, d, at, what),
        34..=45 => damage_lines(rng, d, at, what),
        46..=51 => damage_end(rng, d, at, what),
        52..=54 => out_of_range(rng, d, at),
        // Two faults in one line: which of them wins?
        55 => {
            out_of_range(rng, d, at);
            damage_fields(rng, d, at, 25);
        }
        56 => {
            out_of_range(rng, d, at);
            damage_fields(rng, d, at, 26);
        }
        _ => {
            out_of_range(rng, d, at);
            damage_fields(rng, d, at, 28);
        }
    }
}

/// Damage to the bytes of one line.
fn damage_bytes(rng: &mut Rng, line: &mut Vec<u8>, what: usize) {
    let place = rng.below(line.len().max(1));
    let byte = rng.pick(BYTES);
    match what {
        0 if !line.is_empty() => drop(line.remove(place)),
        1 if !line.is_empty() => line.insert(place, line[place]),
        2 if !line.is_empty() => line[place] = byte,
        3 if !line.is_empty() => line[place] = rng.bits() as u8,
        4 => line.insert(place, byte),
        5 => line.push(byte),
        6 => line.insert(0, byte),
        7 => line.push(b' '),
        8 => line.insert(0, b' '),
        9 => line.push(b'\r'),
        10 => line.push(b'\t'),
        11 => line.push(0),
        12 => replace(rng, line, b" ", b"  "),
        13 => replace(rng, line, b" ", b"\t"),
        14 => replace(rng, line, b" ", b""),
        15 => line.make_ascii_lowercase(),
        16 => line.make_ascii_uppercase(),
        17 => line.insert(place, b'\n'),
        _ => {}
    }
}

/// Replaces one of the places where a byte stands.
fn replace(rng: &mut Rng, line: &mut Vec<u8>, from: &[u8], to: &[u8]) {
    let places: Vec<usize> = (0..line.len()).filter(|&k| line[k] == from[0]).collect();
    if !places.is_empty() {
        let place = rng.pick(&places);
        line.splice(place..=place, to.iter().copied());
    }
}

/// Damage to one field of a line.
fn damage_fields(rng: &mut Rng, d: &mut Draft, at: usize, what: usize) {
    let other = d.some_label(rng);
    let unknown = gen::label(rng, &[]);
    let number = rng.pick(&NUMBERS);
    let value: usize = rng.pick(&[33, 255, 257, 65_537, 99_999, 0, 1, 64, 65, 16_384, 16_385]);
    let second = rng.below(2);
    let mut line = d.lines[at].1.clone();
    match what {
        18 => change_number(&mut line, |f| *f = number.as_bytes().to_vec()),
        19 => change_number(&mut line, |f| f.insert(0, b'0')),
        20 => change_number(&mut line, |f| *f = value.to_string().into_bytes()),
        21 => change_number(&mut line, |f| f.resize(6, b'1')),
        22 => change_number(&mut line, |f| one_off(f, true)),
        23 => change_number(&mut line, |f| one_off(f, false)),
        24 => change_number(&mut line, Vec::clear),
        25 => change_field(&mut line, second, |f| *f = other),
        26 => change_field(&mut line, second, |f| *f = unknown),
        27 => change_field(&mut line, second, |f| f.resize(9, b'X')),
        28 => change_field(&mut line, second, |f| f.insert(0, b'0')),
        29 => change_field(&mut line, second, Vec::clear),
        30 => change_field(&mut line, second, |f| f.make_ascii_lowercase()),
        31 => line = [fields(&line), vec![other]].concat().join(&b' '),
        32 => line = fields(&line)[1..].join(&b' '),
        33 => line = fields(&line).into_iter().rev().collect::<Vec<_>>().join(&b' '),
        _ => {}
    }
    d.lines[at].1 = line;
}

/// A number of right form that the line may not have.
fn out_of_range(rng: &mut Rng, d: &mut Draft, at: usize) {
    let value = match d.lines[at].0 {
        Kind::Paths => rng.pick(&[0, 129, 256, 257, 65_537, 99_999]),
        Kind::Path | Kind::Ordered => rng.pick(&[0, 65, 256, 257, 65_536, 65_537, 99_999]),
        Kind::Guards => rng.pick(&[2_001, 9_999, 65_536, 99_999]),
        Kind::Guard => rng.pick(&[33, 254, 255, 256, 257, 288, 65_536, 99_999]),
        Kind::Starts | Kind::Order => rng.pick(&[0, 129, 257, 65_537, 99_999]),
        Kind::Start => rng.pick(&[0, 16_385, 65_535, 65_536, 65_537, 81_920, 99_999]),
    };
    change_number(&mut d.lines[at].1, |f| *f = value.to_string().into_bytes());
}

/// A number one higher or one lower.
fn one_off(field: &mut Vec<u8>, up: bool) {
    let value: usize = String::from_utf8_lossy(field).parse().unwrap_or(1);
    let value = if up { value + 1 } else { value.saturating_sub(1) };
    *field = value.to_string().into_bytes();
}

/// Damage to whole lines; some of it with the count kept right.
fn damage_lines(rng: &mut Rng, d: &mut Draft, at: usize, what: usize) {
    let line = d.lines[at].clone();
    let other = rng.below(d.lines.len());
    let next = (at + 1) % d.lines.len();
    match what {
        34 => drop(d.lines.remove(at)),
        35 => d.lines.insert(at, line),
        36 => d.lines.swap(at, other),
        37 => d.lines.swap(at, next),
        38 => d.lines.insert(at, (line.0, Vec::new())),
        39 => join_next(d, at),
        40 => counted(d, at, |lines| drop(lines.remove(at))),
        41 => counted(d, at, |lines| lines.insert(other.max(at), line)),
        42 => second_pair(rng, d, false),
        43 => second_pair(rng, d, true),
        44 => self_pair(rng, d),
        45 => d.lines[0].1.splice(0..0, *b"\xEF\xBB\xBF").for_each(drop),
        _ => {}
    }
}

/// A line and the next in one.
fn join_next(d: &mut Draft, at: usize) {
    if at + 1 < d.lines.len() {
        let next = d.lines.remove(at + 1).1;
        d.lines[at].1.extend(next);
    }
}

/// Changes the number of lines and the count of their section with it.
fn counted(d: &mut Draft, at: usize, change: impl FnOnce(&mut Vec<(Kind, Vec<u8>)>)) {
    let section = match d.lines[at].0 {
        Kind::Path | Kind::Paths => Kind::Paths,
        Kind::Guard | Kind::Guards => Kind::Guards,
        Kind::Start | Kind::Starts => Kind::Starts,
        Kind::Order | Kind::Ordered => Kind::Order,
    };
    let before = d.lines.len();
    change(&mut d.lines);
    let up = d.lines.len() > before;
    if let Some(count) = d.lines.iter_mut().find(|line| line.0 == section) {
        change_number(&mut count.1, |f| one_off(f, up));
    }
}

/// A guard line that comes again, either way round, with its own or another guard.
fn second_pair(rng: &mut Rng, d: &mut Draft, turned: bool) {
    let at = d.find(rng, Kind::Guard);
    let mut again = fields(&d.lines[at].1);
    if d.lines[at].0 != Kind::Guard || again.len() != 3 {
        return;
    }
    if turned {
        again.swap(0, 1);
    }
    if rng.percent(50) {
        again[2] = rng.pick(&["0", "7", "32", "33", "255", "05"]).as_bytes().to_vec();
    }
    let last = d.find(rng, Kind::Guard).max(at);
    let place = rng.range(at, last);
    counted(d, at, |lines| lines.insert(place + 1, (Kind::Guard, again.join(&b' '))));
}

/// A guard line of a path with itself, the guard right or wrong.
fn self_pair(rng: &mut Rng, d: &mut Draft) {
    let label = d.some_label(rng);
    let guard = rng.pick(&["0", "1", "33", "255", "x", "01"]).as_bytes().to_vec();
    let at = d.find(rng, Kind::Guards);
    let line = [label.clone(), label, guard].join(&b' ');
    counted(d, at, |lines| lines.insert(at + 1, (Kind::Guard, line)));
}

/// Damage to the end: the sheet stops at a line, or goes on.
fn damage_end(rng: &mut Rng, d: &mut Draft, at: usize, what: usize) {
    let some: Vec<u8> = (0..rng.range(1, 6)).map(|_| rng.pick(BYTES)).collect();
    match what {
        46 => d.lines.truncate(at),
        47 => d.lines.truncate(at + 1),
        48 => {
            d.lines.truncate(at + 1);
            d.cut = 1;
        }
        49 => {
            d.lines.truncate(at + 1);
            d.cut = rng.range(1, 8);
        }
        50 => d.tail = rng.pick(&["\n", " ", "starts 1\n", "starts 0\n", "#\n", "\0", "x"]).into(),
        _ => d.tail = some,
    }
}

/// The number of kinds of damage to a path's line of an order sheet.
pub const ORDER_DAMAGES: usize = 40;

/// One damage of a kind at a path's line of an order sheet, whose fields are label, n and m. Some
/// give another start, and are none.
pub fn damage_order(rng: &mut Rng, d: &mut Draft, c: &Case, what: usize) {
    let path = rng.below(c.n);
    let Some(line) = d.lines.get(path + 1).map(|line| fields(&line.1)) else { return };
    let [label, n, m] = &line[..] else { return };
    let (mut label, mut n, mut m) = (label.clone(), n.clone(), m.clone());
    let (lowest, highest) = (steps(c, path, 1), steps(c, path, MAX_START as i64));
    // The line may be damaged already, and its label empty.
    let near = gen::label(rng, &[label_text(c, path).into()]);
    match what {
        0..=7 => add(&mut n, [1, -1, 2, -2, 3, -3, 256, -256][what]),
        8..=11 => add(&mut n, [32_768, -32_768, 65_536, -65_536][what - 8]),
        12 => n = (lowest - rng.range(1, 4) as i64).to_string().into_bytes(),
        13 => n = (highest + rng.range(1, 4) as i64).to_string().into_bytes(),
        14 => n = rng.pick(&[lowest, lowest + 1, highest - 1, highest]).to_string().into_bytes(),
        15 => n = rng.pick(&["99999", "-99999", "100000", "-100000", "0", "32767"]).into(),
        16 => n = rng.pick(&["-0", "-", "+0", "00", "-00", "", "--", "0-"]).into(),
        17 => n.insert(0, b'-'),
        18 => n.insert(0, b'+'),
        19 => n.insert(usize::from(n.first() == Some(&b'-')), b'0'),
        20 => n.retain(|&b| b != b'-'),
        21 => n.push(b'-'),
        22 => n.resize(rng.range(6, 8), b'0'),
        23 => n = rng.pick(&["-123456", "123456", "4294967297", "-4294967297", "1e3"]).into(),
        24 => std::mem::swap(&mut n, &mut m),
        25 => std::mem::swap(&mut label, &mut n),
        26 => std::mem::swap(&mut label, &mut m),
        27..=30 => add(&mut m, [1, -1, 256, 65_536][what - 27]),
        31 => m.insert(0, b'-'),
        32 => m.insert(0, b'0'),
        // Two faults, or one that the other would make good.
        33 => [&mut n, &mut m].into_iter().for_each(|field| add(field, 1)),
        34 => {
            add(&mut n, rng.pick(&[1, -1, 65_536]));
            add(&mut m, rng.pick(&[2, 256, 65_536]));
        }
        35 | 36 => {
            label = near;
            add(if what == 35 { &mut n } else { &mut m }, rng.pick(&[1, 65_536]));
        }
        37 => label = near,
        38 => label = label_text(c, rng.below(c.n)).into(),
        _ => label.insert(0, b'0'),
    }
    d.lines[path + 1].1 = [label, n, m].join(&b' ');
}

/// Adds to a number, if the field is one.
fn add(field: &mut Vec<u8>, more: i64) {
    if let Ok(value) = String::from_utf8_lossy(field).parse::<i64>() {
        *field = (value + more).to_string().into_bytes();
    }
}
