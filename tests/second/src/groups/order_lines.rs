//! Reading order sheets (RULES 27): damage of every kind, every n that a line can have, every set of
//! faults in the lines and of the refusals before them, small sheets with every byte changed.

use crate::calls::Answer;
use crate::compare::{self, Call, Case, Tally};
use crate::damage::{self, Draft, Kind, DAMAGES, ORDER_DAMAGES};
use crate::gen::{self, Rng};
use crate::groups::orders::{order_case, spoil, spoil_label, PIECES};
use crate::net::*;
use std::collections::HashMap;

const DAMAGED: usize = 250;

/// The part of a piece of the group `orders` that reads.
pub fn piece(t: &mut Tally, rng: &mut Rng, number: usize) {
    for k in 0..DAMAGED {
        damaged(t, rng, number * DAMAGED + k);
    }
    every_number(t, rng, number);
    every_width(t, rng);
    fault_sets(t, rng);
    tables_first(t, rng);
    label_cells(t, rng);
    lines_moved(t, rng);
    if number < BYTE_PIECES {
        every_byte(t, rng, number);
    }
}

/// Reads a text beside the network of a case, all starts the same before. Only a good reading
/// changes any, and only the first n; and such a text is the one that is written of them.
pub fn reading(
    t: &mut Tally, rng: &mut Rng, c: &Case, text: Vec<u8>,
) -> Option<(Answer, Vec<u16>)> {
    let before = rng.bits() as u16;
    let c = Case { text, starts: vec![before; PATHS], ..c.clone() };
    let (answer, starts) = compare::order_read(t, &c)?;
    let read = answer.number == 0;
    let kept = starts.iter().skip(if read { c.n } else { 0 }).all(|&start| start == before);
    t.check_of(Call::OrderRead, "just the n starts of a good reading are changed", &c, kept);
    if read {
        let again = Draft::order(&Case { starts: starts.clone(), ..c.clone() }).text();
        t.check_of(Call::OrderRead, "what is read is what is written", &c, again == c.text);
    }
    Some((answer, starts))
}

/// The same, the answer known.
fn answers(t: &mut Tally, rng: &mut Rng, c: &Case, text: &[u8], number: usize, line: usize) {
    let Some((answer, _)) = reading(t, rng, c, text.to_vec()) else { return };
    let right = answer == Answer::new(number, line, [0, 0]);
    let what = format!("the reading answers {number} at line {line}");
    // The case is shown, and so copied, only where it is wrong.
    let shown = (!right).then(|| Case { text: text.to_vec(), ..c.clone() });
    t.check_of(Call::OrderRead, &what, &shown.unwrap_or_default(), right);
}

/// One damage of each kind in turn, now and then with more: of any sheet at the count line and at a
/// path's line, and of an order sheet's own.
fn damaged(t: &mut Tally, rng: &mut Rng, turn: usize) {
    let n = if turn % 50 == 0 { rng.range(1, PATHS) } else { rng.range(1, 6) };
    let c = order_case(rng, n);
    let mut draft = Draft::order(&c);
    one_damage(rng, &mut draft, &c, turn % KINDS);
    for _ in 0..rng.pick(&[0, 0, 0, 0, 1, 2]) {
        let what = rng.below(KINDS);
        if !draft.lines.is_empty() {
            one_damage(rng, &mut draft, &c, what);
        }
    }
    t.cases += 1;
    reading(t, rng, &c, draft.text());
}

const KINDS: usize = 2 * DAMAGES + ORDER_DAMAGES;

fn one_damage(rng: &mut Rng, draft: &mut Draft, c: &Case, what: usize) {
    match what {
        _ if what < DAMAGES => damage::damage(rng, draft, what, Kind::Order),
        _ if what < 2 * DAMAGES => damage::damage(rng, draft, what - DAMAGES, Kind::Ordered),
        _ => damage::damage_order(rng, draft, c, what - 2 * DAMAGES),
    }
}

/// A piece's share of every n from -99,999 to 99,999, and each n about the ends, about 0, and about
/// the ends once it is cut to 16 bits. All starts are tried: one of them gives it, or it is 7.
fn every_number(t: &mut Tally, rng: &mut Rng, number: usize) {
    let n = rng.pick(&[1, 1, 1, 1, 1, 3, 9]);
    let (c, path) = (order_case(rng, n), rng.below(n));
    let all = 1..=MAX_START as i64;
    let known: HashMap<i64, i64> = all.map(|s| (damage::steps(&c, path, s), s)).collect();
    // Two and two, so that a share has odd and even ones.
    let share = (-99_999 + 2 * number as i64..=99_999).step_by(2 * PIECES);
    let share = share.flat_map(|steps| steps..=(steps + 1).min(99_999));
    let ends = [damage::steps(&c, path, 1), damage::steps(&c, path, MAX_START as i64)];
    let cut = ends.into_iter().flat_map(|end| [0, -65_536, 65_536, 32_768].map(|by| end + by));
    let near = cut.chain([0]).flat_map(|middle| middle - 5..=middle + 5);
    let mut draft = Draft::order(&c);
    for steps in share.chain(near) {
        let label = damage::label_text(&c, path);
        draft.lines[path + 1].1 = format!("{label} {steps} {}", c.widths[path]).into_bytes();
        t.cases += 1;
        let Some((answer, starts)) = reading(t, rng, &c, draft.text()) else { return };
        let right = match known.get(&steps) {
            Some(&start) => answer.number == 0 && i64::from(starts[path]) == start,
            None => answer == Answer::new(7, path + 2, [0, 0]),
        };
        t.check_of(Call::OrderRead, &format!("n {steps} by all starts"), &c, right);
    }
}

/// Every m up to 200 but the path's width, and that width past 8 and past 16 bits, beside the n that
/// it would have and beside others: it is 3.
fn every_width(t: &mut Tally, rng: &mut Rng) {
    let n = rng.range(1, 3);
    let (c, path) = (order_case(rng, n), rng.below(n));
    let own = i64::from(c.widths[path]);
    let mut draft = Draft::order(&c);
    let steps = damage::steps(&c, path, i64::from(c.starts[path])) - own;
    for width in (0..=200).chain([own + 256, own + 65_536, 32_768, 99_999]) {
        let label = damage::label_text(&c, path);
        let n = rng.pick(&[steps + width, steps + own, 99_999, -99_999]).clamp(-99_999, 99_999);
        if width == own {
            continue;
        }
        draft.lines[path + 1].1 = format!("{label} {n} {width}").into_bytes();
        t.cases += 1;
        answers(t, rng, &c, &draft.text(), 3, path + 2);
    }
}

/// Lines that have the form of none.
fn no_form(rng: &mut Rng, [label, n, m]: [String; 3]) -> String {
    let digits = n.trim_start_matches('-').to_string();
    match rng.below(24) {
        0 => String::new(),
        1 => format!("{label} {n}"),
        2 => format!("{label} {n} {m} "),
        3 => format!(" {label} {n} {m}"),
        4 => format!("{label}  {n} {m}"),
        5 => format!("{label} {n}  {m}"),
        6 => format!("{label} {n} {m} {m}"),
        7 => format!("{label}\t{n} {m}"),
        8 => format!("{label} {n} {m}\r"),
        9 => format!("{label} {n} -{m}"),
        10 => format!("{label} {n} 0{m}"),
        11 => format!("{label} {n} +{m}"),
        12 => format!("{label} +{digits} {m}"),
        13 => format!("{label} --{digits} {m}"),
        14 => format!("{label} -0{digits} {m}"),
        15 => format!("{label} 0{digits} {m}"),
        16 => {
            format!("{label} {} {m}", rng.pick(&["-0", "-", "", "--", "- 1", "1-", "-1.0", "1e1"]))
        }
        17 => format!("{label} {}123456 {m}", rng.pick(&["", "-"])),
        18 => format!("{label} {n} 100064"),
        19 => format!("{label}a {n} {m}"),
        20 => format!("{:0>9} {n} {m}", label),
        21 => format!(" {n} {m}"),
        22 => format!("{label}\0 {n} {m}"),
        _ => format!("{label},{n},{m}"),
    }
}

/// Every set of faults: in the first line form and count; in the lines of two paths form, label, m
/// and n; and something left over. The first line at fault is answered, in this order.
fn fault_sets(t: &mut Tally, rng: &mut Rng) {
    let mut c = order_case(rng, PATHS);
    for set in 0_usize..1 << 11 {
        let has = |fault: usize| set >> fault & 1 == 1;
        if set % 16 == 8 {
            let n = if rng.percent(2) { rng.range(2, PATHS) } else { rng.range(2, 5) };
            c = order_case(rng, n);
        }
        let n = c.n;
        let mut draft = Draft::order(&c);
        let first = rng.below(n - 1);
        let paths = [first, rng.range(first + 1, n - 1)];
        let mut want = None;
        if set & 3 != 0 {
            draft.lines[0].1 = wrong_head(rng, n, has(0), has(1)).into_bytes();
            want = Some((if has(0) { 11 } else { 1 }, 1));
        }
        for (path, from) in [(paths[0], 2), (paths[1], 6)] {
            let faults = [has(from), has(from + 1), has(from + 2), has(from + 3)];
            let number = faults.iter().position(|&fault| fault).map(|at| [11, 13, 3, 7][at]);
            want = want.or(number.map(|number| (number, path + 2)));
            draft.lines[path + 1].1 = wrong_line(rng, &c, path, faults).into_bytes();
        }
        if has(10) {
            draft.tail = some_tail(rng, &c);
            want = want.or(Some((11, n + 2)));
        }
        t.cases += 1;
        let (number, line) = want.unwrap_or((0, 0));
        answers(t, rng, &c, &draft.text(), number, line);
    }
}

/// The first line with a wrong form, a wrong count, or both.
fn wrong_head(rng: &mut Rng, n: usize, form: bool, count: bool) -> String {
    let others = [0, n - 1, n + 1, n + 256, n + 65_536, 128 + n, 99_999];
    let n = if count { rng.pick(&others) } else { n };
    if !form {
        return format!("order {n}");
    }
    match rng.below(12) {
        0 => String::new(),
        1 => format!("Order {n}"),
        2 => format!("order  {n}"),
        3 => format!("order {n} "),
        4 => format!("order 0{n}"),
        5 => format!("order -{n}"),
        6 => format!("orders {n}"),
        7 => format!("paths {n}"),
        8 => format!("order {n} {n}"),
        9 => "order".into(),
        10 => format!("order {}", 100_000 + n),
        _ => format!("\u{FEFF}order {n}"),
    }
}

/// The line of a path with wrong form, label, m and n, each or not.
fn wrong_line(rng: &mut Rng, c: &Case, path: usize, faults: [bool; 4]) -> String {
    let [form, other_label, other_m, other_n] = faults;
    let (own, width) = (damage::label_text(c, path), i64::from(c.widths[path]));
    let (mut label, mut m) = (own.clone(), width);
    while other_label && label == own {
        let near = [own.clone().into_bytes()];
        label = String::from_utf8_lossy(&gen::label(rng, &near)).into_owned();
    }
    if other_m {
        m = rng.pick(&[0, width - 1, width + 1, width + 2, width + 256, width + 65_536, 99_999]);
    }
    let mut n = damage::steps(c, path, i64::from(c.starts[path]));
    if other_n {
        let (low, high) = (damage::steps(c, path, 0), damage::steps(c, path, 16_385));
        n = rng.pick(&[n + 1, n - 1, low, high, n + 65_536, n - 65_536, -99_999, 99_999]);
    }
    let fields = [label, n.to_string(), m.to_string()];
    if form {
        no_form(rng, fields)
    } else {
        fields.join(" ")
    }
}

/// What must not come after the last line.
fn some_tail(rng: &mut Rng, c: &Case) -> Vec<u8> {
    let sheet = Draft::order(c).text();
    let again = rng.range(0, sheet.len() - 1);
    rng.pick(&[&b"\n"[..], b" ", b"\0", b"x", b"order 1\n", b"A 1 1\n", b"\n\n", &sheet[again..]])
        .to_vec()
}

/// The reader's refusals before the lines, in their order.
const ROW: [usize; 6] = [2, 17, 1, 3, 4, 5];

/// Every set of these at once, with a text that is right, wrong in the first line, or later on.
fn tables_first(t: &mut Tally, rng: &mut Rng) {
    for set in 0..3 << ROW.len() {
        let chosen: Vec<usize> = (0..ROW.len()).filter(|place| set >> place & 1 == 1).collect();
        let n = rng.range(2, 6);
        let mut c = order_case(rng, n);
        let text = match set >> ROW.len() {
            0 => Draft::order(&c).text(),
            1 => format!("order {}\n", n + 1).into_bytes(),
            _ => [Draft::order(&c).text(), b"\n".to_vec()].concat(),
        };
        let otherwise = [0, 1, 11][set >> ROW.len()];
        let i = rng.below(n - 1);
        let pair = (i, rng.range(i + 1, n - 1));
        for &place in chosen.iter().rev() {
            spoil(rng, &mut c, ROW[place], pair);
        }
        c.text = text;
        t.cases += 1;
        if let Some((answer, starts)) = compare::order_read(t, &c) {
            let want = chosen.first().map_or(otherwise, |&place| ROW[place]);
            let first = answer.number == want;
            t.check_of(Call::OrderRead, "the first refusal of the row", &c, first);
            let kept = starts == c.starts;
            t.check_of(Call::OrderRead, "the starts are as they were", &c, kept);
        }
    }
}

/// The labels are not tested when they are lent: one without a label's form is nobody's, and one
/// that two paths have is both theirs.
fn label_cells(t: &mut Tally, rng: &mut Rng) {
    for _ in 0..10 {
        let n = rng.range(2, 9);
        let mut c = order_case(rng, n);
        let (i, j) = (rng.below(n - 1), n - 1);
        let path = rng.pick(&[i, j]);
        let sheet = Draft::order(&c).text();
        let whole = c.labels.clone();
        t.cases += 2;
        spoil_label(rng, &mut c, path);
        answers(t, rng, &c, &sheet, 13, path + 2);
        c.labels = whole;
        spoil(rng, &mut c, 12, (i, j));
        let sheet = Draft::order(&c).text();
        answers(t, rng, &c, &sheet, 0, 0);
    }
}

/// Each line dropped and doubled, each two swapped, the fields of each in all orders.
fn lines_moved(t: &mut Tally, rng: &mut Rng) {
    let n = rng.range(1, 4);
    let c = order_case(rng, n);
    let draft = Draft::order(&c);
    let mut drafts = Vec::new();
    let mut changed = |change: &dyn Fn(&mut Draft)| {
        let mut other = draft.clone();
        change(&mut other);
        drafts.push(other);
    };
    for at in 0..=n {
        changed(&|d| drop(d.lines.remove(at)));
        changed(&|d| d.lines.insert(at, d.lines[at].clone()));
        (0..at).for_each(|other| changed(&|d| d.lines.swap(at, other)));
        let fields: Vec<&[u8]> = draft.lines[at].1.split(|&b| b == b' ').collect();
        crate::rules::each_order(&mut fields.clone(), 0, &mut |order| {
            changed(&|d| d.lines[at].1 = order.join(&b' '))
        });
    }
    t.cases += drafts.len() as u64;
    drafts.iter().for_each(|draft| drop(reading(t, rng, &c, draft.text())));
}

/// A beginning of a right sheet is refused 11 at the line that is missing or has no end: all of them,
/// or of a long one some.
pub fn beginnings(t: &mut Tally, rng: &mut Rng, c: &Case, sheet: &[u8], step: usize) {
    for length in (0..sheet.len()).rev().step_by(step) {
        let lines = sheet[..length].iter().filter(|&&b| b == b'\n').count();
        answers(t, rng, c, &sheet[..length], 11, lines + 1);
    }
}

/// Whatever follows a right sheet is a line left over.
pub fn too_much(t: &mut Tally, rng: &mut Rng, c: &Case, sheet: &[u8]) {
    for byte in 0..=255 {
        answers(t, rng, c, &[sheet, &[byte]].concat(), 11, c.n + 2);
    }
    for more in [sheet, &[b'9'; 70_000], b"starts 1\n"] {
        answers(t, rng, c, &[sheet, more].concat(), 11, c.n + 2);
    }
}

/// Small sheets that have an n of each length and sign: anchor, and label, width and start of each
/// path.
type Small = (i32, &'static [(&'static str, u16, u16)]);
const SMALL: [Small; 3] = [
    (-10, &[("A", 4, 1), ("B-0", 4, 4), ("-9", 64, 16_384)]),
    (-1_024, &[("-1", 1, 1), ("10", 10, 58)]),
    (1_024, &[("0417", 64, 16_384)]),
];

const BYTE_PIECES: usize = 20;

/// Small sheets with every byte dropped, doubled, and replaced by every other; with every byte put
/// in between; every beginning and every end of them.
fn every_byte(t: &mut Tally, rng: &mut Rng, part: usize) {
    for (anchor, paths) in SMALL {
        let mut c = order_case(rng, paths.len());
        c.anchor = anchor;
        for (i, &(label, width, start)) in paths.iter().enumerate() {
            (c.widths[i], c.starts[i]) = (width, start);
            c.labels[LABEL * i..LABEL * (i + 1)].fill(0);
            c.labels[LABEL * i..LABEL * i + label.len()].copy_from_slice(label.as_bytes());
        }
        let sheet = Draft::order(&c).text();
        if part == 0 {
            answers(t, rng, &c, &sheet, 0, 0);
            beginnings(t, rng, &c, &sheet, 1);
            too_much(t, rng, &c, &sheet);
            (1..sheet.len()).for_each(|from| answers(t, rng, &c, &sheet[from..], 11, 1));
        }
        for at in (part..sheet.len()).step_by(BYTE_PIECES) {
            let (front, back) = sheet.split_at(at);
            t.cases += 2 * 256 + 1;
            reading(t, rng, &c, [front, &back[1..]].concat());
            for byte in 0..=255 {
                reading(t, rng, &c, [front, &[byte], back].concat());
                reading(t, rng, &c, [front, &[byte], &back[1..]].concat());
            }
        }
    }
}
