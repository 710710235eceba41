//! Order sheets (RULES 27): written, read back beside their network and written again; all small ones;
//! rooms of every length; every set of the writer's refusals. What else is read is `order_lines`.

use crate::compare::{self, Call, Case, Tally};
use crate::damage::{self, Draft};
use crate::gen::{self, Rng, Shape, SHAPES};
use crate::groups::order_lines;
use crate::net::*;
use crate::order::{LONGEST_ORDER, MAX_ANCHOR};

pub const PIECES: usize = 40;
const EACH: usize = 20;

pub fn piece(t: &mut Tally, rng: &mut Rng, number: usize) {
    tiny(t, rng, number);
    for k in 0..EACH {
        let n = if k < 3 { rng.range(1, PATHS) } else { rng.range(1, 9) };
        let c = order_case(rng, n);
        t.cases += 1;
        there_and_back(t, rng, &c);
        rooms(t, rng, &c);
    }
    refusals(t, rng);
    order_lines::piece(t, rng, number);
    match number {
        0 => longest(t, rng),
        1..=6 => every_room(t, rng),
        7..=10 => many_pairs(t, rng),
        _ => {}
    }
}

/// What an order sheet is made of: a network with labels, an anchor, and any starts, for a plan on
/// an order sheet need not be valid.
pub fn order_case(rng: &mut Rng, n: usize) -> Case {
    let shape = rng.pick(&SHAPES);
    let mut c = bare(gen::case(rng, n, shape));
    let starts = &mut c.starts[..n];
    match rng.below(4) {
        0 => {}
        1 => gen::raise(starts),
        2 => starts.iter_mut().for_each(|s| *s = rng.range(1, MAX_START) as u16),
        _ => starts.iter_mut().for_each(|s| *s = rng.pick(&[1, 2, 16_383, 16_384])),
    }
    c
}

/// The case with what an order sheet takes, and no more.
fn bare(c: Case) -> Case {
    Case {
        n: c.n,
        widths: c.widths,
        guards: c.guards,
        starts: c.starts,
        labels: c.labels,
        anchor: c.anchor,
        ..Case::default()
    }
}

/// Written, an order sheet is the one by hand; read, it gives its starts; written again, it has the
/// same bytes.
fn there_and_back(t: &mut Tally, rng: &mut Rng, c: &Case) {
    let sheet = Draft::order(c).text();
    write_right(t, c, &sheet, rng.below(9));
    centres(t, c);
    let Some((answer, starts)) = order_lines::reading(t, rng, c, sheet.clone()) else { return };
    let same = answer.number == 0 && starts[..c.n] == c.starts[..c.n];
    t.check_of(Call::OrderRead, "the starts come back", c, same);
    write_right(t, &Case { starts, ..c.clone() }, &sheet, 0);
}

/// Writes a case without a fault into a room with some bytes more, which have to stay.
fn write_right(t: &mut Tally, c: &Case, sheet: &[u8], more: usize) {
    let c = Case { text: vec![b'%'; sheet.len() + more], ..c.clone() };
    let Some((answer, text)) = compare::order_write(t, &c) else { return };
    let written = answer.number == 0 && answer.more[0] == sheet.len() && text.starts_with(sheet);
    t.check_of(Call::OrderWrite, "an order sheet is the one by hand", &c, written);
    let kept = text[sheet.len()..].iter().all(|&byte| byte == b'%');
    t.check_of(Call::OrderWrite, "the text past the sheet is as it was", &c, kept);
}

/// The centre of each path is that of its line's n, as the library wrote it.
fn centres(t: &mut Tally, c: &Case) {
    let c = Case { text: vec![0; LONGEST_ORDER], ..c.clone() };
    let Some((_, text)) = compare::order_write(t, &c) else { return };
    for (path, line) in text.split(|&b| b == b'\n').skip(1).take(c.n).enumerate() {
        let line = String::from_utf8_lossy(line);
        let n: Option<i64> = line.split(' ').nth(1).and_then(|n| n.parse().ok());
        let block = [usize::from(c.starts[path]), usize::from(c.widths[path])];
        let block = Case { anchor: c.anchor, block, ..Case::default() };
        let Some((_, centre)) = compare::centre(t, &block) else { return };
        let same = n.is_some_and(|n| 4.0 * centre == (772_400 + 25 * n) as f64);
        t.check_of(Call::OrderWrite, "the centre is that of the line's n", &c, same);
    }
}

/// Rooms that are empty, a byte too short, exactly right, longer; and then a wrong start.
fn rooms(t: &mut Tally, rng: &mut Rng, c: &Case) {
    let length = Draft::order(c).text().len();
    let any = rng.below(length);
    let mut c = c.clone();
    for room in [0, any, length - 1, length, length + 1, LONGEST_ORDER + 1] {
        room_of(t, &mut c, length, room);
    }
    let path = rng.below(c.n);
    c.starts[path] = rng.pick(&[0, 0, 16_385, 32_769, 65_535]);
    if let Some((answer, _)) = compare::order_write(t, &c) {
        let refused = (answer.number, answer.place) == (7, path);
        t.check_of(Call::OrderWrite, "a wrong start is 7, 0 as well", &c, refused);
    }
    c.starts[..c.n].fill(0);
    if let Some((answer, _)) = compare::order_write(t, &c) {
        let refused = (answer.number, answer.place) == (7, 0);
        t.check_of(Call::OrderWrite, "no plan at all is 7, path 0", &c, refused);
    }
}

/// Writes a sheet of this length into such a room: 16 just where it is too short.
fn room_of(t: &mut Tally, c: &mut Case, length: usize, room: usize) {
    c.text.clear();
    c.text.resize(room, b'*');
    let Some((answer, _)) = compare::order_write(t, c) else { return };
    let short = room < length;
    let want = if short { (16, 0, 0) } else { (0, 0, length) };
    let right = (answer.number, answer.place, answer.more[0]) == want;
    t.check_of(Call::OrderWrite, "16 just where the text is too short", c, right);
}

/// Every room from none to some bytes too many.
fn every_room(t: &mut Tally, rng: &mut Rng) {
    let n = rng.range(1, 4);
    let mut c = order_case(rng, n);
    let length = Draft::order(&c).text().len();
    t.cases += 1;
    (0..length + 4).for_each(|room| room_of(t, &mut c, length, room));
}

/// The longest order sheet in rooms of all lengths, seven bytes apart and at its end each, beginnings
/// of it, and more than it.
fn longest(t: &mut Tally, rng: &mut Rng) {
    let mut c = bare(gen::longest(rng));
    let sheet = Draft::order(&c).text();
    let long = sheet.len() == LONGEST_ORDER;
    t.check_of(Call::OrderWrite, "the longest order sheet has 2,314 bytes", &c, long);
    t.cases += 1;
    there_and_back(t, rng, &c);
    order_lines::beginnings(t, rng, &c, &sheet, 7);
    order_lines::too_much(t, rng, &c, &sheet);
    let rooms = (0..LONGEST_ORDER).step_by(7).chain(LONGEST_ORDER - 20..LONGEST_ORDER + 4);
    rooms.for_each(|room| room_of(t, &mut c, LONGEST_ORDER, room));
}

/// More pairs than a sheet may have: an order sheet has none of them.
fn many_pairs(t: &mut Tally, rng: &mut Rng) {
    for n in [64, 100, 127, PATHS] {
        let mut c = bare(gen::case(rng, n, Shape::Density(100)));
        c.starts[..n].iter_mut().for_each(|s| *s = rng.range(1, MAX_START) as u16);
        t.cases += 1;
        there_and_back(t, rng, &c);
    }
}

const TINY_WIDTHS: [u16; 6] = [1, 2, 3, 4, 63, 64];
const TINY_STARTS: [u16; 7] = [0, 1, 2, 3, 16_383, 16_384, 16_385];
const TINY_ANCHORS: [i32; 17] =
    [-1_025, -1_024, -1_023, -5, -4, -3, -2, -1, 0, 1, 2, 3, 4, 5, 1_023, 1_024, 1_025];

/// All order sheets of one and two paths with these widths, starts and anchors, some of them one
/// past their range. One piece has its share of them.
fn tiny(t: &mut Tally, rng: &mut Rng, number: usize) {
    let (mut one, mut two) = (order_case(rng, 1), order_case(rng, 2));
    let mut blocks = Vec::new();
    TINY_WIDTHS.iter().for_each(|&w| blocks.extend(TINY_STARTS.map(|start| (w, start))));
    let mut count = 0;
    for anchor in TINY_ANCHORS {
        (one.anchor, two.anchor) = (anchor, anchor);
        for &(width, start) in &blocks {
            (one.widths[0], one.starts[0]) = (width, start);
            (two.widths[0], two.starts[0]) = (width, start);
            count += 1;
            if count % PIECES == number {
                one_tiny(t, rng, &one);
            }
            for &(width, start) in &blocks {
                (two.widths[1], two.starts[1]) = (width, start);
                count += 1;
                if count % PIECES == number {
                    gen::set_guard(&mut two, 0, 1, rng.pick(&[NONE, 0, 5]));
                    one_tiny(t, rng, &two);
                }
            }
        }
    }
}

/// Written and, from a text by hand, read: 17, then 7 at the first start that is none.
fn one_tiny(t: &mut Tally, rng: &mut Rng, c: &Case) {
    t.cases += 1;
    let wrong = c.plan().iter().position(|start| !(1..=MAX_START).contains(start));
    let far = c.anchor.abs() > MAX_ANCHOR;
    let sheet = Draft::order(c).text();
    let refused = |line: usize| match wrong {
        _ if far => Some((17, 0)),
        Some(path) => Some((7, path + line)),
        None => None,
    };
    match refused(0) {
        None => write_right(t, c, &sheet, 1),
        Some(want) => {
            let c = Case { text: vec![b'%'; sheet.len()], ..c.clone() };
            if let Some((answer, _)) = compare::order_write(t, &c) {
                let right = (answer.number, answer.place) == want;
                t.check_of(Call::OrderWrite, "17, then 7 at its path", &c, right);
            }
        }
    }
    if let Some((answer, starts)) = order_lines::reading(t, rng, c, sheet) {
        let right = (answer.number, answer.place) == refused(2).unwrap_or((0, 0));
        t.check_of(Call::OrderRead, "17, then 7 at its line", c, right);
        let back = refused(2).is_some() || starts[..c.n] == c.starts[..c.n];
        t.check_of(Call::OrderRead, "the starts come back", c, back);
    }
}

/// The writer's refusals in their order.
const ROW: [usize; 10] = [2, 17, 1, 3, 4, 5, 11, 12, 7, 16];

/// Every set of refusals at once: the first of the row is answered.
fn refusals(t: &mut Tally, rng: &mut Rng) {
    let mut right = order_case(rng, PATHS);
    for set in 0..1 << ROW.len() {
        let chosen: Vec<usize> = (0..ROW.len()).filter(|place| set >> place & 1 == 1).collect();
        if set % 16 == 8 {
            let n = rng.range(2, 9);
            right = order_case(rng, n);
        }
        let (n, mut c) = (right.n, right.clone());
        c.text = vec![b'!'; Draft::order(&c).text().len()];
        let i = rng.below(n - 1);
        let j = rng.range(i + 1, n - 1);
        // From the last to the first, so that no earlier table is of another size by then.
        for &place in chosen.iter().rev() {
            spoil(rng, &mut c, ROW[place], (i, j));
        }
        let want = chosen.first().map_or(0, |&place| ROW[place]);
        t.cases += 1;
        if let Some((answer, text)) = compare::order_write(t, &c) {
            let first = answer.number == want;
            t.check_of(Call::OrderWrite, "the first refusal of the row", &c, first);
            let bare = ![2, 17, 1, 16].contains(&want) || answer.place == 0;
            t.check_of(Call::OrderWrite, "2, 17, 1 and 16 have place 0", &c, bare);
            let kept = want == 0 || text == c.text;
            t.check_of(Call::OrderWrite, "a refusal leaves the text", &c, kept);
        }
    }
}

/// Makes a case that is refused with a number; i is the lower path. Some faults are past both.
pub fn spoil(rng: &mut Rng, c: &mut Case, number: usize, (i, j): (usize, usize)) {
    let length = rng.pick(&[0, 1, PATHS - 1, PATHS + 1, 2 * PATHS]);
    let either = rng.pick(&[i, j]);
    let any = rng.pick(&[i, j, c.n.max(1) - 1]);
    match number {
        16 => c.text.truncate(rng.below(c.text.len())),
        7 => c.starts[any] = rng.pick(&[0, 16_385, 32_768, 65_535]),
        12 => c.labels.copy_within(LABEL * i..LABEL * (i + 1), LABEL * j),
        11 => spoil_label(rng, c, any),
        5 => c.guards[cell(j, i)] = if c.guards[cell(j, i)] == 3 { NONE } else { 3 },
        4 => c.guards[rng.pick(&[cell(i, j), cell(j, i), cell(j, j)])] = rng.pick(&[33, 254]),
        3 => c.widths[either] = rng.pick(&[0, 65, 256, 257, 65_535]),
        1 => c.n = rng.pick(&[0, 129, 256 + c.n, (1 << 16) + c.n, (1 << 32) + c.n, usize::MAX]),
        17 => c.anchor = gen::wrong_anchor(rng),
        _ => match rng.below(4) {
            0 => c.widths.resize(length, 1),
            1 => c.guards.resize(rng.pick(&[0, length, CELLS - 1, CELLS + 1]), NONE),
            2 => c.starts.resize(length, 1),
            _ => c.labels.resize(rng.pick(&[0, length, LABELS - 1, LABELS + 1]), 0),
        },
    }
}

/// A cell of the labels that has no label's form, and differs from what it was.
pub fn spoil_label(rng: &mut Rng, c: &mut Case, path: usize) {
    let length = damage::label_text(c, path).len();
    let own = &mut c.labels[LABEL * path..LABEL * (path + 1)];
    match rng.below(4) {
        0 => own.fill(0),
        1 => own[0] = 0,
        2 if length < LABEL - 1 => own[LABEL - 1] = b'A',
        _ => own[rng.below(length)] = rng.pick(b"a z_/:@[.+*\n\t\x01\x7F\x80\xFF"),
    }
}
