//! The order sheet for filters on the ITU grid (RULES 27): the centre of a block, writing the
//! sheet, and reading it back beside its network.

use crate::calls::{self, refuse_at, sizes, Answer, Refusal};
use crate::net::*;
use crate::sheet::{self, Lines};

/// An anchor is at most so many steps of 6.25 GHz from 193.1 THz, on either side.
pub const MAX_ANCHOR: i32 = 1_024;
/// The bytes of the longest order sheet: `order 128`, and 128 lines of 18 bytes.
pub const LONGEST_ORDER: usize = 2_314;

/// 17: an anchor that is too far.
fn anchor_allowed(anchor: i32) -> Result<(), Refusal> {
    let far = !(-MAX_ANCHOR..=MAX_ANCHOR).contains(&anchor);
    refuse_at(17, far.then_some(0))
}

/// The n of a block: the middle between its lower and its upper edge, in steps from 193.1 THz. The
/// anchor is the lower edge of slot 1, and a slot has two steps.
fn middle(anchor: i32, start: usize, width: usize) -> i64 {
    let edge_above = |slots: usize| i64::from(anchor) + 2 * slots as i64;
    (edge_above(start - 1) + edge_above(start - 1 + width)) / 2
}

/// The start that gives a block of this width this n, if one does.
fn start_of(anchor: i32, width: usize, middle: i64) -> Option<usize> {
    let up = middle - width as i64 - i64::from(anchor);
    let whole = up.rem_euclid(2) == 0;
    let start = usize::try_from(up.div_euclid(2) + 1).ok()?;
    (whole && (1..=MAX_START).contains(&start)).then_some(start)
}

/// The bits of the double that is so many quarters of one, put together by hand: no sign; the place
/// of the highest bit, two less for the quarters, with 1,023 added; and what follows that bit.
fn bits_of_quarters(quarters: u64) -> u64 {
    let highest = u64::from(quarters.ilog2());
    let following = (quarters << (52 - highest)) - (1 << 52);
    ((1_023 + highest - 2) << 52) + following
}

/// Both calls for a centre: the number (17, 3, 7), and the bits of the double, which is 0.0 when
/// refused. A centre is 193,100 GHz and 6.25 GHz for each step: 772,400 quarters, and 25.
pub fn centre(anchor: i32, start: usize, width: usize) -> Answer {
    let run = || {
        anchor_allowed(anchor)?;
        refuse_at(3, (!(1..=MAX_WIDTH).contains(&width)).then_some(0))?;
        refuse_at(7, (!(1..=MAX_START).contains(&start)).then_some(0))?;
        let quarters = 772_400 + 25 * middle(anchor, start, width);
        let quarters = u64::try_from(quarters).expect("no anchor is 193 THz below");
        Ok(Answer::done(bits_of_quarters(quarters) as usize, 0))
    };
    Answer::of(run())
}

/// What both calls test first: 2, 17, 1, 3, 4, 5. The network.
fn tested(
    anchor: i32, n: usize, labels: &[u8], widths: &[u16], guards: &[u8], starts: &[u16],
) -> Result<Network, Refusal> {
    sizes(&[(labels.len(), LABELS), (widths.len(), PATHS)])?;
    sizes(&[(guards.len(), CELLS), (starts.len(), PATHS)])?;
    anchor_allowed(anchor)?;
    calls::network(n, widths, guards)
}

/// The writer: 2, 17, 1, 3, 4, 5, 11, 12, 7, 16. The length, and nothing changed past it.
pub fn write(
    anchor: i32, n: usize, labels: &[u8], widths: &[u16], guards: &[u8], starts: &[u16],
    text: &mut [u8],
) -> Answer {
    let mut run = || {
        let net = tested(anchor, n, labels, widths, guards, starts)?;
        let labels = sheet::labels_of(n, labels)?;
        let starts = calls::starts_of(n, starts)?;
        let mut sheet = format!("order {n}\n").into_bytes();
        for (path, label) in labels.iter().enumerate() {
            let width = net.width(path);
            sheet.extend_from_slice(label);
            sheet.extend(format!(" {} {width}\n", middle(anchor, starts[path], width)).bytes());
        }
        refuse_at(16, (sheet.len() > text.len()).then_some(0))?;
        text[..sheet.len()].copy_from_slice(&sheet);
        Ok(Answer::done(sheet.len(), 0))
    };
    Answer::of(run())
}

/// A number with a hyphen in front if it is negative; zero has none.
pub fn signed(field: &[u8]) -> Option<i64> {
    match field {
        [b'-', digits @ ..] => sheet::number(digits).filter(|&v| v > 0).map(|v| -(v as i64)),
        digits => sheet::number(digits).map(|v| v as i64),
    }
}

/// The lines of a sheet beside its network: 11, 1 in the first; then for each path 11, 13, 3, 7. A
/// cell of the labels that has no label's form is nobody's label.
fn starts_in(
    text: &[u8], anchor: i32, net: &Network, labels: &[u8],
) -> Result<Vec<usize>, Refusal> {
    let mut lines = Lines::new(text);
    if lines.count(b"order")? != net.paths() {
        return lines.wrong(1);
    }
    let mut starts = Vec::new();
    for path in 0..net.paths() {
        let fields = lines.fields(3)?;
        let label = lines.label_in(fields[0])?;
        let Some(middle) = signed(fields[1]) else {
            return lines.wrong(11);
        };
        let width = lines.number_in(fields[2])?;
        if sheet::label_in_table(labels, path) != Some(label) {
            return lines.wrong(13);
        }
        if width != net.width(path) {
            return lines.wrong(3);
        }
        let Some(start) = start_of(anchor, width, middle) else {
            return lines.wrong(7);
        };
        starts.push(start);
    }
    lines.end()?;
    Ok(starts)
}

/// The reader: 2, 17, 1, 3, 4, 5, and then the first line at fault. A refusal leaves the starts as
/// they were, and cells past n stay.
pub fn read(
    anchor: i32, text: &[u8], n: usize, labels: &[u8], widths: &[u16], guards: &[u8],
    starts: &mut [u16],
) -> Answer {
    let mut run = || {
        let net = tested(anchor, n, labels, widths, guards, starts)?;
        let found = starts_in(text, anchor, &net, labels)?;
        starts.iter_mut().zip(found).for_each(|(cell, start)| *cell = start as u16);
        Ok(Answer::done(0, 0))
    };
    Answer::of(run())
}
