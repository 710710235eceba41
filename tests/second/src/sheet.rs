//! RULES 13 to 15 and 19: reading, writing, and the plan program.

use crate::calls::{self, refuse, refuse_at, sizes, Answer, Refusal};
use crate::net::*;

/// What a sheet says, free of tables: labels as bytes, paths by number.
struct Sheet {
    labels: Vec<Vec<u8>>,
    widths: Vec<usize>,
    guards: Vec<(usize, usize, usize)>,
    starts: Option<Vec<usize>>,
}

/// The lines still to come, counted from 1.
pub struct Lines<'a> {
    rest: &'a [u8],
    number: usize,
}

impl<'a> Lines<'a> {
    pub fn new(text: &'a [u8]) -> Lines<'a> {
        Lines { rest: text, number: 0 }
    }

    /// The fields of the next line, which must be there, with its line feed, and have so many.
    /// If it is missing, it is refused at the number that it should have.
    pub fn fields(&mut self, count: usize) -> Result<Vec<&'a [u8]>, Refusal> {
        self.number += 1;
        let Some(length) = self.rest.iter().position(|&b| b == b'\n') else {
            return self.wrong(11);
        };
        let fields: Vec<&[u8]> = self.rest[..length].split(|&b| b == b' ').collect();
        self.rest = &self.rest[length + 1..];
        if fields.len() == count {
            Ok(fields)
        } else {
            self.wrong(11)
        }
    }

    /// A count line: the section's word and a number.
    pub fn count(&mut self, word: &[u8]) -> Result<usize, Refusal> {
        let fields = self.fields(2)?;
        if fields[0] != word {
            return self.wrong(11);
        }
        self.number_in(fields[1])
    }

    pub fn number_in(&self, field: &[u8]) -> Result<usize, Refusal> {
        number(field).map_or_else(|| self.wrong(11), Ok)
    }

    pub fn label_in(&self, field: &[u8]) -> Result<Vec<u8>, Refusal> {
        if is_label(field) {
            Ok(field.to_vec())
        } else {
            self.wrong(11)
        }
    }

    /// No line too many.
    pub fn end(&self) -> Result<(), Refusal> {
        match self.rest {
            [] => Ok(()),
            _ => refuse(11, self.number + 1),
        }
    }

    /// A refusal at the line read last.
    pub fn wrong<T>(&self, number: usize) -> Result<T, Refusal> {
        refuse(number, self.number)
    }
}

/// 1 to 5 digits, and no zero in front of others.
pub fn number(field: &[u8]) -> Option<usize> {
    let digits = (1..=5).contains(&field.len()) && field.iter().all(u8::is_ascii_digit);
    if !digits || (field[0] == b'0' && field.len() > 1) {
        return None;
    }
    Some(field.iter().fold(0, |value, digit| 10 * value + usize::from(digit - b'0')))
}

/// 1 to 8 digits, capitals or hyphens.
pub fn is_label(bytes: &[u8]) -> bool {
    let allowed = |b: &u8| matches!(b, b'0'..=b'9' | b'A'..=b'Z' | b'-');
    (1..=LABEL).contains(&bytes.len()) && bytes.iter().all(allowed)
}

/// The sections, one after the other, each headed by its count.
fn parse(text: &[u8]) -> Result<Sheet, Refusal> {
    let mut lines = Lines::new(text);
    let (labels, widths) = parse_paths(&mut lines)?;
    let guards = parse_guards(&mut lines, &labels)?;
    let starts = match lines.rest {
        [] => None,
        _ => Some(parse_starts(&mut lines, &labels)?),
    };
    lines.end()?;
    Ok(Sheet { labels, widths, guards, starts })
}

/// The paths: 11, 1 in their count line; then 11, 12, 3.
fn parse_paths(lines: &mut Lines) -> Result<(Vec<Vec<u8>>, Vec<usize>), Refusal> {
    let (mut labels, mut widths) = (Vec::new(), Vec::new());
    let n = lines.count(b"paths")?;
    if !(1..=PATHS).contains(&n) {
        return lines.wrong(1);
    }
    for _ in 0..n {
        let fields = lines.fields(2)?;
        let label = lines.label_in(fields[0])?;
        let width = lines.number_in(fields[1])?;
        if labels.contains(&label) {
            return lines.wrong(12);
        }
        if !(1..=MAX_WIDTH).contains(&width) {
            return lines.wrong(3);
        }
        labels.push(label);
        widths.push(width);
    }
    Ok((labels, widths))
}

/// The guards: 11, 1 in their count line; then 11, 13, 14, 4.
fn parse_guards(
    lines: &mut Lines, labels: &[Vec<u8>],
) -> Result<Vec<(usize, usize, usize)>, Refusal> {
    let mut guards: Vec<(usize, usize, usize)> = Vec::new();
    let count = lines.count(b"guards")?;
    if count > MAX_PAIRS {
        return lines.wrong(1);
    }
    for _ in 0..count {
        let fields = lines.fields(3)?;
        let one = lines.label_in(fields[0])?;
        let two = lines.label_in(fields[1])?;
        let guard = lines.number_in(fields[2])?;
        let known = |label: &Vec<u8>| labels.iter().position(|l| l == label);
        let (Some(i), Some(j)) = (known(&one), known(&two)) else {
            return lines.wrong(13);
        };
        if i == j {
            return lines.wrong(13);
        }
        let (i, j) = (i.min(j), i.max(j));
        if guards.iter().any(|&(a, b, _)| (a, b) == (i, j)) {
            return lines.wrong(14);
        }
        if guard > MAX_GUARD {
            return lines.wrong(4);
        }
        guards.push((i, j, guard));
    }
    Ok(guards)
}

/// The starts: 11, 1 in their count line; then 11, 13, 7.
fn parse_starts(lines: &mut Lines, labels: &[Vec<u8>]) -> Result<Vec<usize>, Refusal> {
    let mut starts = Vec::new();
    if lines.count(b"starts")? != labels.len() {
        return lines.wrong(1);
    }
    for own in labels {
        let fields = lines.fields(2)?;
        let label = lines.label_in(fields[0])?;
        let start = lines.number_in(fields[1])?;
        if label != *own {
            return lines.wrong(13);
        }
        if !(1..=MAX_START).contains(&start) {
            return lines.wrong(7);
        }
        starts.push(start);
    }
    Ok(starts)
}

/// The reader (RULES 14): 2, and else the first line at fault. Cells past n are cleared, and all
/// cells where it refuses with anything but 2.
pub fn read(
    text: &[u8], labels: &mut [u8], widths: &mut [u16], guards: &mut [u8], starts: &mut [u16],
) -> Answer {
    let fixed = [
        (labels.len(), LABELS),
        (widths.len(), PATHS),
        (guards.len(), CELLS),
        (starts.len(), PATHS),
    ];
    if let Err(refusal) = sizes(&fixed) {
        return Answer::of(Err(refusal));
    }
    labels.fill(0);
    widths.fill(0);
    guards.fill(NONE);
    starts.fill(0);
    let mut run = || {
        let sheet = parse(text)?;
        for (i, label) in sheet.labels.iter().enumerate() {
            labels[LABEL * i..LABEL * i + label.len()].copy_from_slice(label);
            widths[i] = sheet.widths[i] as u16;
            starts[i] = sheet.starts.as_ref().map_or(0, |all| all[i]) as u16;
        }
        for &(i, j, guard) in &sheet.guards {
            guards[cell(i, j)] = guard as u8;
            guards[cell(j, i)] = guard as u8;
        }
        Ok(Answer::done(sheet.labels.len(), 0))
    };
    Answer::of(run())
}

/// The label in a path's eight bytes, with zeros after it, if it has the form.
pub fn label_in_table(labels: &[u8], path: usize) -> Option<Vec<u8>> {
    let bytes = &labels[LABEL * path..LABEL * (path + 1)];
    let length = bytes.iter().position(|&b| b == 0).unwrap_or(LABEL);
    let filled = bytes[length..].iter().all(|&b| b == 0);
    (filled && is_label(&bytes[..length])).then(|| bytes[..length].to_vec())
}

/// 11 for the form of a label, over all paths; then 12 for one that an earlier path has.
pub fn labels_of(n: usize, labels: &[u8]) -> Result<Vec<Vec<u8>>, Refusal> {
    let found: Vec<Option<Vec<u8>>> = (0..n).map(|i| label_in_table(labels, i)).collect();
    refuse_at(11, found.iter().position(Option::is_none))?;
    refuse_at(12, (0..n).find(|&i| found[..i].contains(&found[i])))?;
    Ok(found.into_iter().flatten().collect())
}

/// The writer's tests, in the order of RULES 18.
fn sheet_of(
    n: usize, labels: &[u8], widths: &[u16], guards: &[u8], starts: &[u16],
) -> Result<Sheet, Refusal> {
    sizes(&[(labels.len(), LABELS), (widths.len(), PATHS)])?;
    sizes(&[(guards.len(), CELLS), (starts.len(), PATHS)])?;
    let net = calls::network(n, widths, guards)?;
    let labels = labels_of(n, labels)?;
    let guards = net.conflicts();
    refuse_at(1, (guards.len() > MAX_PAIRS).then_some(0))?;
    // the starts are written where there is a plan, and then 0 is no start
    let planned = starts[..n].iter().any(|&s| s != 0);
    let starts = if planned { Some(calls::starts_of(n, starts)?) } else { None };
    Ok(Sheet { labels, widths: (0..n).map(|i| net.width(i)).collect(), guards, starts })
}

/// RULES 15: guard lines by first path, then by second, the lower path first.
fn text_of(sheet: &Sheet) -> Vec<u8> {
    let label = |i: usize| String::from_utf8_lossy(&sheet.labels[i]).into_owned();
    let mut text = format!("paths {}\n", sheet.labels.len());
    for (i, width) in sheet.widths.iter().enumerate() {
        text += &format!("{} {}\n", label(i), width);
    }
    text += &format!("guards {}\n", sheet.guards.len());
    for &(i, j, guard) in &sheet.guards {
        text += &format!("{} {} {}\n", label(i), label(j), guard);
    }
    if let Some(starts) = &sheet.starts {
        text += &format!("starts {}\n", starts.len());
        for (i, start) in starts.iter().enumerate() {
            text += &format!("{} {}\n", label(i), start);
        }
    }
    text.into_bytes()
}

/// The writer (RULES 15): the length, and nothing changed past it.
pub fn write(
    n: usize, labels: &[u8], widths: &[u16], guards: &[u8], starts: &[u16], text: &mut [u8],
) -> Answer {
    let mut run = || {
        let sheet = text_of(&sheet_of(n, labels, widths, guards, starts)?);
        refuse_at(16, (sheet.len() > text.len()).then_some(0))?;
        text[..sheet.len()].copy_from_slice(&sheet);
        Ok(Answer::done(sheet.len(), 0))
    };
    Answer::of(run())
}

/// RULES 19: the sheet with its plan, or the one line of a refusal.
pub fn program(text: &[u8]) -> Vec<u8> {
    let (mut labels, mut widths) = (vec![0; LABELS], vec![0; PATHS]);
    let (mut guards, mut starts) = (vec![0; CELLS], vec![0; PATHS]);
    let read = read(text, &mut labels, &mut widths, &mut guards, &mut starts);
    if read.number != 0 {
        return format!("refused {} line {}\n", read.number, read.place).into_bytes();
    }
    let n = read.more[0];
    let mut order = vec![0; PATHS];
    let planned = calls::plan(n, &widths, &guards, &mut order, &mut starts, 1, 1_000);
    assert_eq!(planned.number, 0, "a sheet that was read can be planned");
    let mut room = vec![0; LONGEST_SHEET];
    let written = write(n, &labels, &widths, &guards, &starts, &mut room);
    assert_eq!(written.number, 0, "a sheet that was planned can be written");
    room.truncate(written.more[0]);
    room
}
