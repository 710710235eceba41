//! The order sheet in plain Rust, read and written: what the library's is held against. The sizes of
//! tables are not tested, since a table has its size by its type.

use crate::sheet::{put_line, put_number, test_network, Reader, Refused, Tables};

/// What reading and writing test first: 17, 1, 3, 4, 5.
fn test(anchor: i32, t: &Tables) -> Result<(), Refused> {
    if !(-1024..=1024).contains(&anchor) {
        return Err((17, 0));
    }
    test_network(t)
}

/// A label of digits, capitals and hyphens, and zero bytes to the end of its row.
fn is_label(row: &[u8; 8]) -> bool {
    let right = |b: &u8| b.is_ascii_digit() || b.is_ascii_uppercase() || *b == b'-';
    let length = row.iter().position(|&b| b == 0).unwrap_or(8);
    length > 0 && row[..length].iter().all(right) && row[length..].iter().all(|&b| b == 0)
}

/// The writer's further tests: 11, 12, 7. Two labels are equal where their rows are.
fn test_lines(t: &Tables) -> Result<(), Refused> {
    let rows = &t.labels.as_chunks().0[..t.n];
    if let Some(k) = rows.iter().position(|row| !is_label(row)) {
        return Err((11, k));
    }
    if let Some(k) = (0..t.n).find(|&k| rows[..k].contains(&rows[k])) {
        return Err((12, k));
    }
    match t.starts[..t.n].iter().position(|start| !(1..=16384).contains(start)) {
        Some(k) => Err((7, k)),
        None => Ok(()),
    }
}

/// Tests and writes; 16 is not met, since the text grows.
pub fn write(anchor: i32, t: &Tables, text: &mut Vec<u8>) -> Result<usize, Refused> {
    test(anchor, t)?;
    test_lines(t)?;
    text.clear();
    put_line(text, &[b"order"], t.n);
    for k in 0..t.n {
        let (start, width) = (t.starts[k] as i32, t.widths[k]);
        let n = anchor + 2 * (start - 1) + width as i32;
        text.extend_from_slice(t.label(k));
        text.extend_from_slice(if n < 0 { b" -" } else { b" " });
        put_number(text, n.unsigned_abs() as usize);
        text.push(b' ');
        put_number(text, width as usize);
        text.push(b'\n');
    }
    Ok(text.len())
}

/// A number, or one below 0 with a hyphen.
fn signed(r: &Reader, field: &[u8]) -> Result<i32, Refused> {
    match field.strip_prefix(b"-") {
        Some(b"0") => Err((11, r.line)),
        Some(digits) => Ok(-(r.number(digits)? as i32)),
        None => Ok(r.number(field)? as i32),
    }
}

/// Tests and reads; the starts change only where no line is at fault.
pub fn read(anchor: i32, text: &[u8], t: &Tables, starts: &mut [u16; 128]) -> Result<(), Refused> {
    test(anchor, t)?;
    let mut r = Reader { text, line: 0 };
    let mut found = *starts;
    if r.count(b"order")? != t.n {
        return Err((1, r.line));
    }
    for k in 0..t.n {
        let [l, n, m] = r.fields()?;
        let (label, n, m) = (r.label(l)?, signed(&r, n)?, r.number(m)?);
        if label != t.label(k) {
            return Err((13, r.line));
        }
        if m != t.widths[k] as usize {
            return Err((3, r.line));
        }
        let above = n - anchor - m as i32;
        if above % 2 != 0 || !(0..2 * 16384).contains(&above) {
            return Err((7, r.line));
        }
        found[k] = (above / 2 + 1) as u16;
    }
    if !r.text.is_empty() {
        return Err((11, r.line + 1));
    }
    *starts = found;
    Ok(())
}
