//! Self-checks of the order sheet that need no library: what RULES 27 says, worked by hand, on
//! this program's own implementation.

use crate::calls::Answer;
use crate::net::*;
use crate::order;

/// The n of a block of one path, as the writer puts it down.
fn steps(anchor: i32, start: u16, width: u16) -> String {
    let text = written(anchor, &[width], &[start]).expect("an order sheet");
    text.split(' ').nth(2).expect("a label, n and m").into()
}

const NAMES: [&str; 3] = ["0417", "417", "A9"];

fn labels(names: &[&str]) -> Vec<u8> {
    let mut table = vec![0; LABELS];
    for (i, name) in names.iter().enumerate() {
        table[LABEL * i..LABEL * i + name.len()].copy_from_slice(name.as_bytes());
    }
    table
}

fn long(first: &[u16], rest: u16) -> Vec<u16> {
    let mut table = first.to_vec();
    table.resize(PATHS, rest);
    table
}

/// Tables without a conflict, and what they are: the sheet, or the number and place.
fn written(anchor: i32, widths: &[u16], starts: &[u16]) -> Result<String, (usize, usize)> {
    let (mut text, guards) = (vec![b'.'; 60], vec![NONE; CELLS]);
    let (n, widths, starts) = (widths.len(), long(widths, 0), long(starts, 0));
    let got = order::write(anchor, n, &labels(&NAMES), &widths, &guards, &starts, &mut text);
    assert!(text[got.more[0]..].iter().all(|&b| b == b'.'));
    text.truncate(got.more[0]);
    match got.number {
        0 => Ok(String::from_utf8(text).expect("it writes text")),
        number => Err((number, got.place)),
    }
}

/// n = anchor + 2(b - 1) + w, from the lowest to the highest.
#[test]
fn steps_of_a_block() {
    assert_eq!(steps(0, 1, 4), "4");
    assert_eq!(steps(-1_024, 1, 1), "-1023");
    assert_eq!(steps(1_024, 16_384, 64), "33854");
    assert_eq!(steps(-4, 1, 4), "0");
    assert_eq!(steps(-5, 1, 4), "-1");
    assert_eq!(steps(7, 3, 2), "13");
}

/// 193.1 THz is n = 0; slot 1 of width 4 from there has its centre 25 GHz up, of width 1 6.25 GHz.
#[test]
fn centres_by_hand() {
    let centre = |anchor: i32, start: usize, width: usize| {
        let got = order::centre(anchor, start, width);
        assert_eq!((got.number, got.place), (0, 0));
        f64::from_bits(got.more[0] as u64)
    };
    assert_eq!(centre(-4, 1, 4), 193_100.0);
    assert_eq!(centre(0, 1, 4), 193_125.0);
    assert_eq!(centre(0, 1, 1), 193_106.25);
    assert_eq!(centre(0, 2, 1), 193_118.75);
    assert_eq!(centre(-2, 1, 1), 193_093.75);
    assert_eq!(centre(-1_024, 1, 1), 186_706.25);
    assert_eq!(centre(1_024, 16_384, 64), 404_687.5);
}

/// Each n there is: the bits by hand are those of 193,100 + 6.25n.
#[test]
fn centres_of_every_n() {
    let same = |anchor: i32, start: usize, width: usize| {
        let n = f64::from(anchor) + 2.0 * (start as f64 - 1.0) + width as f64;
        let bits = (193_100.0 + 6.25 * n).to_bits();
        assert_eq!(order::centre(anchor, start, width), Answer::done(bits as usize, 0));
    };
    (-1_024..=1_024).for_each(|anchor| same(anchor, 1, 1));
    for start in 1..=MAX_START {
        same(-1_024, start, 1);
        same(-1_024, start, 2);
        same(1_024, start, 63);
        same(1_024, start, 64);
    }
}

/// The arguments are anchor, start and width: 17, then 3, then 7.
#[test]
fn centres_refused() {
    let refused = |anchor: i32, start: usize, width: usize, number: usize| {
        let got = order::centre(anchor, start, width);
        assert_eq!(got, Answer::new(number, 0, [0, 0]));
    };
    refused(1_025, 0, 0, 17);
    refused(-1_025, 1, 1, 17);
    refused(i32::MIN, usize::MAX, usize::MAX, 17);
    refused(0, 0, 0, 3);
    refused(0, 1, 65, 3);
    refused(0, usize::MAX, usize::MAX, 3);
    refused(0, 0, 1, 7);
    refused(1_024, 16_385, 64, 7);
    refused(-1_024, usize::MAX, 1, 7);
}

#[test]
fn sheets_written() {
    let sheet = "order 3\n0417 2 2\n417 10 4\nA9 19 1\n";
    assert_eq!(written(0, &[2, 4, 1], &[1, 4, 10]), Ok(sheet.into()));
    let low = "order 3\n0417 -8 2\n417 0 4\nA9 9 1\n";
    assert_eq!(written(-10, &[2, 4, 1], &[1, 4, 10]), Ok(low.into()));
    // starts that would clash are no fault, 0 always is
    assert_eq!(written(0, &[1, 1], &[5, 5]), Ok("order 2\n0417 9 1\n417 9 1\n".into()));
    assert_eq!(written(0, &[1, 1], &[0, 0]), Err((7, 0)));
    assert_eq!(written(0, &[1, 1], &[16_384, 0]), Err((7, 1)));
    assert_eq!(written(0, &[1, 1], &[16_385, 0]), Err((7, 0)));
    assert_eq!(written(1_025, &[0, 1], &[0, 0]), Err((17, 0)));
    assert_eq!(written(-1_025, &[], &[]), Err((17, 0)));
    assert_eq!(written(-1_024, &[], &[]), Err((1, 0)));
    assert_eq!(written(0, &[1, 65], &[0, 0]), Err((3, 1)));
}

/// The longest sheet has 10 + 128 x 18 bytes, and the text may not be a byte shorter.
#[test]
fn the_longest_order() {
    let c = crate::gen::longest(&mut crate::gen::Rng::new(1, 0, 0));
    let write = |room: usize| {
        let mut text = vec![b'.'; room];
        let got = order::write(0, c.n, &c.labels, &c.widths, &c.guards, &c.starts, &mut text);
        (got, text)
    };
    assert_eq!(order::LONGEST_ORDER, 10 + 128 * 18);
    assert_eq!(write(2_400).0, Answer::done(order::LONGEST_ORDER, 0));
    assert_eq!(write(2_314).0, Answer::done(order::LONGEST_ORDER, 0));
    assert_eq!(write(2_313), (Answer::new(16, 0, [0, 0]), vec![b'.'; 2_313]));
}

/// Reads a text beside paths 0417 of width 2 and 417 of width 4: the starts, or number and line.
fn read(anchor: i32, text: &str) -> Result<[u16; 2], (usize, usize)> {
    let (widths, guards) = (long(&[2, 4], 0), vec![NONE; CELLS]);
    let mut starts = vec![77; PATHS];
    let names = labels(&NAMES);
    let got = order::read(anchor, text.as_bytes(), 2, &names, &widths, &guards, &mut starts);
    let changed = if got.number == 0 { 2 } else { 0 };
    assert!(starts[changed..].iter().all(|&start| start == 77));
    match got.number {
        0 => Ok([starts[0], starts[1]]),
        number => Err((number, got.place)),
    }
}

/// The same with the second path's line alone in doubt; anchor 0.
fn line(text: &str) -> Result<u16, (usize, usize)> {
    read(0, &format!("order 2\n0417 2 2\n{text}\n")).map(|starts| starts[1])
}

#[test]
fn sheets_read() {
    assert_eq!(read(0, "order 2\n0417 2 2\n417 10 4\n"), Ok([1, 4]));
    assert_eq!(read(-10, "order 2\n0417 -8 2\n417 0 4\n"), Ok([1, 4]));
    assert_eq!(read(1_024, "order 2\n0417 33792 2\n417 33794 4\n"), Ok([16_384, 16_384]));
    assert_eq!(read(1_024, "order 2\n0417 33794 2\n417 33794 4\n"), Err((7, 2)));
    assert_eq!(read(-1_024, "order 2\n0417 -1022 2\n417 -1020 4\n"), Ok([1, 1]));
    assert_eq!(read(-1_024, "order 2\n0417 -1024 2\n417 -1020 4\n"), Err((7, 2)));
    assert_eq!(read(1_025, ""), Err((17, 0)));
    assert_eq!(read(0, ""), Err((11, 1)));
    assert_eq!(read(0, "order 3\n"), Err((1, 1)));
    assert_eq!(read(0, "order 2"), Err((11, 1)));
    assert_eq!(read(0, "order 2\n"), Err((11, 2)));
    assert_eq!(read(0, "order 2\n0417 2 2\n"), Err((11, 3)));
    assert_eq!(read(0, "order 2\n0417 2 2\n417 10 4"), Err((11, 3)));
    assert_eq!(read(0, "order 2\n0417 2 2\n417 10 4\n\n"), Err((11, 4)));
    assert_eq!(read(0, "order 2\n0417 2 2\n417 10 4\nA9 1 1\n"), Err((11, 4)));
    assert_eq!(read(0, "order 2\n417 10 4\n0417 2 2\n"), Err((13, 2)));
}

/// A hyphen stands before a negative number alone, and m has none.
#[test]
fn lines_of_wrong_form() {
    for n in ["-0", "-", "+1", "-01", "--1", "-123456", "123456", "", "00", "1-", "1.0"] {
        assert_eq!(line(&format!("417 {n} 4")), Err((11, 3)));
    }
    for text in ["417 10 -4", "417 10 04", "417 10", "417 10 4 ", "417 10 4 4", "417  10 4", ""] {
        assert_eq!(line(text), Err((11, 3)));
    }
    assert_eq!(line("417 -99999 4"), Err((7, 3)));
    assert_eq!(line("417 99999 4"), Err((7, 3)));
    assert_eq!(line("417 0 4"), Err((7, 3)));
}

/// Form, then label, then m, then n: not from left to right.
#[test]
fn faults_of_a_line() {
    assert_eq!(line("0417 -0 5"), Err((11, 3)));
    assert_eq!(line("0417 11 5"), Err((13, 3)));
    assert_eq!(line("00417 10 4"), Err((13, 3)));
    assert_eq!(line("417 11 5"), Err((3, 3)));
    assert_eq!(line("417 10 65540"), Err((3, 3)));
    assert_eq!(line("417 11 4"), Err((7, 3)));
    assert_eq!(line("417 2 4"), Err((7, 3)));
    assert_eq!(line("417 3 4"), Err((7, 3)));
    assert_eq!(line("417 4 4"), Ok(1));
    assert_eq!(line("417 32770 4"), Ok(16_384));
    assert_eq!(line("417 32772 4"), Err((7, 3)));
    assert_eq!(line("417 65540 4"), Err((7, 3)));
    assert_eq!(line("417 65546 4"), Err((7, 3)));
}

/// The labels that are lent are not tested: one of no form is nobody's, and one that two paths have
/// is both theirs.
#[test]
fn labels_beside_an_order() {
    let (widths, guards) = (long(&[2, 4], 0), vec![NONE; CELLS]);
    let read = |labels: &[u8], text: &str| {
        let mut starts = long(&[], 9);
        let got = order::read(0, text.as_bytes(), 2, labels, &widths, &guards, &mut starts);
        (got.number, got.place)
    };
    let twice = labels(&["A", "A"]);
    assert_eq!(read(&twice, "order 2\nA 2 2\nA 10 4\n"), (0, 0));
    let mut broken = labels(&["A", "B"]);
    broken[LABEL + 2] = b'B';
    assert_eq!(read(&broken, "order 2\nA 2 2\nB 10 4\n"), (13, 3));
    assert_eq!(read(&labels(&["A"]), "order 2\nA 2 2\nB 10 4\n"), (13, 3));
    assert_eq!(read(&labels(&["A"]), "order 2\nA 2 2\n 10 4\n"), (11, 3));
}
