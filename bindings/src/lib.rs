//! Frequency slots for lightpaths, over lent tables: the Nesbrunka library for Rust.
//!
//! Every table has one fixed size, whatever n, the number of paths, is (1 to 128); paths are
//! numbered from 0. A slice of another length is refused, so that a call asks nothing of its
//! caller beyond Rust's own rules.
//!
//! | table | cells | each |
//! |---|---|---|
//! | widths | [`PATHS`] | 1 to [`WIDTH_MOST`] slots |
//! | guards | [`CELLS`] | the cell of i and j is 128i + j: 0 to [`GUARD_MOST`] is a conflict with that guard, [`NO_CONFLICT`] is none; the diagonal is none, the cells of i, j and j, i are equal |
//! | starts | [`PATHS`] | 1 to [`START_MOST`]; 0 is no start |
//! | order | [`PATHS`] | the first n hold each of 0 to n-1 once |
//! | chain | [`PATHS`] | the paths that [`why`] names |
//! | labels | [`LABELS`] | [`LABEL`] bytes a path, filled at the end with zero bytes |
//!
//! Each answer has a number, [`DONE`] or one of the refusals below, and its place; the other
//! numbers of a refused answer are 0, but for `short` beside [`REFUSED_CLASH`]. A refusal leaves
//! every table as it was, except that those of [`read`] other than [`REFUSED_SIZE`] leave its four
//! tables cleared: widths and starts 0, guards 255, labels 0. Cells of index n or more are not
//! tested, and calls other than [`read`] leave them as they are. The library keeps no state and
//! allocates nothing.
//!
//! Filters are ordered by ITU-T G.694.1: a centre lies n steps of 6.25 GHz above 193.1 THz, or
//! below it where n is negative, and a width is m times 12.5 GHz. A slot is 12.5 GHz wide. The
//! anchor is the lower edge of slot 1, in steps of 6.25 GHz from 193.1 THz. So a block of width w
//! at start b has n = anchor + 2(b-1) + w and m = w, and its centre is at 193,100 + 6.25n GHz.
//!
//! ```
//! use nesbrunka::{plan, CELLS, DONE, NO_CONFLICT, PATHS};
//!
//! // Two paths of 3 and 5 slots, two empty slots between them.
//! let mut widths = [0; PATHS];
//! let mut guards = [NO_CONFLICT; CELLS];
//! (widths[0], widths[1]) = (3, 5);
//! (guards[1], guards[PATHS]) = (2, 2);
//! let (mut order, mut starts) = ([0; PATHS], [0; PATHS]);
//! let planned = plan(2, &widths, &guards, &mut order, &mut starts, 1, 1000);
//! assert_eq!((planned.number, planned.highest), (DONE, 10));
//! assert_eq!(starts[..2], [1, 6]);
//! ```
#![no_std]
#![deny(missing_docs)]

// A pointer and its length stay on one line.
#[rustfmt::skip]
pub mod sys;

pub use sys::{Floored, Judged, Ordered, Packed, Planned, Pressed, Reason};
pub use sys::{SheetRead, SheetWritten, Sided};

/// Cells of widths, of starts, of an order and of a chain; the most paths.
pub const PATHS: usize = 128;
/// Cells of guards.
pub const CELLS: usize = 16384;
/// Bytes of a label.
pub const LABEL: usize = 8;
/// Bytes of all labels.
pub const LABELS: usize = 1024;
/// The widest path, in slots.
pub const WIDTH_MOST: u16 = 64;
/// The largest guard, in slots.
pub const GUARD_MOST: u8 = 32;
/// A guard cell of two paths that are not in conflict.
pub const NO_CONFLICT: u8 = 255;
/// The highest start.
pub const START_MOST: u16 = 16384;
/// The most rounds of planning and improving.
pub const ROUNDS_MOST: usize = 10000;
/// The most paths in a floor's list.
pub const LIST_MOST: usize = 8;
/// The most conflicting pairs in a sheet.
pub const PAIRS_MOST: usize = 2000;
/// Bytes of the longest sheet.
pub const SHEET_MOST: usize = 45489;
/// The highest anchor; the lowest is -1,024.
pub const ANCHOR_MOST: i32 = 1024;
/// Bytes of the longest order sheet.
pub const ORDER_MOST: usize = 2314;

/// Done. Place 0.
pub const DONE: usize = 0;
/// n outside 1 to 128; over 2,000 pairs; in a sheet a count that cannot be, in an order sheet one
/// that is not n. Place: the line, else 0.
pub const REFUSED_COUNT: usize = 1;
/// A table has not its size. Place 0.
pub const REFUSED_SIZE: usize = 2;
/// A width outside 1 to 64; in an order sheet an m that is not the path's width. Place: the path or
/// line.
pub const REFUSED_WIDTH: usize = 3;
/// A guard that is neither 0 to 32 nor 255, a diagonal that is not 255; in a sheet, over 32. Place:
/// the cell or line.
pub const REFUSED_GUARD: usize = 4;
/// The two cells of a pair differ. Place: the cell above the diagonal.
pub const REFUSED_MIRROR: usize = 5;
/// An order's entry is no path, or comes twice. Place: its position.
pub const REFUSED_ENTRY: usize = 6;
/// A start outside 1 to 16,384; in an order sheet an n that gives none. Place: the path or line.
pub const REFUSED_START: usize = 7;
/// A conflicting pair is too close. Place: its cell above the diagonal. `short` says by how many
/// slots: the upper path of the two moved up by so many is clear of the lower.
pub const REFUSED_CLASH: usize = 8;
/// The network has no two sides. Place 0.
pub const REFUSED_NO_SIDES: usize = 9;
/// More than 10,000 rounds. Place 0.
pub const REFUSED_ROUNDS: usize = 10;
/// A line has not its form; in the writer, a label. Place: the line or path.
pub const REFUSED_FORM: usize = 11;
/// A label comes twice. Place: the later line or path.
pub const REFUSED_LABEL_TWICE: usize = 12;
/// A guard line names no path or one path twice; a start's or an order's line names another path.
/// Place: the line.
pub const REFUSED_LABEL_UNKNOWN: usize = 13;
/// A pair comes twice. Place: the line.
pub const REFUSED_PAIR_TWICE: usize = 14;
/// A floor's list of no or over 8 paths; an entry that is no path, comes twice or lacks a conflict.
/// Place: the position, else 0.
pub const REFUSED_LIST: usize = 15;
/// The sheet does not fit into the lent text. Place 0.
pub const REFUSED_ROOM: usize = 16;
/// An anchor outside -1,024 to 1,024. Place 0.
pub const REFUSED_ANCHOR: usize = 17;

/// Judges a plan: of each conflicting pair one path lies above the other, with at least their guard
/// between. Where it is refused by 8, `short` says how many slots the pair lacks.
///
/// Tests in this order: 2, 1, 3, 4, 5, 7, 8.
#[inline]
pub fn judge(n: usize, widths: &[u16], guards: &[u8], starts: &[u16]) -> Judged {
    let (w, g, s) = (widths.as_ptr(), guards.as_ptr(), starts.as_ptr());
    // SAFETY: each pointer and length are those of one slice, and nothing is written.
    unsafe { sys::nesbrunka_judge(n, w, widths.len(), g, guards.len(), s, starts.len()) }
}

/// Packs an order into the first n starts: each path in turn gets the lowest start past all earlier
/// paths in conflict with it.
///
/// Tests in this order: 2, 1, 3, 4, 5, 6.
#[inline]
pub fn pack(n: usize, widths: &[u16], guards: &[u8], order: &[u8], starts: &mut [u16]) -> Packed {
    let (w, g) = (widths.as_ptr(), guards.as_ptr());
    let (o, s) = (order.as_ptr(), starts.as_mut_ptr());
    // SAFETY: each pointer and length are those of one slice; the one written is borrowed alone.
    unsafe {
        sys::nesbrunka_pack(n, w, widths.len(), g, guards.len(), o, order.len(), s, starts.len())
    }
}

/// Presses a valid plan: its paths by start, of equal starts the lower number first, packed in that
/// order into the first n starts.
///
/// Tests in this order: 2, 1, 3, 4, 5, 7, 8.
#[inline]
pub fn press(n: usize, widths: &[u16], guards: &[u8], starts: &mut [u16]) -> Pressed {
    let (w, g, s) = (widths.as_ptr(), guards.as_ptr(), starts.as_mut_ptr());
    // SAFETY: each pointer and length are those of one slice; the one written is borrowed alone.
    unsafe { sys::nesbrunka_press(n, w, widths.len(), g, guards.len(), s, starts.len()) }
}

/// Why a path of a valid plan stands where it stands: the first `length` cells of `chain` name the
/// path and then each time the lowest number among those that hold the one before up, being in
/// conflict with it, below it, and no slot further than the guard. It ends in slot 1, or at a path
/// that nothing holds up and that can come down by `down` slots.
///
/// Tests in this order: 2, 1, 3, 4, 5, 7, 8, and 6 with place 0 for a path of n or more.
#[inline]
pub fn why(
    n: usize, widths: &[u16], guards: &[u8], starts: &[u16], path: usize, chain: &mut [u8],
) -> Reason {
    let (w, g) = (widths.as_ptr(), guards.as_ptr());
    let (s, c) = (starts.as_ptr(), chain.as_mut_ptr());
    // SAFETY: each pointer and length are those of one slice; the one written is borrowed alone.
    unsafe {
        sys::nesbrunka_why(
            n,
            w,
            widths.len(),
            g,
            guards.len(),
            s,
            starts.len(),
            path,
            c,
            chain.len(),
        )
    }
}

/// The first n entries of the better of two orders, that part itself: of the one whose packing has
/// the lower highest slot, of the first where they are equal.
///
/// Empty where one of the two cannot be packed.
#[inline]
pub fn better<'a>(
    n: usize, widths: &[u16], guards: &[u8], first: &'a [u8], second: &'a [u8],
) -> &'a [u8] {
    let (w, g) = (widths.as_ptr(), guards.as_ptr());
    let (f, s) = (first.as_ptr(), second.as_ptr());
    // SAFETY: each pointer and length are those of one slice, and nothing is written.
    let which = unsafe {
        sys::nesbrunka_better(n, w, widths.len(), g, guards.len(), f, first.len(), s, second.len())
    };
    match which {
        1 => &first[..n],
        2 => &second[..n],
        _ => &first[..0],
    }
}

/// The two-sided order, the low paths first, into the first n entries of `order`. Answers how many
/// are low.
///
/// Tests in this order: 2, 1, 3, 4, 5, 9.
#[inline]
pub fn two_sides(n: usize, widths: &[u16], guards: &[u8], order: &mut [u8]) -> Sided {
    let (w, g, o) = (widths.as_ptr(), guards.as_ptr(), order.as_mut_ptr());
    // SAFETY: each pointer and length are those of one slice; the one written is borrowed alone.
    unsafe { sys::nesbrunka_two_sides(n, w, widths.len(), g, guards.len(), o, order.len()) }
}

/// Plans: where there are two sides the best plan outright, else the greedy order, improved. Writes
/// the first n entries of the order and the first n starts; what stood there is not tested.
///
/// Tests in this order: 2, 1, 3, 4, 5, 10.
#[inline]
pub fn plan(
    n: usize, widths: &[u16], guards: &[u8], order: &mut [u8], starts: &mut [u16], seed: u32,
    rounds: usize,
) -> Planned {
    let (w, g) = (widths.as_ptr(), guards.as_ptr());
    let (o, s) = (order.as_mut_ptr(), starts.as_mut_ptr());
    // SAFETY: each pointer and length are those of one slice; those written are borrowed alone.
    unsafe {
        sys::nesbrunka_plan(
            n,
            w,
            widths.len(),
            g,
            guards.len(),
            o,
            order.len(),
            s,
            starts.len(),
            seed,
            rounds,
        )
    }
}

/// Improves an order: each round tries one swap of two drawn places, and undoes it unless the
/// highest slot falls. Writes the first n entries of the order and
/// the first n starts.
///
/// Tests in this order: 2, 1, 3, 4, 5, 6, 10.
#[inline]
pub fn improve(
    n: usize, widths: &[u16], guards: &[u8], order: &mut [u8], starts: &mut [u16], seed: u32,
    rounds: usize,
) -> Planned {
    let (w, g) = (widths.as_ptr(), guards.as_ptr());
    let (o, s) = (order.as_mut_ptr(), starts.as_mut_ptr());
    // SAFETY: each pointer and length are those of one slice; those written are borrowed alone.
    unsafe {
        sys::nesbrunka_improve(
            n,
            w,
            widths.len(),
            g,
            guards.len(),
            o,
            order.len(),
            s,
            starts.len(),
            seed,
            rounds,
        )
    }
}

/// The floor of a list of 1 to 8 paths, each two in conflict: their widths and the guards along the
/// shortest walk through them. Every valid plan reaches it, so a plan with that highest slot is a
/// best one.
///
/// Tests in this order: 2, 1, 3, 4, 5, 15.
#[inline]
pub fn floor(n: usize, widths: &[u16], guards: &[u8], list: &[u8]) -> Floored {
    let (w, g, l) = (widths.as_ptr(), guards.as_ptr(), list.as_ptr());
    // SAFETY: each pointer and length are those of one slice, and nothing is written.
    unsafe { sys::nesbrunka_floor(n, w, widths.len(), g, guards.len(), l, list.len()) }
}

/// Reads a sheet of any length into the four tables, all their cells: what the sheet says, and past
/// n widths and starts 0, guards 255, labels 0. A sheet without a plan leaves all starts 0.
///
/// Tests 2 first, then gives the first line at fault.
#[inline]
pub fn read(
    text: &[u8], labels: &mut [u8], widths: &mut [u16], guards: &mut [u8], starts: &mut [u16],
) -> SheetRead {
    let (t, l) = (text.as_ptr(), labels.as_mut_ptr());
    let (w, g, s) = (widths.as_mut_ptr(), guards.as_mut_ptr(), starts.as_mut_ptr());
    // SAFETY: each pointer and length are those of one slice; those written are borrowed alone.
    unsafe {
        sys::nesbrunka_read(
            t,
            text.len(),
            l,
            labels.len(),
            w,
            widths.len(),
            g,
            guards.len(),
            s,
            starts.len(),
        )
    }
}

/// Writes a sheet into the front of a text of any length, with the starts if any of the n is not
/// zero.
///
/// Tests in this order: 2, 1 for n, 3, 4, 5, 11, 12, 1 for pairs, 7, 16.
#[inline]
pub fn write(
    n: usize, labels: &[u8], widths: &[u16], guards: &[u8], starts: &[u16], text: &mut [u8],
) -> SheetWritten {
    let (l, w, g) = (labels.as_ptr(), widths.as_ptr(), guards.as_ptr());
    let (s, t) = (starts.as_ptr(), text.as_mut_ptr());
    // SAFETY: each pointer and length are those of one slice; the one written is borrowed alone.
    unsafe {
        sys::nesbrunka_write(
            n,
            l,
            labels.len(),
            w,
            widths.len(),
            g,
            guards.len(),
            s,
            starts.len(),
            t,
            text.len(),
        )
    }
}

/// The centre of a block in GHz, 193,100 + 6.25n, exactly: nothing is lost. Where it is refused it
/// is 0.0, which is no block's centre; [`centre_number`] says why.
///
/// Tests in this order: 17, 3 for the width, 7 for the start.
#[inline]
pub fn centre(anchor: i32, start: usize, width: usize) -> f64 {
    // SAFETY: no table is lent.
    unsafe { sys::nesbrunka_centre(anchor, start, width) }
}

/// The number of [`centre`] for the same arguments: [`DONE`], or 17, 3 or 7. It has no place.
#[inline]
pub fn centre_number(anchor: i32, start: usize, width: usize) -> usize {
    // SAFETY: no table is lent.
    unsafe { sys::nesbrunka_centre_number(anchor, start, width) }
}

/// Writes an order sheet into the front of a text of any length: a line `order N`, then N lines
/// `label n m` in the order of the paths. That the plan is valid is not tested: [`judge`] it first.
///
/// Tests in this order: 2, 17, 1, 3, 4, 5, 11, 12, 7, 16. A start of 0 is 7.
#[inline]
pub fn order_write(
    anchor: i32, n: usize, labels: &[u8], widths: &[u16], guards: &[u8], starts: &[u16],
    text: &mut [u8],
) -> SheetWritten {
    let (l, w, g) = (labels.as_ptr(), widths.as_ptr(), guards.as_ptr());
    let (s, t) = (starts.as_ptr(), text.as_mut_ptr());
    // SAFETY: each pointer and length are those of one slice; the one written is borrowed alone.
    unsafe {
        sys::nesbrunka_order_write(
            anchor,
            n,
            l,
            labels.len(),
            w,
            widths.len(),
            g,
            guards.len(),
            s,
            starts.len(),
            t,
            text.len(),
        )
    }
}

/// Reads an order sheet of any length, beside its network and anchor, into the first n starts.
/// Where it refuses, the starts are left as they were.
///
/// Tests 2, 17, 1, 3, 4, 5 in this order, then gives the first line at fault: 11 for its form, 1
/// for a count that is not n, 13 for a label that is not the path's, 3 for an m that is not the
/// path's width, 7 for an n that gives no whole start of 1 to 16,384.
#[inline]
pub fn order_read(
    anchor: i32, text: &[u8], n: usize, labels: &[u8], widths: &[u16], guards: &[u8],
    starts: &mut [u16],
) -> Ordered {
    let (t, l) = (text.as_ptr(), labels.as_ptr());
    let (w, g, s) = (widths.as_ptr(), guards.as_ptr(), starts.as_mut_ptr());
    // SAFETY: each pointer and length are those of one slice; the one written is borrowed alone.
    unsafe {
        sys::nesbrunka_order_read(
            anchor,
            t,
            text.len(),
            n,
            l,
            labels.len(),
            w,
            widths.len(),
            g,
            guards.len(),
            s,
            starts.len(),
        )
    }
}
