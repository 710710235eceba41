//! The library's C face over lent memory with margins. The calls are declared in `bindings`; this
//! file shares their shapes with the library's users, and no rule.

use crate::calls::Answer;
use nesbrunka::sys;

/// A value that a table can hold, with a mark for the margins around a lent table.
pub trait Cell: Copy + PartialEq + std::fmt::Display {
    const MARK: Self;
}

impl Cell for u8 {
    const MARK: u8 = 0xA7;
}

impl Cell for u16 {
    const MARK: u16 = 0xA5C3;
}

/// Cells before and after a lent table that no call may write.
const MARGIN: usize = 64;

/// A copy of a table to be lent to the library, with margins.
pub struct Lent<T: Cell> {
    memory: Vec<T>,
}

impl<T: Cell> Lent<T> {
    pub fn new(contents: &[T]) -> Lent<T> {
        let mut memory = Vec::with_capacity(contents.len() + 2 * MARGIN);
        memory.resize(MARGIN, T::MARK);
        memory.extend_from_slice(contents);
        memory.resize(contents.len() + 2 * MARGIN, T::MARK);
        Lent { memory }
    }

    pub fn contents(&self) -> &[T] {
        &self.memory[MARGIN..self.memory.len() - MARGIN]
    }

    pub fn margins_kept(&self) -> bool {
        let (front, rest) = self.memory.split_at(MARGIN);
        let back = &rest[rest.len() - MARGIN..];
        front.iter().chain(back).all(|cell| *cell == T::MARK)
    }

    /// The pointer is made from a mutable borrow for every table, so that a call that writes
    /// where it may only read is seen and not assumed away.
    fn pointer(&mut self) -> *mut T {
        self.memory[MARGIN..].as_mut_ptr()
    }

    fn len(&self) -> usize {
        self.memory.len() - 2 * MARGIN
    }
}

/// Makes a call: what stands before the tables, each table as a pointer and a length, the rest.
macro_rules! call {
    ($name:ident($($before:expr),*; $($table:ident),+; $($after:expr),*)) => {
        // SAFETY: each pointer is to as many cells of memory of its own as the length says, and
        // may be written.
        unsafe { sys::$name($($before,)* $($table.pointer(), $table.len(),)+ $($after),*) }
    };
}

pub fn judge(
    n: usize, widths: &mut Lent<u16>, guards: &mut Lent<u8>, starts: &mut Lent<u16>,
) -> Answer {
    let r = call!(nesbrunka_judge(n; widths, guards, starts;));
    Answer::new(r.number, r.place, [0, 0]).with_short(r.short)
}

pub fn pack(
    n: usize, widths: &mut Lent<u16>, guards: &mut Lent<u8>, order: &mut Lent<u8>,
    starts: &mut Lent<u16>,
) -> Answer {
    let r = call!(nesbrunka_pack(n; widths, guards, order, starts;));
    Answer::new(r.number, r.place, [r.highest, 0])
}

pub fn press(
    n: usize, widths: &mut Lent<u16>, guards: &mut Lent<u8>, starts: &mut Lent<u16>,
) -> Answer {
    let r = call!(nesbrunka_press(n; widths, guards, starts;));
    Answer::new(r.number, r.place, [r.highest, 0]).with_short(r.short)
}

pub fn why(
    n: usize, widths: &mut Lent<u16>, guards: &mut Lent<u8>, starts: &mut Lent<u16>, path: usize,
    chain: &mut Lent<u8>,
) -> Answer {
    let r = call!(nesbrunka_why(n; widths, guards, starts; path, chain.pointer(), chain.len()));
    Answer::new(r.number, r.place, [r.length, r.down]).with_short(r.short)
}

pub fn two_sides(
    n: usize, widths: &mut Lent<u16>, guards: &mut Lent<u8>, order: &mut Lent<u8>,
) -> Answer {
    let r = call!(nesbrunka_two_sides(n; widths, guards, order;));
    Answer::new(r.number, r.place, [r.low, 0])
}

pub fn plan(
    n: usize, widths: &mut Lent<u16>, guards: &mut Lent<u8>, order: &mut Lent<u8>,
    starts: &mut Lent<u16>, seed: u32, rounds: usize,
) -> Answer {
    let r = call!(nesbrunka_plan(n; widths, guards, order, starts; seed, rounds));
    Answer::new(r.number, r.place, [r.highest, r.kept])
}

pub fn improve(
    n: usize, widths: &mut Lent<u16>, guards: &mut Lent<u8>, order: &mut Lent<u8>,
    starts: &mut Lent<u16>, seed: u32, rounds: usize,
) -> Answer {
    let r = call!(nesbrunka_improve(n; widths, guards, order, starts; seed, rounds));
    Answer::new(r.number, r.place, [r.highest, r.kept])
}

/// Which of the two stands where other calls have their number.
pub fn better(
    n: usize, widths: &mut Lent<u16>, guards: &mut Lent<u8>, first: &mut Lent<u8>,
    second: &mut Lent<u8>,
) -> Answer {
    let which = call!(nesbrunka_better(n; widths, guards, first, second;));
    Answer::new(which, 0, [0, 0])
}

pub fn floor(
    n: usize, widths: &mut Lent<u16>, guards: &mut Lent<u8>, list: &mut Lent<u8>,
) -> Answer {
    let r = call!(nesbrunka_floor(n; widths, guards, list;));
    Answer::new(r.number, r.place, [r.floor, 0])
}

pub fn read(
    text: &mut Lent<u8>, labels: &mut Lent<u8>, widths: &mut Lent<u16>, guards: &mut Lent<u8>,
    starts: &mut Lent<u16>,
) -> Answer {
    let r = call!(nesbrunka_read(; text, labels, widths, guards, starts;));
    Answer::new(r.number, r.place, [r.n, 0])
}

pub fn write(
    n: usize, labels: &mut Lent<u8>, widths: &mut Lent<u16>, guards: &mut Lent<u8>,
    starts: &mut Lent<u16>, text: &mut Lent<u8>,
) -> Answer {
    let r = call!(nesbrunka_write(n; labels, widths, guards, starts, text;));
    Answer::new(r.number, r.place, [r.length, 0])
}

/// Both calls for a centre: the number, and the double.
pub fn centre(anchor: i32, start: usize, width: usize) -> (usize, f64) {
    // SAFETY: these calls are lent nothing.
    unsafe {
        let number = sys::nesbrunka_centre_number(anchor, start, width);
        (number, sys::nesbrunka_centre(anchor, start, width))
    }
}

pub fn order_write(
    anchor: i32, n: usize, labels: &mut Lent<u8>, widths: &mut Lent<u16>, guards: &mut Lent<u8>,
    starts: &mut Lent<u16>, text: &mut Lent<u8>,
) -> Answer {
    let r = call!(nesbrunka_order_write(anchor, n; labels, widths, guards, starts, text;));
    Answer::new(r.number, r.place, [r.length, 0])
}

pub fn order_read(
    anchor: i32, text: &mut Lent<u8>, n: usize, labels: &mut Lent<u8>, widths: &mut Lent<u16>,
    guards: &mut Lent<u8>, starts: &mut Lent<u16>,
) -> Answer {
    let (sheet, length) = (text.pointer(), text.len());
    let r = call!(
        nesbrunka_order_read(anchor, sheet, length, n; labels, widths, guards, starts;)
    );
    Answer::new(r.number, r.place, [0, 0])
}
