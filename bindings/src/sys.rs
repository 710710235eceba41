//! The library's C face as it is: each table is a pointer and then its number of cells, and an
//! answer comes by value. The functions of the crate itself are these over slices.
//!
//! # Safety
//!
//! For each call: every pointer is valid for as many cells as its length says, for reads, and for
//! writes where it is `*mut`; none is null, whatever its length; a table that the call may write
//! overlaps no other. Nothing more is asked: every call tests what it is lent.

/// What judging answers.
#[repr(C)]
#[derive(Clone, Copy, Debug, PartialEq, Eq)]
pub struct Judged {
    /// 0, or the number of the refusal.
    pub number: usize,
    /// Where.
    pub place: usize,
    /// With number 8, how many slots short the pair is; else 0.
    pub short: usize,
}

/// What packing answers, beside the starts in their table.
#[repr(C)]
#[derive(Clone, Copy, Debug, PartialEq, Eq)]
pub struct Packed {
    /// 0, or the number of the refusal.
    pub number: usize,
    /// Where.
    pub place: usize,
    /// The highest slot.
    pub highest: usize,
}

/// What pressing answers, beside the starts in their table.
#[repr(C)]
#[derive(Clone, Copy, Debug, PartialEq, Eq)]
pub struct Pressed {
    /// 0, or the number of the refusal.
    pub number: usize,
    /// Where.
    pub place: usize,
    /// With number 8, how many slots short the pair is; else 0.
    pub short: usize,
    /// The highest slot.
    pub highest: usize,
}

/// What the call `why` answers, beside the chain in its table.
#[repr(C)]
#[derive(Clone, Copy, Debug, PartialEq, Eq)]
pub struct Reason {
    /// 0, or the number of the refusal.
    pub number: usize,
    /// Where.
    pub place: usize,
    /// With number 8, how many slots short the pair is; else 0.
    pub short: usize,
    /// How many paths the chain has.
    pub length: usize,
    /// How many slots the last of them can come down; 0 in slot 1.
    pub down: usize,
}

/// What the two-sided call answers, beside the order in its table.
#[repr(C)]
#[derive(Clone, Copy, Debug, PartialEq, Eq)]
pub struct Sided {
    /// 0, or the number of the refusal.
    pub number: usize,
    /// Where.
    pub place: usize,
    /// The size of the low side.
    pub low: usize,
}

/// What planning and improving answer, beside the order and the starts in their tables.
#[repr(C)]
#[derive(Clone, Copy, Debug, PartialEq, Eq)]
pub struct Planned {
    /// 0, or the number of the refusal.
    pub number: usize,
    /// Where.
    pub place: usize,
    /// The highest slot.
    pub highest: usize,
    /// The number of swaps kept.
    pub kept: usize,
}

/// What the floor call answers.
#[repr(C)]
#[derive(Clone, Copy, Debug, PartialEq, Eq)]
pub struct Floored {
    /// 0, or the number of the refusal.
    pub number: usize,
    /// Where.
    pub place: usize,
    /// The floor: no valid plan's highest slot is below it.
    pub floor: usize,
}

/// What the reader answers, beside its tables.
#[repr(C)]
#[derive(Clone, Copy, Debug, PartialEq, Eq)]
pub struct SheetRead {
    /// 0, or the number of the refusal.
    pub number: usize,
    /// The line, from 1.
    pub place: usize,
    /// The number of paths.
    pub n: usize,
}

/// What the writers answer, beside the text.
#[repr(C)]
#[derive(Clone, Copy, Debug, PartialEq, Eq)]
pub struct SheetWritten {
    /// 0, or the number of the refusal.
    pub number: usize,
    /// Where.
    pub place: usize,
    /// The sheet's length in bytes.
    pub length: usize,
}

/// What the order sheet's reader answers, beside the starts in their table.
#[repr(C)]
#[derive(Clone, Copy, Debug, PartialEq, Eq)]
pub struct Ordered {
    /// 0, or the number of the refusal.
    pub number: usize,
    /// Where; in the sheet the line, from 1.
    pub place: usize,
}

extern "C" {
    /// See [`crate::judge`].
    pub fn nesbrunka_judge(
        n: usize,
        widths: *const u16, widths_length: usize,
        guards: *const u8, guards_length: usize,
        starts: *const u16, starts_length: usize,
    ) -> Judged;

    /// See [`crate::pack`].
    pub fn nesbrunka_pack(
        n: usize,
        widths: *const u16, widths_length: usize,
        guards: *const u8, guards_length: usize,
        order: *const u8, order_length: usize,
        starts: *mut u16, starts_length: usize,
    ) -> Packed;

    /// See [`crate::press`].
    pub fn nesbrunka_press(
        n: usize,
        widths: *const u16, widths_length: usize,
        guards: *const u8, guards_length: usize,
        starts: *mut u16, starts_length: usize,
    ) -> Pressed;

    /// See [`crate::why`].
    pub fn nesbrunka_why(
        n: usize,
        widths: *const u16, widths_length: usize,
        guards: *const u8, guards_length: usize,
        starts: *const u16, starts_length: usize,
        path: usize,
        chain: *mut u8, chain_length: usize,
    ) -> Reason;

    /// See [`crate::better`]: 1 for the first order, 2 for the second, 0 for neither.
    pub fn nesbrunka_better(
        n: usize,
        widths: *const u16, widths_length: usize,
        guards: *const u8, guards_length: usize,
        first: *const u8, first_length: usize,
        second: *const u8, second_length: usize,
    ) -> usize;

    /// See [`crate::two_sides`].
    pub fn nesbrunka_two_sides(
        n: usize,
        widths: *const u16, widths_length: usize,
        guards: *const u8, guards_length: usize,
        order: *mut u8, order_length: usize,
    ) -> Sided;

    /// See [`crate::plan`].
    pub fn nesbrunka_plan(
        n: usize,
        widths: *const u16, widths_length: usize,
        guards: *const u8, guards_length: usize,
        order: *mut u8, order_length: usize,
        starts: *mut u16, starts_length: usize,
        seed: u32,
        rounds: usize,
    ) -> Planned;

    /// See [`crate::improve`].
    pub fn nesbrunka_improve(
        n: usize,
        widths: *const u16, widths_length: usize,
        guards: *const u8, guards_length: usize,
        order: *mut u8, order_length: usize,
        starts: *mut u16, starts_length: usize,
        seed: u32,
        rounds: usize,
    ) -> Planned;

    /// See [`crate::floor`].
    pub fn nesbrunka_floor(
        n: usize,
        widths: *const u16, widths_length: usize,
        guards: *const u8, guards_length: usize,
        list: *const u8, list_length: usize,
    ) -> Floored;

    /// See [`crate::read`].
    pub fn nesbrunka_read(
        text: *const u8, text_length: usize,
        labels: *mut u8, labels_length: usize,
        widths: *mut u16, widths_length: usize,
        guards: *mut u8, guards_length: usize,
        starts: *mut u16, starts_length: usize,
    ) -> SheetRead;

    /// See [`crate::write`].
    pub fn nesbrunka_write(
        n: usize,
        labels: *const u8, labels_length: usize,
        widths: *const u16, widths_length: usize,
        guards: *const u8, guards_length: usize,
        starts: *const u16, starts_length: usize,
        text: *mut u8, text_length: usize,
    ) -> SheetWritten;

    /// See [`crate::centre`].
    pub fn nesbrunka_centre(anchor: i32, start: usize, width: usize) -> f64;

    /// See [`crate::centre_number`].
    pub fn nesbrunka_centre_number(anchor: i32, start: usize, width: usize) -> usize;

    /// See [`crate::order_write`].
    pub fn nesbrunka_order_write(
        anchor: i32,
        n: usize,
        labels: *const u8, labels_length: usize,
        widths: *const u16, widths_length: usize,
        guards: *const u8, guards_length: usize,
        starts: *const u16, starts_length: usize,
        text: *mut u8, text_length: usize,
    ) -> SheetWritten;

    /// See [`crate::order_read`].
    pub fn nesbrunka_order_read(
        anchor: i32,
        text: *const u8, text_length: usize,
        n: usize,
        labels: *const u8, labels_length: usize,
        widths: *const u16, widths_length: usize,
        guards: *const u8, guards_length: usize,
        starts: *mut u16, starts_length: usize,
    ) -> Ordered;
}
