//! The library's calls on a network or a sheet, whole, with all their tests. None is refused.

use nesbrunka::{DONE, PATHS};

use crate::networks::Network;
use crate::rules::{Chained, Improved, Judgement, Order, Starts};
use crate::sheet::Tables;

pub fn judge(net: &Network, starts: &Starts) -> Judgement {
    let r = nesbrunka::judge(net.n, &net.widths, &net.guards, starts);
    (r.number, r.place, r.short)
}

pub fn pack(net: &Network, order: &Order, starts: &mut Starts) -> usize {
    let r = nesbrunka::pack(net.n, &net.widths, &net.guards, order, starts);
    assert!(r.number == DONE, "pack: refused {} at {}", r.number, r.place);
    r.highest
}

pub fn press(net: &Network, starts: &mut Starts) -> usize {
    let r = nesbrunka::press(net.n, &net.widths, &net.guards, starts);
    assert!(r.number == DONE, "press: refused {} at {}", r.number, r.place);
    r.highest
}

pub fn why(net: &Network, starts: &Starts, path: usize, chain: &mut Order) -> Chained {
    let r = nesbrunka::why(net.n, &net.widths, &net.guards, starts, path, chain);
    assert!(r.number == DONE, "why: refused {} at {}", r.number, r.place);
    (r.length, r.down)
}

pub fn better<'a>(net: &Network, first: &'a Order, second: &'a Order) -> &'a [u8] {
    let part = nesbrunka::better(net.n, &net.widths, &net.guards, first, second);
    assert!(part.len() == net.n, "better: refused");
    part
}

pub fn two_sides(net: &Network, order: &mut Order) -> usize {
    let r = nesbrunka::two_sides(net.n, &net.widths, &net.guards, order);
    assert!(r.number == DONE, "two_sides: refused {} at {}", r.number, r.place);
    r.low
}

pub fn plan(net: &Network, rounds: usize) -> Improved {
    let (mut order, mut starts) = ([0; PATHS], [0; PATHS]);
    let r = nesbrunka::plan(net.n, &net.widths, &net.guards, &mut order, &mut starts, 1, rounds);
    assert!(r.number == DONE, "plan: refused {} at {}", r.number, r.place);
    (order, starts, r.highest, r.kept)
}

pub fn improve(net: &Network, order: &Order, rounds: usize) -> Improved {
    let (mut order, mut starts) = (*order, [0; PATHS]);
    let r = nesbrunka::improve(net.n, &net.widths, &net.guards, &mut order, &mut starts, 1, rounds);
    assert!(r.number == DONE, "improve: refused {} at {}", r.number, r.place);
    (order, starts, r.highest, r.kept)
}

pub fn floor(net: &Network, list: &[u8]) -> usize {
    let r = nesbrunka::floor(net.n, &net.widths, &net.guards, list);
    assert!(r.number == DONE, "floor: refused {} at {}", r.number, r.place);
    r.floor
}

pub fn read(text: &[u8]) -> Tables {
    let mut t = Tables::cleared();
    let r = nesbrunka::read(text, &mut t.labels, &mut t.widths, &mut t.guards, &mut t.starts);
    assert!(r.number == DONE, "read: refused {} line {}", r.number, r.place);
    t.n = r.n;
    t
}

pub fn write(t: &Tables, text: &mut [u8]) -> usize {
    let r = nesbrunka::write(t.n, &t.labels, &t.widths, &t.guards, &t.starts, text);
    assert!(r.number == DONE, "write: refused {} at {}", r.number, r.place);
    r.length
}

pub fn order_write(anchor: i32, t: &Tables, text: &mut [u8]) -> usize {
    let (widths, guards) = (&t.widths, &t.guards);
    let r = nesbrunka::order_write(anchor, t.n, &t.labels, widths, guards, &t.starts, text);
    assert!(r.number == DONE, "order_write: refused {} at {}", r.number, r.place);
    r.length
}

pub fn order_read(anchor: i32, text: &[u8], t: &Tables, starts: &mut Starts) {
    let r = nesbrunka::order_read(anchor, text, t.n, &t.labels, &t.widths, &t.guards, starts);
    assert!(r.number == DONE, "order_read: refused {} at {}", r.number, r.place);
}
