//! The calls in plain Rust: what the library's are held against.

use nesbrunka::{LIST_MOST, NO_CONFLICT, PATHS};

use crate::networks::Network;

pub type Starts = [u16; PATHS];
pub type Order = [u8; PATHS];
pub type Judgement = (usize, usize, usize);
pub type Packer = fn(&Network, &Order, &mut Starts) -> usize;

/// The tests of a network by plain scans, each from the lowest index: number and place.
fn network(net: &Network) -> Option<(usize, usize)> {
    let n = net.n;
    let guard = |i: usize, j: usize| net.guards[PATHS * i + j];
    if !(1..=PATHS).contains(&n) {
        return Some((1, 0));
    }
    if let Some(k) = net.widths[..n].iter().position(|width| !(1..=64).contains(width)) {
        return Some((3, k));
    }
    let bad = |i, j| guard(i, j) != NO_CONFLICT && (i == j || guard(i, j) > 32);
    if let Some(cell) = first_cell(n, |_| 0, bad) {
        return Some((4, cell));
    }
    first_cell(n, |i| i + 1, |i, j| guard(i, j) != guard(j, i)).map(|cell| (5, cell))
}

/// The tests of judging: number, place, slots short.
pub fn judge(net: &Network, starts: &Starts) -> Judgement {
    let n = net.n;
    if let Some((number, place)) = network(net) {
        return (number, place, 0);
    }
    if let Some(k) = starts[..n].iter().position(|start| !(1..=16384).contains(start)) {
        return (7, k, 0);
    }
    let guard = |i: usize, j: usize| net.guards[PATHS * i + j];
    let close = |i, j| guard(i, j) != NO_CONFLICT && short(net, starts, i, j) > 0;
    first_cell(n, |i| i + 1, close)
        .map_or((0, 0, 0), |cell| (8, cell, short(net, starts, cell / PATHS, cell % PATHS)))
}

/// How many slots short paths i and j are, i<j.
fn short(net: &Network, starts: &Starts, i: usize, j: usize) -> usize {
    let (low, high) = if starts[i] <= starts[j] { (i, j) } else { (j, i) };
    let past = starts[low] + net.widths[low] + net.guards[PATHS * low + high] as u16;
    past.saturating_sub(starts[high]) as usize
}

/// The first cell of the square, each row from some path on, of which something is so.
fn first_cell(
    n: usize, from: impl Fn(usize) -> usize, so: impl Fn(usize, usize) -> bool,
) -> Option<usize> {
    for i in 0..n {
        for j in from(i)..n {
            if so(i, j) {
                return Some(PATHS * i + j);
            }
        }
    }
    None
}

/// Packing that looks back: for each path, over those earlier in the order. No tests.
pub fn look_back(net: &Network, order: &Order, starts: &mut Starts) -> usize {
    let mut highest = 0;
    for p in 0..net.n {
        let i = order[p] as usize;
        let mut start = 1;
        for &j in &order[..p] {
            let j = j as usize;
            let guard = net.guards[PATHS * i + j];
            if guard != NO_CONFLICT {
                let past = starts[j] + net.widths[j] + guard as u16;
                if past > start {
                    start = past;
                }
            }
        }
        starts[i] = start;
        highest = highest.max(start + net.widths[i] - 1);
    }
    highest as usize
}

/// The library's own loop: each path that is placed raises the lowest starts of all. No tests.
pub fn push(net: &Network, order: &Order, starts: &mut Starts) -> usize {
    let n = net.n;
    let mut need = [1u16; PATHS];
    let mut highest = 0;
    for &i in &order[..n] {
        let i = i as usize;
        let start = need[i];
        let base = start + net.widths[i];
        starts[i] = start;
        highest = highest.max(base - 1);
        let row = &net.guards[PATHS * i..PATHS * i + n];
        for (lowest, &guard) in need[..n].iter_mut().zip(row) {
            let asked = if guard == NO_CONFLICT { 0 } else { base + guard as u16 };
            *lowest = (*lowest).max(asked);
        }
    }
    highest as usize
}

/// Pressing: the standard library's sort, and packing that looks back. No tests.
pub fn press(net: &Network, starts: &mut Starts) -> usize {
    let mut order = [0; PATHS];
    for (k, entry) in order[..net.n].iter_mut().enumerate() {
        *entry = k as u8;
    }
    order[..net.n].sort_by_key(|&k| starts[k as usize]);
    look_back(net, &order, starts)
}

/// How many paths a chain has, and how many slots the last of them can come down.
pub type Chained = (usize, usize);

/// Why a path stands where it stands, by plain scans: judged, and then for each path of the chain
/// the first one that holds it up.
pub fn why(net: &Network, starts: &Starts, path: usize, chain: &mut Order) -> Chained {
    assert!(judge(net, starts) == (0, 0, 0), "why: the plan is not valid");
    let past = |j: usize, k: usize| {
        let guard = net.guards[PATHS * k + j];
        let below = guard != NO_CONFLICT && starts[j] < starts[k];
        below.then(|| starts[j] + net.widths[j] + guard as u16)
    };
    let (mut k, mut length) = (path, 0);
    loop {
        chain[length] = k as u8;
        length += 1;
        let link = (0..net.n).find(|&j| past(j, k) == Some(starts[k]));
        match link {
            Some(j) if starts[k] > 1 => k = j,
            _ => break,
        }
    }
    let bottom = (0..net.n).filter_map(|j| past(j, k)).fold(1, u16::max);
    (length, (starts[k] - bottom) as usize)
}

/// What improving leaves: order, starts, highest slot, swaps kept.
pub type Improved = (Order, Starts, usize, usize);

/// The rounds of improving with seed 1, over either packing. No tests.
pub fn improve(pack: Packer, net: &Network, order: &Order, rounds: usize) -> Improved {
    let (mut order, mut starts, mut state, mut kept) = (*order, [0u16; PATHS], 1u32, 0);
    let mut highest = pack(net, &order, &mut starts);
    let mut draw = || {
        state = state.wrapping_mul(1664525).wrapping_add(1013904223);
        ((state >> 16) as usize * net.n) >> 16
    };
    for _ in 0..rounds {
        let (a, b) = (draw(), draw());
        order.swap(a, b);
        let h = pack(net, &order, &mut starts);
        if h < highest {
            highest = h;
            kept += 1;
        } else {
            order.swap(a, b);
        }
    }
    pack(net, &order, &mut starts);
    (order, starts, highest, kept)
}

/// The guards of a list, by position.
type Square = [[u8; LIST_MOST]; LIST_MOST];
/// The shortest walk through the first so many positions of a square.
pub type Walker = fn(&Square, usize) -> usize;

/// The floor of a list, with its tests and either search.
pub fn floor(shortest: Walker, net: &Network, list: &[u8]) -> usize {
    assert!(network(net).is_none() && listed(net, list), "floor: refused");
    let mut square = [[NO_CONFLICT; LIST_MOST]; LIST_MOST];
    for (row, &i) in square.iter_mut().zip(list) {
        for (guard, &j) in row.iter_mut().zip(list) {
            *guard = net.guards[PATHS * i as usize + j as usize];
        }
    }
    let widths: usize = list.iter().map(|&k| net.widths[k as usize] as usize).sum();
    widths + shortest(&square, list.len())
}

fn listed(net: &Network, list: &[u8]) -> bool {
    let joined = |i: u8, j: u8| net.guards[PATHS * i as usize + j as usize] != NO_CONFLICT;
    let right = |(p, &j): (usize, &u8)| {
        (j as usize) < net.n && list[..p].iter().all(|&i| i != j && joined(i, j))
    };
    (1..=LIST_MOST).contains(&list.len()) && list.iter().enumerate().all(right)
}

/// All orders, one after the other.
pub fn all_orders(square: &Square, k: usize) -> usize {
    fn go(square: &Square, order: &mut [usize], m: usize, total: usize, least: &mut usize) {
        if m == order.len() {
            *least = total.min(*least);
            return;
        }
        for p in m..order.len() {
            order.swap(m, p);
            let step = if m == 0 { 0 } else { square[order[m - 1]][order[m]] as usize };
            go(square, order, m + 1, total + step, least);
            order.swap(m, p);
        }
    }
    let (mut order, mut least) = ([0, 1, 2, 3, 4, 5, 6, 7], usize::MAX);
    go(square, &mut order[..k], 0, 0, &mut least);
    least
}

/// The library's own way: the least walks by sets of the positions before the last, the smaller sets
/// first, and the least of two walks away from the last position through a set and its rest.
pub fn by_sets(square: &Square, k: usize) -> usize {
    let (last, half) = (k - 1, 1 << (k - 1));
    let mut walks = [[NO_CONFLICT; LIST_MOST]; 1 << (LIST_MOST - 1)];
    let onward = |from: &[u8; LIST_MOST], guards: &[u8; LIST_MOST]| {
        let sums = from.iter().zip(guards).map(|(&walk, &guard)| walk as u16 + guard as u16);
        sums.fold(NO_CONFLICT as u16, u16::min) as u8
    };
    for set in 1..half {
        for j in (0..last).filter(|j| set >> j & 1 == 1) {
            let rest = set - (1 << j);
            walks[set][j] = if rest == 0 { 0 } else { onward(&walks[rest], &square[j]) };
        }
    }
    let away = |set: usize| if set == 0 { 0 } else { onward(&walks[set], &square[last]) as usize };
    (0..half.div_ceil(2)).map(|set| away(set) + away(half - 1 - set)).fold(usize::MAX, usize::min)
}
