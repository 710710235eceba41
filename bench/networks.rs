//! What the measured calls are given: networks, orders and a sheet, the same in every run.

use nesbrunka::{CELLS, LABEL, NO_CONFLICT, PATHS};

use crate::sheet::Tables;

pub const SIZES: [usize; 3] = [7, 40, 128];
/// Of all pairs, how many are in conflict.
pub const PERCENTS: [usize; 3] = [5, 50, 100];

pub struct Random(u64);

impl Random {
    pub fn new() -> Random {
        Random(0x9E3779B97F4A7C15)
    }

    pub fn below(&mut self, n: usize) -> usize {
        self.0 ^= self.0 << 13;
        self.0 ^= self.0 >> 7;
        self.0 ^= self.0 << 17;
        (self.0 >> 16) as usize % n
    }

    fn shuffle<T>(&mut self, items: &mut [T]) {
        for k in (1..items.len()).rev() {
            items.swap(k, self.below(k + 1));
        }
    }
}

pub struct Network {
    pub n: usize,
    pub widths: [u16; PATHS],
    pub guards: [u8; CELLS],
    /// 64 orders of the paths.
    pub orders: Vec<[u8; PATHS]>,
}

impl Network {
    /// Paths of any width and so many pairs in conflict, with any guard.
    pub fn new(n: usize, pairs: usize, random: &mut Random) -> Network {
        let mut all: Vec<(usize, usize)> =
            (0..n).flat_map(|i| (i + 1..n).map(move |j| (i, j))).collect();
        random.shuffle(&mut all);
        Network::of(n, &all[..pairs], random)
    }

    /// One line of paths, each in conflict with the next: the longest that two sides can be.
    pub fn line(n: usize, random: &mut Random) -> Network {
        let next: Vec<(usize, usize)> = (1..n).map(|j| (j - 1, j)).collect();
        Network::of(n, &next, random)
    }

    fn of(n: usize, pairs: &[(usize, usize)], random: &mut Random) -> Network {
        let (mut widths, mut guards) = ([0; PATHS], [NO_CONFLICT; CELLS]);
        widths[..n].fill_with(|| 1 + random.below(64) as u16);
        for &(i, j) in pairs {
            let guard = random.below(33) as u8;
            guards[PATHS * i + j] = guard;
            guards[PATHS * j + i] = guard;
        }
        let orders = (0..64).map(|_| any_order(n, random)).collect();
        Network { n, widths, guards, orders }
    }

    /// The tables of its sheet, with no plan.
    pub fn tables(&self) -> Tables {
        let mut t = Tables::cleared();
        (t.n, t.widths, t.guards) = (self.n, self.widths, self.guards);
        for k in 0..self.n {
            let label = format!("PATH-{k:03}");
            t.labels[LABEL * k..LABEL * (k + 1)].copy_from_slice(label.as_bytes());
        }
        t
    }
}

/// The tables of a network with half of its pairs in conflict, and any start for each path.
pub fn ordered(n: usize, random: &mut Random) -> Tables {
    let mut t = Network::new(n, pairs(n, 50), random).tables();
    t.starts[..n].fill_with(|| 1 + random.below(16384) as u16);
    t
}

/// An anchor, a start and a width.
pub type Block = (i32, usize, usize);

/// So many blocks, none of them refused.
pub fn blocks(count: usize, random: &mut Random) -> Vec<Block> {
    let mut block = || {
        let anchor = random.below(2049) as i32 - 1024;
        (anchor, 1 + random.below(16384), 1 + random.below(64))
    };
    (0..count).map(|_| block()).collect()
}

fn any_order(n: usize, random: &mut Random) -> [u8; PATHS] {
    let mut order = [0; PATHS];
    for (k, entry) in order[..n].iter_mut().enumerate() {
        *entry = k as u8;
    }
    random.shuffle(&mut order[..n]);
    order
}

/// So many percent of all pairs, whole part.
pub fn pairs(n: usize, percent: usize) -> usize {
    n * (n - 1) / 2 * percent / 100
}

/// The longest sheet: 128 labels of eight bytes, 2,000 pairs, and two digits for each width and
/// guard, five for each start.
pub fn longest(random: &mut Random) -> Tables {
    let mut t = Network::new(PATHS, 2000, random).tables();
    t.widths.fill_with(|| 10 + random.below(55) as u16);
    t.starts.fill_with(|| 10000 + random.below(6385) as u16);
    for i in 0..PATHS {
        for j in 0..i {
            if t.guards[PATHS * i + j] != NO_CONFLICT {
                let guard = 10 + random.below(23) as u8;
                t.guards[PATHS * i + j] = guard;
                t.guards[PATHS * j + i] = guard;
            }
        }
    }
    t
}
