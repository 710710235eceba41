//! Random cases: networks of many shapes, plans, orders, lists and labels, with junk past n.

use crate::compare::Case;
use crate::net::*;
use crate::order::MAX_ANCHOR;

/// The generator splitmix64.
pub struct Rng(u64);

impl Rng {
    /// A generator for one piece of work: the run's seed, the group and the piece's number.
    pub fn new(seed: u64, group: u64, piece: u64) -> Rng {
        let mut rng = Rng(seed);
        rng.0 = rng.bits() ^ group.wrapping_mul(0xD6E8_FEB8_6659_FD93);
        rng.0 = rng.bits() ^ piece;
        rng
    }

    /// A generator of its own, made from this one, which goes on as if it had not been.
    pub fn aside(&self) -> Rng {
        Rng(self.0 ^ 0x5851_F42D_4C95_7F2D)
    }

    pub fn bits(&mut self) -> u64 {
        self.0 = self.0.wrapping_add(0x9E37_79B9_7F4A_7C15);
        let mut z = self.0;
        z = (z ^ (z >> 30)).wrapping_mul(0xBF58_476D_1CE4_E5B9);
        z = (z ^ (z >> 27)).wrapping_mul(0x94D0_49BB_1331_11EB);
        z ^ (z >> 31)
    }

    /// A number below the limit.
    pub fn below(&mut self, limit: usize) -> usize {
        (self.bits() % limit as u64) as usize
    }

    /// A number from the first to the last.
    pub fn range(&mut self, first: usize, last: usize) -> usize {
        first + self.below(last - first + 1)
    }

    /// True so many times in a hundred.
    pub fn percent(&mut self, times: usize) -> bool {
        self.below(100) < times
    }

    pub fn pick<T: Copy>(&mut self, from: &[T]) -> T {
        from[self.below(from.len())]
    }

    pub fn shuffle<T>(&mut self, list: &mut [T]) {
        for last in (1..list.len()).rev() {
            list.swap(last, self.below(last + 1));
        }
    }
}

/// Shapes of a network.
#[derive(Clone, Copy, Debug)]
pub enum Shape {
    /// Each pair in conflict so many times in a hundred.
    Density(usize),
    /// Conflicts only between two halves chosen at random.
    TwoSided(usize),
    Line,
    Star,
    Ring,
    /// Several parts, each a small ring, line or star, some paths alone.
    Parts,
    /// Many two-sided parts, and one odd ring among them.
    OneOddRing,
    Alone,
}

pub const SHAPES: [Shape; 16] = [
    Shape::Density(2),
    Shape::Density(5),
    Shape::Density(15),
    Shape::Density(35),
    Shape::Density(60),
    Shape::Density(85),
    Shape::Density(97),
    Shape::Density(100),
    Shape::TwoSided(10),
    Shape::TwoSided(60),
    Shape::Line,
    Shape::Star,
    Shape::Ring,
    Shape::Parts,
    Shape::OneOddRing,
    Shape::Alone,
];

/// The conflicting pairs of a shape, paths numbered at random.
fn pairs(rng: &mut Rng, n: usize, shape: Shape) -> Vec<(usize, usize)> {
    let mut found = plain_pairs(rng, n, shape);
    if rng.percent(75) {
        let mut names: Vec<usize> = (0..n).collect();
        rng.shuffle(&mut names);
        found.iter_mut().for_each(|(i, j)| (*i, *j) = (names[*i], names[*j]));
    }
    found
}

fn plain_pairs(rng: &mut Rng, n: usize, shape: Shape) -> Vec<(usize, usize)> {
    let every = (0..n).flat_map(|i| (i + 1..n).map(move |j| (i, j)));
    match shape {
        Shape::Density(times) => every.filter(|_| rng.percent(times)).collect(),
        Shape::TwoSided(times) => {
            let side: Vec<bool> = (0..n).map(|_| rng.percent(50)).collect();
            every.filter(|&(i, j)| side[i] != side[j] && rng.percent(times)).collect()
        }
        Shape::Line => line(0, n),
        Shape::Star => star(0, n),
        Shape::Ring => ring(0, n),
        Shape::Parts => parts(rng, n),
        Shape::OneOddRing => one_odd_ring(rng, n),
        Shape::Alone => Vec::new(),
    }
}

fn line(from: usize, count: usize) -> Vec<(usize, usize)> {
    (1..count).map(|k| (from + k - 1, from + k)).collect()
}

fn star(from: usize, count: usize) -> Vec<(usize, usize)> {
    (1..count).map(|k| (from, from + k)).collect()
}

fn ring(from: usize, count: usize) -> Vec<(usize, usize)> {
    let mut found = line(from, count);
    if count > 2 {
        found.push((from, from + count - 1));
    }
    found
}

fn parts(rng: &mut Rng, n: usize) -> Vec<(usize, usize)> {
    let mut found = Vec::new();
    let mut from = 0;
    while from < n {
        let count = rng.range(1, 9).min(n - from);
        found.extend(match rng.below(4) {
            0 => line(from, count),
            1 => star(from, count),
            2 if count % 2 == 0 || rng.percent(10) => ring(from, count),
            _ => Vec::new(),
        });
        from += count;
    }
    found
}

fn one_odd_ring(rng: &mut Rng, n: usize) -> Vec<(usize, usize)> {
    let odd = (2 * rng.range(1, 4) + 1).min(n);
    let mut found = line(0, n - odd);
    found.extend(ring(n - odd, odd));
    found
}

fn width(rng: &mut Rng, style: usize) -> u16 {
    let value = match style {
        0 => 1,
        1 => rng.range(1, 3),
        2 => rng.pick(&[1, 64]),
        3 => rng.range(1, 12),
        _ => rng.range(1, MAX_WIDTH),
    };
    value as u16
}

fn guard(rng: &mut Rng, style: usize) -> u8 {
    let value = match style {
        0 => 0,
        1 => rng.range(0, 2),
        2 => rng.pick(&[0, 32]),
        3 => rng.range(0, 6),
        _ => rng.range(0, MAX_GUARD),
    };
    value as u8
}

/// Junk for a cell that no call may look at: legal and illegal values.
fn junk_byte(rng: &mut Rng) -> u8 {
    match rng.below(4) {
        0 => rng.range(0, 32) as u8,
        1 => NONE,
        2 => rng.range(0, 127) as u8,
        _ => rng.bits() as u8,
    }
}

fn junk_word(rng: &mut Rng) -> u16 {
    match rng.below(4) {
        0 => rng.range(0, 66) as u16,
        1 => u16::MAX,
        2 => rng.range(1, MAX_START) as u16,
        _ => rng.bits() as u16,
    }
}

/// A case without a fault: a network of the shape, an order, a plan, a list, a path to ask about,
/// labels and room.
pub fn case(rng: &mut Rng, n: usize, shape: Shape) -> Case {
    let mut c = blank(rng, n);
    let (wide, far) = (rng.below(5), rng.below(5));
    for i in 0..n {
        c.widths[i] = width(rng, wide);
    }
    for (i, j) in pairs(rng, n, shape) {
        set_guard(&mut c, i, j, guard(rng, far));
    }
    c.order = order(rng, n);
    c.second = order(rng, n);
    c.starts = loose_plan(rng, &c);
    c.list = list(rng, &c);
    c.labels = labels(rng, n);
    c.seed = seed(rng);
    c.text = vec![b'#'; rng.pick(&[0, 40, 400, LONGEST_SHEET])];
    let mut aside = rng.aside();
    c.path = aside.below(n);
    c.chain = (0..PATHS).map(|_| junk_byte(&mut aside)).collect();
    c.anchor = anchor(&mut aside);
    c
}

/// An anchor: one of the ends, near 0, or any.
pub fn anchor(rng: &mut Rng) -> i32 {
    match rng.below(4) {
        0 => rng.pick(&[-MAX_ANCHOR, MAX_ANCHOR]),
        1 => rng.range(0, 4) as i32 - 2,
        _ => rng.range(0, 2 * MAX_ANCHOR as usize) as i32 - MAX_ANCHOR,
    }
}

/// An anchor that is too far: one step, as far as can be, or in range once it is cut.
pub fn wrong_anchor(rng: &mut Rng) -> i32 {
    let cut = anchor(rng);
    rng.pick(&[
        -MAX_ANCHOR - 1,
        MAX_ANCHOR + 1,
        2 * MAX_ANCHOR,
        cut + (1 << 16),
        cut - (1 << 16),
        cut + (1 << 24),
        i32::MIN,
        i32::MIN + 1,
        i32::MAX,
    ])
}

/// Tables of their sizes with no conflict among the n paths and, mostly, junk elsewhere.
fn blank(rng: &mut Rng, n: usize) -> Case {
    let mut c = Case { n, widths: vec![0; PATHS], guards: vec![NONE; CELLS], ..Case::default() };
    if rng.percent(70) {
        c.widths.iter_mut().for_each(|w| *w = junk_word(rng));
        // One junk value a row keeps this quick; a few cells more are changed one by one.
        for i in 0..PATHS {
            let from = if i < n { n } else { 0 };
            c.guards[cell(i, from)..cell(i, PATHS)].fill(junk_byte(rng));
        }
        for _ in 0..40 {
            let (i, j) = (rng.below(PATHS), rng.below(PATHS));
            if i >= n || j >= n {
                c.guards[cell(i, j)] = junk_byte(rng);
            }
        }
    }
    c
}

pub fn set_guard(c: &mut Case, i: usize, j: usize, guard: u8) {
    c.guards[cell(i, j)] = guard;
    c.guards[cell(j, i)] = guard;
}

/// An order of n paths, junk after them.
pub fn order(rng: &mut Rng, n: usize) -> Vec<u8> {
    let mut paths: Vec<u8> = (0..n).map(|p| p as u8).collect();
    rng.shuffle(&mut paths);
    paths.extend((n..PATHS).map(|_| junk_byte(rng)));
    paths
}

fn seed(rng: &mut Rng) -> u32 {
    match rng.below(6) {
        0 => rng.pick(&[0, 1, u32::MAX, 1 << 31]),
        _ => rng.bits() as u32,
    }
}

/// A valid plan with gaps: in a random order, each path above all conflicting earlier ones,
/// or, where there is room, anywhere that keeps the distance.
pub fn loose_plan(rng: &mut Rng, c: &Case) -> Vec<u16> {
    let slack = rng.pick(&[0, 0, 1, 3, 20]);
    let mut starts: Vec<u16> = (0..PATHS).map(|_| junk_word(rng)).collect();
    let mut placed: Vec<usize> = Vec::new();
    for path in order(rng, c.n).iter().take(c.n).map(|&p| usize::from(p)) {
        let above = placed.iter().filter(|&&p| c.guards[cell(p, path)] != NONE).map(|&p| {
            usize::from(starts[p]) + usize::from(c.widths[p]) + usize::from(c.guards[cell(p, path)])
        });
        let lowest = above.max().unwrap_or(1);
        starts[path] = (lowest + rng.range(0, slack)).min(MAX_START) as u16;
        placed.push(path);
    }
    starts
}

/// A plan loosened upwards: now and again all paths from some path's start on go up together, so
/// that it stays valid, and some of them rest on nothing then.
pub fn loosen(rng: &mut Rng, starts: &mut [u16]) {
    for _ in 0..rng.pick(&[1, 1, 2, 3]) {
        let from = rng.pick(starts);
        let top = starts.iter().copied().max().unwrap_or(0);
        let most = (MAX_START as u16 - top).min(rng.pick(&[1, 1, 2, 9, 70]));
        let step = rng.range(0, usize::from(most)) as u16;
        starts.iter_mut().filter(|s| **s >= from).for_each(|s| *s += step);
    }
}

/// A plan for judging and pressing: valid, valid but for some pairs, or anything; now and then at
/// the upper end.
pub fn any_plan(rng: &mut Rng, c: &Case) -> Vec<u16> {
    let mut starts = loose_plan(rng, c);
    match rng.below(8) {
        0 => {}
        1..=5 => bring_pairs_together(rng, c, &mut starts),
        6 => starts[..c.n].iter_mut().for_each(|s| *s = rng.range(1, 12) as u16),
        _ => starts[..c.n].iter_mut().for_each(|s| *s = rng.range(1, 300) as u16),
    }
    if rng.percent(15) {
        raise(&mut starts[..c.n]);
    }
    starts
}

/// Lifts a plan as high as it may be: its highest start is 16,384.
pub fn raise(starts: &mut [u16]) {
    let top = starts.iter().copied().max().unwrap_or(0);
    let shift = (MAX_START as u16).saturating_sub(top);
    starts.iter_mut().for_each(|s| *s += shift);
}

/// In one or several conflicting pairs, wherever they stand in the square, moves one path near
/// the other.
fn bring_pairs_together(rng: &mut Rng, c: &Case, starts: &mut [u16]) {
    let conflict = |&(i, j): &(usize, usize)| c.guards[cell(i, j)] != NONE;
    let every = (0..c.n).flat_map(|i| (0..c.n).map(move |j| (i, j)));
    let pairs: Vec<(usize, usize)> = every.filter(conflict).collect();
    if pairs.is_empty() {
        return;
    }
    for _ in 0..rng.pick(&[1, 1, 1, 2, 5]) {
        let (fixed, moved) = rng.pick(&pairs);
        starts[moved] = near_start(rng, c, usize::from(starts[fixed]), fixed, moved);
    }
}

/// A start for one path of a pair beside the other, which stays at `start`: the same; just clear of
/// it, or one or two slots short of that, above and below; or anything between.
fn near_start(rng: &mut Rng, c: &Case, start: usize, fixed: usize, moved: usize) -> u16 {
    let guard = usize::from(c.guards[cell(fixed, moved)]);
    let clear_above = start + usize::from(c.widths[fixed]) + guard;
    let clear_below = start.saturating_sub(usize::from(c.widths[moved]) + guard);
    let near = match rng.below(5) {
        0 => start,
        1 => clear_above - rng.below(3),
        2 => clear_below + rng.below(3),
        3 => rng.range(start, clear_above),
        _ => rng.range(clear_below, start),
    };
    near.clamp(1, MAX_START) as u16
}

/// A list for the floor: mostly grown as paths in conflict with each other.
pub fn list(rng: &mut Rng, c: &Case) -> Vec<u8> {
    let mut found: Vec<u8> = Vec::new();
    let limit = rng.range(1, MAX_LIST);
    for path in order(rng, c.n).into_iter().take(c.n) {
        let joined = |&p: &u8| c.guards[cell(usize::from(p), usize::from(path))] != NONE;
        if found.len() < limit && found.iter().all(joined) {
            found.push(path);
        }
    }
    found
}

/// A floor's list with anything in it, of any length.
pub fn any_list(rng: &mut Rng, c: &Case) -> Vec<u8> {
    let mut found = list(rng, c);
    let position = rng.below(found.len() + 1);
    match rng.below(6) {
        0 => found.clear(),
        1 => found.insert(position, rng.bits() as u8),
        2 => found.insert(position, rng.below(c.n) as u8),
        3 => found.insert(position, c.n.min(255) as u8),
        4 => found = (0..rng.range(0, 12)).map(|_| rng.below(c.n + 1) as u8).collect(),
        _ => found.resize(rng.pick(&[8, 9, 10, 300]), 0),
    }
    found
}

/// Labels of every allowed length and byte, no two equal.
pub fn labels(rng: &mut Rng, n: usize) -> Vec<u8> {
    let mut table: Vec<u8> = (0..LABELS).map(|_| junk_byte(rng)).collect();
    let mut taken: Vec<Vec<u8>> = Vec::new();
    while taken.len() < n {
        let label = label(rng, &taken);
        if !taken.contains(&label) {
            let at = LABEL * taken.len();
            table[at..at + LABEL].fill(0);
            table[at..at + label.len()].copy_from_slice(&label);
            taken.push(label);
        }
    }
    table
}

/// One label; some look like numbers, some differ by a zero in front or a byte at the end.
pub fn label(rng: &mut Rng, taken: &[Vec<u8>]) -> Vec<u8> {
    let alphabet: &[u8] = match rng.below(4) {
        0 => b"01",
        1 => b"A-0",
        _ => b"0123456789ABCDEFGHIJKLMNOPQRSTUVWXYZ-",
    };
    let mut label: Vec<u8> = (0..rng.range(1, LABEL)).map(|_| rng.pick(alphabet)).collect();
    if !taken.is_empty() && rng.percent(20) {
        label = taken[rng.below(taken.len())].clone();
        let byte = rng.pick(alphabet);
        match rng.below(3) {
            0 => label.insert(0, b'0'),
            1 => label.push(byte),
            _ => *label.last_mut().expect("a label is not empty") = byte,
        }
        label.truncate(LABEL);
    }
    label
}

/// The longest sheet's tables: 128 labels of eight bytes, widths, guards and starts of as many
/// digits as there can be, 2,000 pairs.
pub fn longest(rng: &mut Rng) -> Case {
    let mut c = case(rng, PATHS, Shape::Alone);
    let mut every: Vec<(usize, usize)> = Vec::new();
    (0..PATHS).for_each(|i| every.extend((i + 1..PATHS).map(|j| (i, j))));
    rng.shuffle(&mut every);
    for &(i, j) in &every[..MAX_PAIRS] {
        set_guard(&mut c, i, j, rng.range(10, MAX_GUARD) as u8);
    }
    for i in 0..PATHS {
        c.widths[i] = rng.range(10, MAX_WIDTH) as u16;
        c.starts[i] = rng.range(10_000, MAX_START) as u16;
        let label = format!("{i:03}-LONG");
        c.labels[LABEL * i..LABEL * (i + 1)].copy_from_slice(label.as_bytes());
    }
    c
}
