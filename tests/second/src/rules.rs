//! RULES 4 to 12: what packing, pressing, sides, planning, improving and floors are; and RULES 25,
//! why a path stands where it stands.
//!
//! Everything here is about a network that has passed its tests; refusals are in `calls`.

use crate::net::Network;

/// The last slot of a path.
pub fn end(net: &Network, path: usize, start: usize) -> usize {
    start + net.width(path) - 1
}

/// The highest slot in use.
pub fn highest(net: &Network, starts: &[usize]) -> usize {
    (0..net.paths()).map(|p| end(net, p, starts[p])).max().unwrap_or(0)
}

/// RULES 4: how many slots a conflicting pair is short. The upper path, the one of the higher start
/// or of equal starts the higher number, may begin one past the lower one's end and the guard.
pub fn shortfall(net: &Network, starts: &[usize], i: usize, j: usize, guard: usize) -> usize {
    let by_start = |path: usize| (starts[path], path);
    let (lower, upper) = if by_start(i) < by_start(j) { (i, j) } else { (j, i) };
    let clear = end(net, lower, starts[lower]) + guard + 1;
    clear.saturating_sub(starts[upper])
}

/// RULES 4: the first pair, by i then j, that is short, and by how many slots.
pub fn first_clash(net: &Network, starts: &[usize]) -> Option<(usize, usize, usize)> {
    let measured = |(i, j, guard)| (i, j, shortfall(net, starts, i, j, guard));
    net.conflicts().into_iter().map(measured).find(|&(_, _, short)| short > 0)
}

/// RULES 5: the lowest start past all earlier paths that are in conflict with this one.
fn start_after(net: &Network, path: usize, earlier: &[usize], starts: &[usize]) -> usize {
    let mut start = 1;
    for &other in earlier {
        if let Some(guard) = net.guard(path, other) {
            start = start.max(end(net, other, starts[other]) + guard + 1);
        }
    }
    start
}

/// RULES 5: the paths of an order placed one after the other.
pub fn pack(net: &Network, order: &[usize]) -> Vec<usize> {
    let mut starts = vec![0; net.paths()];
    for (position, &path) in order.iter().enumerate() {
        starts[path] = start_after(net, path, &order[..position], &starts);
    }
    starts
}

/// RULES 6: the paths by start, of equal starts the lower number first, packed.
pub fn press(net: &Network, starts: &[usize]) -> Vec<usize> {
    let mut order: Vec<usize> = (0..net.paths()).collect();
    order.sort_by_key(|&path| (starts[path], path));
    pack(net, &order)
}

/// What RULES 25 answers: the chain down from a path, and how many slots its last path can come
/// down.
pub struct Reason {
    pub chain: Vec<usize>,
    pub down: usize,
}

/// RULES 25: link after link, down to a path in slot 1 or to the first path that has no link.
pub fn why(net: &Network, starts: &[usize], path: usize) -> Reason {
    let mut chain = vec![path];
    let mut last = path;
    while let Some(lower) = link(net, starts, last) {
        chain.push(lower);
        last = lower;
    }
    Reason { chain, down: way_down(net, starts, last) }
}

/// RULES 25: the conflicting lower path whose end + guard + 1 is the start of this one, of several
/// the one of the lowest number. A path in slot 1 has none.
fn link(net: &Network, starts: &[usize], path: usize) -> Option<usize> {
    let carries = |&other: &usize| match net.guard(path, other) {
        Some(guard) if starts[other] < starts[path] => {
            end(net, other, starts[other]) + guard + 1 == starts[path]
        }
        _ => false,
    };
    (0..net.paths()).find(|other| starts[path] > 1 && carries(other))
}

/// RULES 25: the slots from a path down to the first start past its conflicting lower paths, which
/// are held.
fn way_down(net: &Network, starts: &[usize], path: usize) -> usize {
    let lower: Vec<usize> = (0..net.paths()).filter(|&p| starts[p] < starts[path]).collect();
    starts[path] - start_after(net, path, &lower, starts)
}

/// RULES 7: who is high, or nothing if there are no two sides.
pub fn sides(net: &Network) -> Option<Vec<bool>> {
    let mut high = vec![None; net.paths()];
    for path in 0..net.paths() {
        if high[path].is_none() && !colour(net, path, false, &mut high) {
            return None;
        }
    }
    Some(high.into_iter().map(|side| side == Some(true)).collect())
}

/// Puts a path on a side and all that it reaches on theirs; false if one would be on both.
fn colour(net: &Network, path: usize, side: bool, high: &mut [Option<bool>]) -> bool {
    if let Some(known) = high[path] {
        return known == side;
    }
    high[path] = Some(side);
    (0..net.paths()).all(|next| net.guard(path, next).is_none() || colour(net, next, !side, high))
}

/// RULES 7: first the low paths and then the high ones, each by number; and how many are low.
pub fn two_sided_order(net: &Network) -> Option<(Vec<usize>, usize)> {
    let high = sides(net)?;
    let low: Vec<usize> = (0..net.paths()).filter(|&p| !high[p]).collect();
    let above = (0..net.paths()).filter(|&p| high[p]);
    let size = low.len();
    Some((low.into_iter().chain(above).collect(), size))
}

/// RULES 8.
pub fn greedy_order(net: &Network) -> Vec<usize> {
    let mut order = Vec::new();
    let mut starts = vec![0; net.paths()];
    while order.len() < net.paths() {
        let left = (0..net.paths()).filter(|p| !order.contains(p));
        let offers = left.map(|p| (start_after(net, p, &order, &starts), p));
        let (start, path) = offers.min().expect("a path is left");
        starts[path] = start;
        order.push(path);
    }
    order
}

/// RULES 9, a draw: the next state.
pub fn next_state(x: u32) -> u32 {
    let wide = 1_664_525 * u64::from(x) + 1_013_904_223;
    (wide % (1 << 32)) as u32
}

/// RULES 9, a draw: the place that the state gives.
pub fn place_of(x: u32, n: usize) -> usize {
    (x / 65_536) as usize * n / 65_536
}

/// What improving answers.
pub struct Improved {
    pub order: Vec<usize>,
    pub starts: Vec<usize>,
    pub highest: usize,
    pub kept: usize,
}

/// RULES 9: round after round, a swap stays only where it lowers the highest slot.
pub fn improve(net: &Network, order: &[usize], seed: u32, rounds: usize) -> Improved {
    let mut order = order.to_vec();
    let mut starts = pack(net, &order);
    let mut kept = 0;
    let mut state = seed;
    for _ in 0..rounds {
        state = next_state(state);
        let first = place_of(state, net.paths());
        state = next_state(state);
        let second = place_of(state, net.paths());
        order.swap(first, second);
        let tried = pack(net, &order);
        if highest(net, &tried) < highest(net, &starts) {
            starts = tried;
            kept += 1;
        } else {
            order.swap(first, second);
        }
    }
    Improved { highest: highest(net, &starts), order, starts, kept }
}

/// RULES 10.
pub fn plan(net: &Network, seed: u32, rounds: usize) -> Improved {
    match two_sided_order(net) {
        Some((order, _)) => improve(net, &order, seed, 0),
        None => improve(net, &greedy_order(net), seed, rounds),
    }
}

/// RULES 12: the widths of the list, and the least that the guards from each path to the next one
/// add up to over all orders of the list.
pub fn floor(net: &Network, list: &[usize]) -> usize {
    let widths: usize = list.iter().map(|&p| net.width(p)).sum();
    let mut least = usize::MAX;
    each_order(&mut list.to_vec(), 0, &mut |order| least = least.min(walk(net, order)));
    widths + least
}

/// The guards from each path of an order to the next one, added. One path alone has none.
fn walk(net: &Network, order: &[usize]) -> usize {
    let guard = |two: &[usize]| net.guard(two[0], two[1]).expect("the list is all in conflict");
    order.windows(2).map(guard).sum()
}

/// Shows every order of a list that begins with its first `fixed` entries: each other entry has its
/// turn as the next one. Afterwards the list is as it was.
pub fn each_order<T>(list: &mut [T], fixed: usize, show: &mut dyn FnMut(&[T])) {
    if fixed == list.len() {
        return show(list);
    }
    for next in fixed..list.len() {
        list.swap(fixed, next);
        each_order(list, fixed + 1, show);
        list.swap(fixed, next);
    }
}
