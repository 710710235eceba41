//! The table calls: their refusals in the order of RULES 18, and what they leave in the tables.
//!
//! Each test goes from the lowest index, over the square by rows. A refusal changes no table.

use crate::net::*;
use crate::rules;

/// What a call answers: its number, its place, with number 8 how many slots the pair is short
/// (else 0), and its other numbers (0 where it has none).
#[derive(Clone, Copy, Debug, PartialEq, Eq)]
pub struct Answer {
    pub number: usize,
    pub place: usize,
    pub short: usize,
    pub more: [usize; 2],
}

impl Answer {
    /// An answer that speaks of no clash.
    pub fn new(number: usize, place: usize, more: [usize; 2]) -> Answer {
        Answer { number, place, short: 0, more }
    }

    /// Number 0, place 0.
    pub fn done(first: usize, second: usize) -> Answer {
        Answer::new(0, 0, [first, second])
    }

    /// A refused answer has no numbers but those of the refusal.
    pub fn of(result: Result<Answer, Refusal>) -> Answer {
        let refused = |r: Refusal| Answer::new(r.number, r.place, [0, 0]).with_short(r.short);
        result.unwrap_or_else(refused)
    }

    /// The same answer with a shortfall.
    pub fn with_short(self, short: usize) -> Answer {
        Answer { short, ..self }
    }
}

/// A refusal: one row of RULES 17, and for number 8 the shortfall of RULES 4.
#[derive(Clone, Copy, Debug, PartialEq, Eq)]
pub struct Refusal {
    pub number: usize,
    pub place: usize,
    pub short: usize,
}

/// A refusal other than 8.
pub fn refuse<T>(number: usize, place: usize) -> Result<T, Refusal> {
    Err(Refusal { number, place, short: 0 })
}

/// Refuses at the first place, if there is one.
pub fn refuse_at(number: usize, place: Option<usize>) -> Result<(), Refusal> {
    place.map_or(Ok(()), |p| refuse(number, p))
}

/// 2: a table has not its size.
pub fn sizes(lent_and_fixed: &[(usize, usize)]) -> Result<(), Refusal> {
    let wrong = lent_and_fixed.iter().any(|(lent, fixed)| lent != fixed);
    refuse_at(2, wrong.then_some(0))
}

/// The tests 1, 3, 4 and 5; 2 has been made.
pub fn network(n: usize, widths: &[u16], guards: &[u8]) -> Result<Network, Refusal> {
    if !(1..=PATHS).contains(&n) {
        return refuse(1, 0);
    }
    refuse_at(3, (0..n).find(|&i| !(1..=MAX_WIDTH).contains(&usize::from(widths[i]))))?;
    refuse_at(4, first_cell(n, |i, j| bad_cell(i, j, guards[cell(i, j)])))?;
    refuse_at(5, first_cell(n, |i, j| i < j && guards[cell(i, j)] != guards[cell(j, i)]))?;
    Ok(Network::from_tables(n, widths, guards))
}

/// 4: neither a guard of 0 to 32 nor 255; on the diagonal all but 255.
fn bad_cell(i: usize, j: usize, value: u8) -> bool {
    if i == j {
        value != NONE
    } else {
        usize::from(value) > MAX_GUARD && value != NONE
    }
}

/// The first cell of the square, by i then j, of which something is so.
fn first_cell(n: usize, so: impl Fn(usize, usize) -> bool) -> Option<usize> {
    for i in 0..n {
        for j in 0..n {
            if so(i, j) {
                return Some(cell(i, j));
            }
        }
    }
    None
}

/// 6: an entry that is no path, or that comes a second time.
fn order_of(n: usize, order: &[u8]) -> Result<Vec<usize>, Refusal> {
    let bad = |p: usize| usize::from(order[p]) >= n || order[..p].contains(&order[p]);
    refuse_at(6, (0..n).find(|&p| bad(p)))?;
    Ok(order[..n].iter().map(|&path| usize::from(path)).collect())
}

/// 7: a start outside 1 to 16,384.
pub fn starts_of(n: usize, starts: &[u16]) -> Result<Vec<usize>, Refusal> {
    let starts: Vec<usize> = starts[..n].iter().map(|&s| usize::from(s)).collect();
    refuse_at(7, starts.iter().position(|s| !(1..=MAX_START).contains(s)))?;
    Ok(starts)
}

/// 8: the first pair that is short, by rows above the diagonal, and by how many slots.
fn valid(net: &Network, starts: &[usize]) -> Result<(), Refusal> {
    match rules::first_clash(net, starts) {
        None => Ok(()),
        Some((i, j, short)) => Err(Refusal { number: 8, place: cell(i, j), short }),
    }
}

/// 10: more than 10,000 rounds.
fn rounds_allowed(rounds: usize) -> Result<(), Refusal> {
    refuse_at(10, (rounds > MAX_ROUNDS).then_some(0))
}

/// 15: a list of wrong length, place 0; then an entry that is no path, comes again, or has no
/// conflict with an earlier one.
fn list_of(net: &Network, list: &[u8]) -> Result<Vec<usize>, Refusal> {
    if list.is_empty() || list.len() > MAX_LIST {
        return refuse(15, 0);
    }
    let paths: Vec<usize> = list.iter().map(|&path| usize::from(path)).collect();
    for (position, &path) in paths.iter().enumerate() {
        let apart = |&e: &usize| e == path || net.guard(e, path).is_none();
        if path >= net.paths() || paths[..position].iter().any(apart) {
            return refuse(15, position);
        }
    }
    Ok(paths)
}

fn put_starts(starts: &[usize], table: &mut [u16]) {
    for (place, &start) in table.iter_mut().zip(starts) {
        *place = u16::try_from(start).expect("a packed start is at most 12,256");
    }
}

fn put_order(order: &[usize], table: &mut [u8]) {
    for (place, &path) in table.iter_mut().zip(order) {
        *place = u8::try_from(path).expect("a path is at most 127");
    }
}

/// RULES 4: nothing beside number, place and shortfall.
pub fn judge(n: usize, widths: &[u16], guards: &[u8], starts: &[u16]) -> Answer {
    let run = || {
        sizes(&[(widths.len(), PATHS), (guards.len(), CELLS), (starts.len(), PATHS)])?;
        let net = network(n, widths, guards)?;
        valid(&net, &starts_of(n, starts)?)?;
        Ok(Answer::done(0, 0))
    };
    Answer::of(run())
}

/// RULES 5.
pub fn pack(n: usize, widths: &[u16], guards: &[u8], order: &[u8], starts: &mut [u16]) -> Answer {
    let mut run = || {
        sizes(&[(widths.len(), PATHS), (guards.len(), CELLS)])?;
        sizes(&[(order.len(), PATHS), (starts.len(), PATHS)])?;
        let net = network(n, widths, guards)?;
        let packed = rules::pack(&net, &order_of(n, order)?);
        put_starts(&packed, starts);
        Ok(Answer::done(rules::highest(&net, &packed), 0))
    };
    Answer::of(run())
}

pub fn press(n: usize, widths: &[u16], guards: &[u8], starts: &mut [u16]) -> Answer {
    let mut run = || {
        sizes(&[(widths.len(), PATHS), (guards.len(), CELLS), (starts.len(), PATHS)])?;
        let net = network(n, widths, guards)?;
        let lent = starts_of(n, starts)?;
        valid(&net, &lent)?;
        let pressed = rules::press(&net, &lent);
        put_starts(&pressed, starts);
        Ok(Answer::done(rules::highest(&net, &pressed), 0))
    };
    Answer::of(run())
}

/// RULES 25: 6 for a path of n or more, place 0, comes after 8. The chain takes the first cells of
/// its table; its length is answered, and how far its last path can come down.
pub fn why(
    n: usize, widths: &[u16], guards: &[u8], starts: &[u16], path: usize, chain: &mut [u8],
) -> Answer {
    let mut run = || {
        sizes(&[(widths.len(), PATHS), (guards.len(), CELLS)])?;
        sizes(&[(starts.len(), PATHS), (chain.len(), PATHS)])?;
        let net = network(n, widths, guards)?;
        let starts = starts_of(n, starts)?;
        valid(&net, &starts)?;
        refuse_at(6, (path >= n).then_some(0))?;
        let reason = rules::why(&net, &starts, path);
        put_order(&reason.chain, chain);
        Ok(Answer::done(reason.chain.len(), reason.down))
    };
    Answer::of(run())
}

/// RULES 7.
pub fn two_sides(n: usize, widths: &[u16], guards: &[u8], order: &mut [u8]) -> Answer {
    let mut run = || {
        sizes(&[(widths.len(), PATHS), (guards.len(), CELLS), (order.len(), PATHS)])?;
        let net = network(n, widths, guards)?;
        match rules::two_sided_order(&net) {
            None => refuse(9, 0),
            Some((found, low)) => {
                put_order(&found, order);
                Ok(Answer::done(low, 0))
            }
        }
    };
    Answer::of(run())
}

fn put_improved(found: &rules::Improved, order: &mut [u8], starts: &mut [u16]) -> Answer {
    put_order(&found.order, order);
    put_starts(&found.starts, starts);
    Answer::done(found.highest, found.kept)
}

/// RULES 10.
pub fn plan(
    n: usize, widths: &[u16], guards: &[u8], order: &mut [u8], starts: &mut [u16], seed: u32,
    rounds: usize,
) -> Answer {
    let mut run = || {
        sizes(&[(widths.len(), PATHS), (guards.len(), CELLS)])?;
        sizes(&[(order.len(), PATHS), (starts.len(), PATHS)])?;
        let net = network(n, widths, guards)?;
        rounds_allowed(rounds)?;
        Ok(put_improved(&rules::plan(&net, seed, rounds), order, starts))
    };
    Answer::of(run())
}

/// RULES 9.
pub fn improve(
    n: usize, widths: &[u16], guards: &[u8], order: &mut [u8], starts: &mut [u16], seed: u32,
    rounds: usize,
) -> Answer {
    let mut run = || {
        sizes(&[(widths.len(), PATHS), (guards.len(), CELLS)])?;
        sizes(&[(order.len(), PATHS), (starts.len(), PATHS)])?;
        let net = network(n, widths, guards)?;
        let lent = order_of(n, order)?;
        rounds_allowed(rounds)?;
        Ok(put_improved(&rules::improve(&net, &lent, seed, rounds), order, starts))
    };
    Answer::of(run())
}

/// RULES 11: 0 neither, 1 the first, 2 the second.
pub fn better(n: usize, widths: &[u16], guards: &[u8], first: &[u8], second: &[u8]) -> usize {
    let mut room = vec![0; PATHS];
    let one = pack(n, widths, guards, first, &mut room);
    let two = pack(n, widths, guards, second, &mut room);
    match (one.number, two.number) {
        (0, 0) if two.more[0] < one.more[0] => 2,
        (0, 0) => 1,
        _ => 0,
    }
}

/// RULES 12.
pub fn floor(n: usize, widths: &[u16], guards: &[u8], list: &[u8]) -> Answer {
    let run = || {
        sizes(&[(widths.len(), PATHS), (guards.len(), CELLS)])?;
        let net = network(n, widths, guards)?;
        Ok(Answer::done(rules::floor(&net, &list_of(&net, list)?), 0))
    };
    Answer::of(run())
}
