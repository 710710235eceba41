//! The centre of a block and its number (RULES 27): all anchors, all starts and all widths, one past each
//! end, and numbers as far away as they can be. Each double is held against whole numbers.

use crate::compare::{self, Call, Case, Tally};
use crate::gen::{self, Rng};
use crate::net::*;
use crate::order::MAX_ANCHOR;

pub const PIECES: usize = 40;

pub fn piece(t: &mut Tally, rng: &mut Rng, number: usize) {
    let share = |first: i64, last: i64| (first + number as i64..=last).step_by(PIECES);
    let past = i64::from(MAX_ANCHOR) + 2;
    for anchor in share(-past, past) {
        for start in STARTS {
            WIDTHS.into_iter().for_each(|width| told(t, anchor as i32, start, width));
        }
    }
    let any = gen::anchor(rng);
    for start in share(0, MAX_START as i64 + 2) {
        for anchor in [-MAX_ANCHOR, any] {
            (0..=MAX_WIDTH + 1).for_each(|width| told(t, anchor, start as usize, width));
        }
    }
    if number == 0 {
        far_away(t);
    }
    any_numbers(t, rng);
}

const STARTS: [usize; 16] =
    [0, 1, 2, 3, 63, 64, 255, 256, 257, 4_096, 8_191, 8_192, 16_383, 16_384, 16_385, 65_537];
const WIDTHS: [usize; 12] = [0, 1, 2, 3, 4, 31, 32, 33, 63, 64, 65, 257];

/// Asks for a centre, and holds it against the ranges and the whole numbers: four times it is
/// 772,400 + 25n, and its way from 193,100 has n steps of 6.25, with nothing lost.
fn told(t: &mut Tally, anchor: i32, start: usize, width: usize) {
    let c = Case { anchor, block: [start, width], ..Case::default() };
    t.cases += 1;
    let Some((number, centre)) = compare::centre(t, &c) else { return };
    let want = match (anchor, width, start) {
        (..=-1_025 | 1_025.., _, _) => 17,
        (_, 0 | 65.., _) => 3,
        (_, _, 0 | 16_385..) => 7,
        _ => 0,
    };
    t.check_of(Call::Centre, "17, then 3, then 7", &c, number == want);
    let right = if want == 0 {
        let n = i64::from(anchor) + 2 * start as i64 - 2 + width as i64;
        4.0 * centre == (772_400 + 25 * n) as f64 && (centre - 193_100.0) / 6.25 == n as f64
    } else {
        centre.to_bits() == 0
    };
    t.check_of(Call::Centre, "a centre has lost nothing, and a refused one is 0.0", &c, right);
}

/// Each argument right, just past its range, in range once it is cut to 16 or to 32 bits, or as far
/// away as it can be: all of them with all.
fn far_away(t: &mut Tally) {
    let ends = [i32::MIN, i32::MIN + 1, i32::MAX - 1, i32::MAX];
    let cut = [-65_536, 65_536, 65_537, 131_072, -1_025, -1_024, 0, 1_024, 1_025];
    let far = |right: usize, past: usize| {
        let low = [0, right, past, (1 << 16) + right, (1 << 32) + right, (1 << 31) + right];
        let high = [1 << 63, (1 << 63) + right, usize::MAX - 1, usize::MAX];
        [&low[..], &high[..]].concat()
    };
    for anchor in ends.into_iter().chain(cut) {
        for start in far(1, 16_385).into_iter().chain(far(16_384, 16_386)) {
            for width in far(1, 65).into_iter().chain(far(64, 66)) {
                told(t, anchor, start, width);
            }
        }
    }
}

fn any_numbers(t: &mut Tally, rng: &mut Rng) {
    for _ in 0..500 {
        let (anchor, start, width) = (gen::anchor(rng), rng.range(1, MAX_START), rng.range(1, 64));
        told(t, anchor, start, width);
        let anchors = [rng.bits() as i32, gen::wrong_anchor(rng), anchor];
        let starts = [rng.bits() as usize, rng.below(20_000), start];
        let widths = [rng.bits() as usize, rng.below(80), width];
        told(t, rng.pick(&anchors), rng.pick(&starts), rng.pick(&widths));
    }
}
