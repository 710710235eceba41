//! Measuring in turns, so that whatever else the machine does meets all that is compared alike.

use std::hint::black_box;

/// What was worked out is not optimised away.
pub fn done<T>(result: T) {
    black_box(result);
}

#[repr(C)]
struct Time {
    seconds: i64,
    nanoseconds: i64,
}

extern "C" {
    fn clock_gettime(clock: i32, time: *mut Time) -> i32;
}

/// The time of this thread on a processor, in seconds: it stands still while others have it. The
/// number of the clock and the shape of the time are those of 64-bit Linux.
fn processor_time() -> f64 {
    const THREAD: i32 = 3;
    let mut time = Time { seconds: 0, nanoseconds: 0 };
    // SAFETY: the time is a struct of its own, of the shape that the call writes.
    let failed = unsafe { clock_gettime(THREAD, &mut time) };
    assert!(failed == 0, "no clock");
    time.seconds as f64 + 1e-9 * time.nanoseconds as f64
}

/// Seconds of one piece of work, on a processor.
pub fn seconds(work: &mut dyn FnMut()) -> f64 {
    let began = processor_time();
    work();
    processor_time() - began
}

pub fn median(mut values: Vec<f64>) -> f64 {
    values.sort_by(f64::total_cmp);
    values[values.len() / 2]
}

/// The first work's time by that of each: the median over the turns. Each turn begins with another.
pub fn ratios<const K: usize>(turns: usize, mut works: [&mut dyn FnMut(); K]) -> [f64; K] {
    works.iter_mut().for_each(|work| work());
    let mut times = vec![[0.0; K]; turns];
    for (turn, times) in times.iter_mut().enumerate() {
        for k in (0..K).map(|k| (turn + k) % K) {
            times[k] = seconds(works[k]);
        }
    }
    std::array::from_fn(|k| median(times.iter().map(|t| t[0] / t[k]).collect()))
}
