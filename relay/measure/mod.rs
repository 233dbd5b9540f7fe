//! What the benchmarks measure, and with which clock. The package's own benchmark and the oracle's each use a part.
#![allow(dead_code)]
pub mod calls;
pub mod frames;
pub mod hostile;
pub mod house;
pub mod nights;
pub mod shapes;
pub mod written;

use std::hint::black_box;

extern "C" {
    fn clock_gettime(clock: i32, time: *mut [i64; 2]) -> i32;
}

/// What this thread has run, in nanoseconds: what others do on the machine does not count.
pub fn thread_time() -> f64 {
    const CLOCK_THREAD_CPUTIME_ID: i32 = 3;
    let mut time = [0; 2];
    // SAFETY: `time` has the two words of a timespec.
    let failed = unsafe { clock_gettime(CLOCK_THREAD_CPUTIME_ID, &mut time) };
    assert_eq!(failed, 0, "the thread's clock");
    time[0] as f64 * 1e9 + time[1] as f64
}

pub fn median(mut times: Vec<f64>) -> f64 {
    times.sort_by(f64::total_cmp);
    times[times.len() / 2]
}

/// Medians of the time of each of two pieces of work, which take turns. Each sample runs a piece often enough to outlast
/// the clock's own cost.
pub fn beside<A, B>(mut one: impl FnMut() -> A, mut two: impl FnMut() -> B) -> (f64, f64) {
    let (inner_one, inner_two) = (turns(&mut one), turns(&mut two));
    let (mut times_one, mut times_two) = (Vec::new(), Vec::new());
    for _ in 0..101 {
        times_one.push(sample(&mut one, inner_one));
        times_two.push(sample(&mut two, inner_two));
    }
    (median(times_one), median(times_two))
}

/// Medians of the time of each of some pieces of work, which take turns.
pub fn in_turn<const N: usize>(works: [&mut dyn FnMut(); N]) -> [f64; N] {
    medians(&turns_of(101, works))
}

/// Samples of the time of each of some pieces of work, so many of each: one of every piece makes a turn.
pub fn turns_of<const N: usize>(count: usize, mut works: [&mut dyn FnMut(); N]) -> Vec<[f64; N]> {
    let inner = works.each_mut().map(turns);
    (0..count).map(|_| std::array::from_fn(|i| sample(&mut works[i], inner[i]))).collect()
}

/// The median of each piece's samples.
pub fn medians<const N: usize>(turns: &[[f64; N]]) -> [f64; N] {
    std::array::from_fn(|i| median(turns.iter().map(|turn| turn[i]).collect()))
}

/// The median of the time of a piece of work.
pub fn alone<A>(mut work: impl FnMut() -> A) -> f64 {
    let inner = turns(&mut work);
    median((0..31).map(|_| sample(&mut work, inner)).collect())
}

/// How often a piece of work runs in 50 microseconds, and at least once.
fn turns<A>(work: &mut impl FnMut() -> A) -> usize {
    sample(work, 1);
    let once = sample(work, 1).max(1.0);
    (50_000.0 / once).ceil().max(1.0) as usize
}

fn sample<A>(work: &mut impl FnMut() -> A, inner: usize) -> f64 {
    let start = thread_time();
    for _ in 0..inner {
        black_box(work());
    }
    (thread_time() - start) / inner as f64
}
