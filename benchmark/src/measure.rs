//! Two pieces of work, timed by turns.
use std::hint::black_box;
use std::time::{Duration, Instant};

const ROUNDS: usize = 101;
const BATCH: Duration = Duration::from_millis(2);

/// The answer is lent to `black_box` whole, so that all of it must be worked out.
fn time<A>(calls: u32, work: &mut impl FnMut() -> A) -> Duration {
    let begin = Instant::now();
    for _ in 0..calls {
        black_box(&work());
    }
    begin.elapsed()
}

/// How many calls take about as long as a batch. Warms the caches too.
fn calls_in_a_batch<A>(work: &mut impl FnMut() -> A) -> u32 {
    let mut calls = 1;
    while time(calls, work) < BATCH {
        calls *= 2;
    }
    calls
}

/// A batch each time it is called: the nanoseconds of one call of the work.
pub fn batches<A>(mut work: impl FnMut() -> A) -> impl FnMut() -> f64 {
    let calls = calls_in_a_batch(&mut work);
    move || time(calls, &mut work).as_nanos() as f64 / f64::from(calls)
}

/// Both figures from the least disturbed round. Neither always goes first.
pub fn least(mut ours: impl FnMut() -> f64, mut rivals: impl FnMut() -> f64) -> (f64, f64) {
    let (mut a, mut b) = (f64::INFINITY, f64::INFINITY);
    for round in 0..ROUNDS {
        if round % 2 == 0 {
            a = a.min(ours());
        }
        b = b.min(rivals());
        if round % 2 == 1 {
            a = a.min(ours());
        }
    }
    (a, b)
}

/// The nanoseconds of one call of each.
pub fn by_turns<A, B>(ours: impl FnMut() -> A, rivals: impl FnMut() -> B) -> (f64, f64) {
    least(batches(ours), batches(rivals))
}
