//! Times of one thing done on two sides: rounds of each in turn, and the best round of each.
use std::time::Instant;

const ROUNDS: usize = 25;

/// Nanoseconds for each of `n` turns, of one side and of the other. `prepare` is not timed.
pub fn both<A, B>(
    n: usize,
    mut prepare: impl FnMut() -> (A, B),
    mut one: impl FnMut(&mut A),
    mut other: impl FnMut(&mut B),
) -> (f64, f64) {
    let mut best = (f64::MAX, f64::MAX);
    for _ in 0..ROUNDS {
        let (mut a, mut b) = prepare();
        let start = Instant::now();
        one(&mut a);
        best.0 = best.0.min(start.elapsed().as_nanos() as f64 / n as f64);
        let start = Instant::now();
        other(&mut b);
        best.1 = best.1.min(start.elapsed().as_nanos() as f64 / n as f64);
    }
    best
}
