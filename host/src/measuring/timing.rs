//! Times of calls, and medians of them.

use std::hint::black_box;
use std::time::Instant;

/// A call that was made: what it left in the copy that it was lent, its answer, and its microseconds.
pub struct Timed<L, A> {
    pub left: L,
    pub answer: A,
    pub micros: f64,
}

/// One call on a copy of what it is lent. The copy is made just before, and so in the cache, whatever its size.
pub fn timed<L: Clone, A>(lent: &L, call: impl FnOnce(&mut L) -> A) -> Timed<L, A> {
    let mut left = lent.clone();
    let start = Instant::now();
    let answer = black_box(call(&mut left));
    let micros = start.elapsed().as_secs_f64() * 1e6;
    Timed { left, answer, micros }
}

fn median(times: &mut [f64]) -> f64 {
    times.sort_by(f64::total_cmp);
    times[times.len() / 2]
}

/// Microseconds of both sides, each the median over all rounds, called in turn on the same input.
pub fn medians<I>(
    rounds: usize,
    inputs: &[I],
    mut ours: impl FnMut(&I) -> f64,
    mut theirs: impl FnMut(&I) -> f64,
) -> (f64, f64) {
    let (mut our_times, mut their_times) = (vec![], vec![]);
    for round in 0..rounds {
        let input = &inputs[round % inputs.len()];
        if round % 2 == 0 {
            our_times.push(ours(input));
            their_times.push(theirs(input));
        } else {
            their_times.push(theirs(input));
            our_times.push(ours(input));
        }
    }
    (median(&mut our_times), median(&mut their_times))
}
