//! Times, and how they are set side by side.

use std::time::{Duration, Instant};

/// Many short rounds: on a busy machine some of them run undisturbed.
const ROUNDS: usize = 60;

pub const METHOD: &str =
    "each time is the least of 60 rounds; those of a row take turns, in one process, on the same inputs";

/// Nanoseconds, each for one step or one call.
#[derive(Clone, Copy)]
pub struct Pair {
    pub ours: f64,
    pub plain: f64,
}

/// Both times and their ratio, as columns of a table.
pub fn columns(pair: Pair) -> String {
    format!("{:.2} | {:.2} | {:.2}", pair.ours, pair.plain, pair.ours / pair.plain)
}

pub fn side_by_side(count: u64, mut ours: impl FnMut() -> Duration, mut plain: impl FnMut() -> Duration) -> Pair {
    let [ours, plain] = in_turn(count, [&mut ours, &mut plain]);
    Pair { ours, plain }
}

/// The least time of each over several rounds, divided by the `count` of steps, calls or crews in one round.
pub fn in_turn<const N: usize>(count: u64, mut works: [&mut dyn FnMut() -> Duration; N]) -> [f64; N] {
    let mut least = [Duration::MAX; N];
    for _ in 0..ROUNDS {
        for (work, least) in works.iter_mut().zip(&mut least) {
            *least = work().min(*least);
        }
    }
    least.map(|time| time.as_nanos() as f64 / count as f64)
}

pub fn timed<T>(work: impl FnOnce() -> T) -> (Duration, T) {
    let start = Instant::now();
    let result = work();
    (start.elapsed(), result)
}
