//! Times in turn: a sample of each side a round, so that what else the machine does falls on both.

use std::time::Instant;

/// The value as it is, unknown to the optimiser: `std::hint::black_box` for compilers that lack it.
pub fn black_box<T: Copy>(value: T) -> T {
    // A volatile read of a value that is there.
    unsafe { std::ptr::read_volatile(&value) }
}

/// Nanoseconds that `work` takes for each of `turns` calls.
pub fn sample(turns: usize, mut work: impl FnMut()) -> f64 {
    let start = Instant::now();
    for _ in 0..turns {
        work();
    }
    start.elapsed().as_nanos() as f64 / turns as f64
}

/// Least, middle and greatest of some figures.
#[derive(Clone, Copy)]
pub struct Spread {
    pub least: f64,
    pub middle: f64,
    pub greatest: f64,
}

/// The spread of figures; there must be one at least.
pub fn spread(mut figures: Vec<f64>) -> Spread {
    figures.sort_by(f64::total_cmp);
    Spread { least: figures[0], middle: figures[figures.len() / 2], greatest: figures[figures.len() - 1] }
}
