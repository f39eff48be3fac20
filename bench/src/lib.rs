//! Interleaved timing of cards on the same work, the work and the states to time it on.

pub mod fixture;
pub mod tuned;
pub mod work;

use std::time::{Duration, Instant};

/// Most rounds, in each of which all are timed, and the fewest calls of one.
const MOST_ROUNDS: u32 = 4001;
const LEAST_CALLS: u32 = 250;

/// Work that is timed: `prepare` isn't, `run` is and makes `calls` calls.
pub struct Work<'a> {
    pub calls: u32,
    pub prepare: Box<dyn FnMut() + 'a>,
    pub run: Box<dyn FnMut() + 'a>,
}

impl Work<'_> {
    fn time(&mut self) -> Duration {
        (self.prepare)();
        let start = Instant::now();
        (self.run)();
        start.elapsed()
    }

    /// Nanoseconds per call over as many runs as it takes to reach `least` calls.
    pub fn sample(&mut self, least: u32) -> f64 {
        let runs = (least + self.calls - 1) / self.calls;
        let spent: Duration = (0..runs).map(|_| self.time()).sum();
        spent.as_nanos() as f64 / f64::from(runs * self.calls)
    }
}

/// The value, by a way that the compiler does not see through.
pub fn opaque<T>(value: T) -> T {
    // SAFETY: the value is read once and forgotten, so it is moved.
    unsafe {
        let moved = std::ptr::read_volatile(&value);
        std::mem::forget(value);
        moved
    }
}

/// Times both in turn and prints a line: nanoseconds per call, the median ratio and the middle half of the ratios.
pub fn compare(name: &str, calls: u32, proved: Work, reference: Work) {
    let ([ours, theirs], [_, [low, middle, high]]) = ratios(calls, &mut [proved, reference]);
    println!("{name:<42}{calls:>10}{ours:>12.1}{theirs:>12.1}{middle:>9.2}   {low:.2} to {high:.2}");
}

/// Times all in turn, in rounds short enough that other work on the machine disturbs few of them: the median of each in nanoseconds per call, and the
/// quartiles of the first's time over each one's.
pub fn ratios<const N: usize>(calls: u32, works: &mut [Work; N]) -> ([f64; N], [[f64; 3]; N]) {
    let rounds = (calls / LEAST_CALLS).clamp(1, MOST_ROUNDS);
    let per_round = (calls + rounds - 1) / rounds;
    for work in works.iter_mut() {
        work.sample(per_round);
    }
    let mut times: [Vec<f64>; N] = [(); N].map(|()| Vec::new());
    for round in 0..rounds as usize {
        for n in 0..N {
            let n = (n + round) % N;
            times[n].push(works[n].sample(per_round));
        }
    }
    let first = times[0].clone();
    let over = times.clone().map(|times| {
        let mut over: Vec<f64> = first.iter().zip(&times).map(|(a, b)| a / b).collect();
        [1, 2, 3].map(|quarter| quantile(&mut over, quarter))
    });
    (times.map(|mut times| quantile(&mut times, 2)), over)
}

pub fn heading(first: &str, second: &str) {
    println!("{first} against {second}; interleaved rounds; nanoseconds per call are medians");
    println!("{:<42}{:>10}{:>12}{:>12}{:>9}   middle half", "work", "calls", "first", "second", "ratio");
}

/// The quarter-th quartile.
fn quantile(values: &mut [f64], quarter: usize) -> f64 {
    values.sort_by(f64::total_cmp);
    values[(values.len() - 1) * quarter / 4]
}
