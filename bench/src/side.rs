//! One program's part in a case, and its times.

use std::hint::black_box;
use std::time::Instant;

/// Runs in one measurement: enough for the clock, few enough to stay undisturbed.
const RUNS: usize = 8;

/// The same of a long run.
const LONG_RUNS: usize = 1;

pub struct Side {
    run: Box<dyn FnMut() -> i64>,
    /// The points or calls of one run.
    count: usize,
    runs: usize,
    /// Nanoseconds a point or a call, one for each round.
    times: Vec<f64>,
}

impl Side {
    pub fn new(count: usize, run: impl FnMut() -> i64 + 'static) -> Side {
        Side {
            run: Box::new(run),
            count,
            runs: RUNS,
            times: Vec::new(),
        }
    }

    /// One whose every run is long, as that of a whole picture is.
    pub fn long(count: usize, run: impl FnMut() -> i64 + 'static) -> Side {
        Side {
            runs: LONG_RUNS,
            ..Side::new(count, run)
        }
    }

    /// Runs once. The sum of all answers.
    pub fn answers(&mut self) -> i64 {
        black_box((self.run)())
    }

    pub fn measure(&mut self) {
        // Once unmeasured, so that the memory is near and the loop is known.
        self.answers();
        let start = Instant::now();
        for _ in 0..self.runs {
            self.answers();
        }
        let nanoseconds = start.elapsed().as_nanos() as f64;
        self.times
            .push(nanoseconds / (self.runs * self.count) as f64);
    }

    pub fn median(&self) -> f64 {
        median(self.times.clone())
    }

    /// The ratio to another side in each round.
    pub fn over(&self, other: &Side) -> Vec<f64> {
        let times = self.times.iter().zip(&other.times);
        times.map(|(this, other)| this / other).collect()
    }
}

pub fn median(mut numbers: Vec<f64>) -> f64 {
    numbers.sort_by(f64::total_cmp);
    numbers[numbers.len() / 2]
}
