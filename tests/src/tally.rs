//! Counting comparisons and keeping the first differences.

use std::ops::ControlFlow;

/// Whether comparing goes on. Only a tally that stops early ever breaks.
pub type Flow = ControlFlow<()>;

const KEPT: usize = 10;

#[derive(Default)]
pub struct Tally {
    pub comparisons: u64,
    pub differences: u64,
    /// The first differences, each with all its inputs.
    pub first: Vec<String>,
    /// What was found besides, to be shown.
    pub found: Vec<String>,
    stops_early: bool,
}

impl Tally {
    /// A tally that ends the comparing at the first difference.
    pub fn stopping_early() -> Tally {
        Tally {
            stops_early: true,
            ..Tally::default()
        }
    }

    /// Counts one comparison. The description is made only if it is needed.
    pub fn compare(&mut self, same: bool, describe: impl FnOnce() -> String) -> Flow {
        self.comparisons += 1;
        if same {
            return Flow::Continue(());
        }
        self.differences += 1;
        if self.first.len() < KEPT {
            self.first.push(describe());
        }
        if self.stops_early {
            Flow::Break(())
        } else {
            Flow::Continue(())
        }
    }

    pub fn tell(&mut self, found: String) {
        self.found.push(found);
    }

    pub fn add(&mut self, other: Tally) {
        self.comparisons += other.comparisons;
        self.differences += other.differences;
        let left = KEPT - self.first.len();
        self.first.extend(other.first.into_iter().take(left));
    }
}
