//! The intervals between the rows of a drive: their median, and what is missing in gaps.

use std::collections::BTreeMap;

/// Intervals in classes: of a millisecond up to ten seconds, of a thousandth above. So memory is
/// bounded whatever the times are.
#[derive(Default)]
pub struct Intervals {
    classes: BTreeMap<u32, Class>,
    count: u64,
    longest: f64,
}

#[derive(Default)]
struct Class {
    count: u64,
    sum: f64,
}

/// An interval is a gap where it is longer than this many medians.
const GAP: f64 = 1.5;

fn class(seconds: f64) -> u32 {
    match seconds < 10.0 {
        true => (seconds * 1000.0) as u32,
        false => 10_000 + (1000.0 * (seconds / 10.0).ln()) as u32,
    }
}

impl Intervals {
    /// Takes one interval, in seconds.
    pub fn add(&mut self, seconds: f64) {
        let class = self.classes.entry(class(seconds)).or_default();
        class.count += 1;
        class.sum += seconds;
        self.count += 1;
        self.longest = self.longest.max(seconds);
    }

    /// Returns the longest interval.
    pub fn longest(&self) -> f64 {
        self.longest
    }

    /// Returns the median, the lower one of an even number.
    fn median(&self) -> f64 {
        let mut below = 0;
        for class in self.classes.values() {
            below += class.count;
            if 2 * below >= self.count {
                return class.sum / class.count as f64;
            }
        }
        0.0
    }

    /// Returns the seconds that are missing: of each gap what it has beyond the median.
    pub fn missing(&self) -> f64 {
        let median = self.median();
        let beyond = |class: &Class| match class.sum > GAP * median * class.count as f64 {
            true => class.sum - median * class.count as f64,
            false => 0.0,
        };
        self.classes.values().map(beyond).fold(0.0, |a, b| a + b)
    }
}
