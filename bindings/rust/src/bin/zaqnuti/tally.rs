//! How many calls were refused, and by which numbers.

use std::collections::BTreeMap;

/// Refusals by their numbers.
#[derive(Clone, Default)]
pub struct Tally(BTreeMap<u8, u64>);

impl Tally {
    /// Counts refusals of one number.
    pub fn add(&mut self, number: u8, count: u64) {
        if count > 0 {
            *self.0.entry(number).or_default() += count;
        }
    }

    /// Adds another tally.
    pub fn join(&mut self, other: &Self) {
        for (&number, &count) in &other.0 {
            self.add(number, count);
        }
    }

    /// Returns how many there are.
    pub fn total(&self) -> u64 {
        self.0.values().sum()
    }

    /// As a field of CSV: `7:3 8:28`.
    pub fn field(&self) -> String {
        self.joined(|number, count| format!("{number}:{count}"), " ")
    }

    /// For a message: `7 ×3, 8 ×28`.
    pub fn words(&self) -> String {
        self.joined(|number, count| format!("{number} ×{count}"), ", ")
    }

    /// As an object of JSON.
    pub fn json(&self) -> String {
        let inner = self.joined(|number, count| format!("\"{number}\":{count}"), ",");
        format!("{{{inner}}}")
    }

    fn joined(&self, each: impl Fn(u8, u64) -> String, between: &str) -> String {
        let parts = self.0.iter().map(|(&number, &count)| each(number, count));
        parts.collect::<Vec<_>>().join(between)
    }

    /// Reads a field of CSV.
    pub fn read(field: &str) -> Option<Self> {
        let mut out = Self::default();
        for part in field.split_whitespace() {
            let (number, count) = part.split_once(':')?;
            // Counts of 32 bits: no sum of them wraps.
            let count: u32 = count.parse().ok()?;
            out.add(number.parse().ok()?, count.into());
        }
        Some(out)
    }
}
