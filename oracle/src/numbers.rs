//! How many answers were accepted, and how many had each number.

use std::collections::BTreeMap;
use std::fmt;

/// The answers so far.
#[derive(Default)]
pub struct Numbers(BTreeMap<u8, u64>);

impl Numbers {
    /// One answer more; an accepted one has 0.
    pub fn count(&mut self, number: u8) {
        *self.0.entry(number).or_default() += 1;
    }
}

impl fmt::Display for Numbers {
    fn fmt(&self, f: &mut fmt::Formatter) -> fmt::Result {
        write!(f, "{} accepted", self.0.get(&0).unwrap_or(&0))?;
        let mut refused = self.0.iter().filter(|n| *n.0 != 0);
        refused.try_for_each(|(n, k)| write!(f, ", {n}: {k}"))
    }
}
