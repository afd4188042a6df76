//! Bands of 32 bits beside the Rust's of 8.

use crate::random::Random;

/// The bands of ours that a session's codes of the Rust stand for, in the same order: nothing but equality and order of bands counts, so every
/// answer has to be the same.
#[derive(Clone, Copy, Debug)]
pub struct Naming {
    first: u32,
    step: u32,
}

impl Naming {
    /// Each code is its own band.
    pub const PLAIN: Self = Self { first: 0, step: 1 };

    /// Past 255: equal in their low 8 bits, equal in their low 16, equal in their low 24, and the last ones that there are.
    pub const FAR: [Self; 4] = [
        Self {
            first: 7,
            step: 0x100,
        },
        Self {
            first: 7,
            step: 0x1_0000,
        },
        Self {
            first: 0xFF_FFFF,
            step: 0x100_0000,
        },
        Self {
            first: u32::MAX - 255,
            step: 1,
        },
    ];

    /// Half of the sessions have the Rust's own bands.
    pub fn of(random: &mut Random) -> Self {
        if random.below(2) == 0 {
            Self::PLAIN
        } else {
            random.pick(&Self::FAR)
        }
    }

    pub fn band(self, code: u8) -> u32 {
        self.first + self.step * u32::from(code)
    }

    /// The code of a band, if it has one.
    pub fn code(self, band: u32) -> Option<u8> {
        let over = band.checked_sub(self.first)?;
        if over % self.step == 0 {
            u8::try_from(over / self.step).ok()
        } else {
            None
        }
    }
}
