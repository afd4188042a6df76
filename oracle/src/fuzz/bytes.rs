//! Arguments from bytes. Past the end every byte is 0, so that each input decodes.

use crate::random::SPECIAL;

pub struct Bytes<'a> {
    left: &'a [u8],
    /// Whether floats are plain ones, so that the arithmetic is reached and not only the rules.
    plain: bool,
}

impl<'a> Bytes<'a> {
    pub fn new(left: &'a [u8]) -> Self {
        Self { left, plain: false }
    }

    /// From here on floats are plain ones, or of every bit pattern.
    pub fn set_plain(&mut self, plain: bool) {
        self.plain = plain;
    }

    /// The same by the next byte: plain where it is above a limit.
    pub fn plain_above(&mut self, limit: u8) {
        self.plain = self.byte() > limit;
    }

    pub fn byte(&mut self) -> u8 {
        match self.left.split_first() {
            Some((first, rest)) => {
                self.left = rest;
                *first
            }
            None => 0,
        }
    }

    pub fn is_empty(&self) -> bool {
        self.left.is_empty()
    }

    fn word<const N: usize>(&mut self) -> [u8; N] {
        std::array::from_fn(|_| self.byte())
    }

    pub fn u16(&mut self) -> u16 {
        u16::from_le_bytes(self.word())
    }

    pub fn u32(&mut self) -> u32 {
        u32::from_le_bytes(self.word())
    }

    pub fn u64(&mut self) -> u64 {
        u64::from_le_bytes(self.word())
    }

    pub fn flag(&mut self) -> bool {
        self.byte() & 1 == 1
    }

    /// Below n.
    pub fn below(&mut self, n: usize) -> usize {
        match n {
            0..=256 => usize::from(self.byte()) % n.max(1),
            _ => usize::from(self.u16()) % n,
        }
    }

    /// A count near a limit, or of any width.
    pub fn count(&mut self, limit: usize) -> usize {
        match self.byte() {
            0..=199 => self.below(limit + 3),
            200..=229 => limit,
            230..=239 => limit + 1,
            240..=247 => usize::MAX,
            _ => self.u64() as usize,
        }
    }

    /// A pattern: one at which something changes, its neighbour, or any.
    pub fn pattern(&mut self) -> u64 {
        match self.byte() {
            k @ 0..=39 => SPECIAL[usize::from(k)],
            k @ 40..=79 => SPECIAL[usize::from(k - 40)].wrapping_add(1),
            k @ 80..=119 => SPECIAL[usize::from(k - 80)].wrapping_sub(1),
            120..=179 => self.plain_float().to_bits(),
            _ => self.u64(),
        }
    }

    /// A whole number by a power of two.
    fn plain_float(&mut self) -> f64 {
        let whole = f64::from(i32::from_le_bytes(self.word()));
        let by = i32::from(self.byte() % 48) - 40;
        whole * f64::from(by).exp2()
    }

    pub fn float(&mut self) -> f64 {
        if self.plain {
            return self.plain_float();
        }
        f64::from_bits(self.pattern())
    }

    pub fn three(&mut self) -> [f64; 3] {
        std::array::from_fn(|_| self.float())
    }
}
