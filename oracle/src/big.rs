//! Whole numbers of up to 8,192 bits, as much arithmetic as the accuracy bound needs.

use std::cmp::Ordering;

/// The words of a number; the bound's largest side takes 7,324 bits.
const WORDS: usize = 128;

/// A whole number, least word first.
#[derive(Clone)]
pub struct Big {
    words: [u64; WORDS],
    /// Words from here on are 0.
    length: usize,
}

impl Big {
    /// Zero.
    pub fn zero() -> Self {
        Self {
            words: [0; WORDS],
            length: 0,
        }
    }

    /// n times 2 to the power `shift`.
    pub fn from(n: u128, shift: usize) -> Self {
        let mut out = Self::zero();
        out.add(&[n as u64, (n >> 64) as u64], shift);
        out
    }

    /// Adds the number of these words, times 2 to the power `shift`.
    fn add(&mut self, words: &[u64], shift: usize) {
        let (skip, bits) = (shift / 64, shift % 64);
        let mut carry = false;
        let mut below = 0;
        let mut k = skip;
        for &word in words.iter().chain(&[0]) {
            let moved = (u128::from(word) << bits | u128::from(below)) as u64;
            below = if bits == 0 { 0 } else { word >> (64 - bits) };
            carry = self.add_word(k, moved, carry);
            k += 1;
        }
        while carry {
            carry = self.add_word(k, 0, true);
            k += 1;
        }
    }

    /// Adds to one word and gives the carry.
    fn add_word(&mut self, k: usize, word: u64, carry: bool) -> bool {
        if word == 0 && !carry {
            return false;
        }
        let (sum, first) = self.words[k].overflowing_add(word);
        let (sum, second) = sum.overflowing_add(u64::from(carry));
        self.words[k] = sum;
        self.length = self.length.max(k + 1);
        first | second
    }

    /// Adds a number times 2 to the power `shift`.
    pub fn add_shifted(&mut self, other: &Big, shift: usize) {
        self.add(&other.words[..other.length], shift);
    }

    /// Adds n times 2 to the power `shift`.
    pub fn add_small(&mut self, n: u128, shift: usize) {
        self.add(&[n as u64, (n >> 64) as u64], shift);
    }

    /// This number times n.
    pub fn times_small(&self, n: u64) -> Big {
        let mut out = Self::zero();
        let mut carry = 0u128;
        for k in 0..self.length {
            carry += u128::from(self.words[k]) * u128::from(n);
            out.words[k] = carry as u64;
            carry >>= 64;
        }
        out.length = self.length;
        if carry != 0 {
            out.words[self.length] = carry as u64;
            out.length += 1;
        }
        out
    }

    /// The product.
    pub fn times(&self, other: &Big) -> Big {
        let mut out = Self::zero();
        for k in 0..other.length {
            out.add_shifted(&self.times_small(other.words[k]), 64 * k);
        }
        out
    }

    /// The distance between two numbers.
    pub fn distance(&self, other: &Big) -> Big {
        let (high, low) = match self.compare(other) {
            Ordering::Less => (other, self),
            _ => (self, other),
        };
        let mut out = high.clone();
        let mut borrow = false;
        for k in 0..high.length {
            let (rest, first) = out.words[k].overflowing_sub(low.words[k]);
            let (rest, second) = rest.overflowing_sub(u64::from(borrow));
            out.words[k] = rest;
            borrow = first | second;
        }
        out
    }

    /// Which of two numbers is larger.
    pub fn compare(&self, other: &Big) -> Ordering {
        let n = self.length.max(other.length);
        self.words[..n]
            .iter()
            .rev()
            .cmp(other.words[..n].iter().rev())
    }

    /// The leading digits and the power of two that they are multiplied by, for printing alone.
    fn leading(&self) -> (f64, i32) {
        match (0..self.length).rev().find(|&k| self.words[k] != 0) {
            None => (0.0, 0),
            Some(0) => (self.words[0] as f64, 0),
            Some(k) => {
                let top = u128::from(self.words[k]) << 64 | u128::from(self.words[k - 1]);
                (top as f64, 64 * (k as i32 - 1))
            }
        }
    }

    /// This number over another, to a few digits.
    pub fn over(&self, other: &Big) -> f64 {
        let ((a, p), (b, q)) = (self.leading(), other.leading());
        a / b * 2f64.powi(p - q)
    }
}

#[cfg(test)]
mod tests {
    use super::*;

    #[test]
    fn sums_products_and_distances() {
        let a = Big::from(u128::MAX, 700);
        let mut b = a.clone();
        b.add_small(1, 700);
        assert!(b.compare(&Big::from(1, 828)).is_eq());
        assert!(b.distance(&a).compare(&Big::from(1, 700)).is_eq());
        assert!(a.distance(&b).compare(&Big::from(1, 700)).is_eq());
        // (2^128 - 1)² = 2^256 - 2^129 + 1.
        let mut square = Big::from(u128::MAX, 0).times(&Big::from(u128::MAX, 0));
        square.add_small(1, 129);
        let mut expected = Big::from(1, 256);
        expected.add_small(1, 0);
        assert!(square.compare(&expected).is_eq());
        assert_eq!(Big::from(3, 6000).over(&Big::from(1, 6001)), 1.5);
        assert!(a.compare(&b).is_lt());
    }
}
