//! Stored answers as one stream of 64-bit numbers, least byte first, which `tests/replay` replays; its main.c has the format.

use std::sync::atomic::{AtomicUsize, Ordering};

/// What is given in a case, and the answer.
pub type Case = (Vec<u64>, Vec<u64>);

/// The cases of one kind, and the altered ones, which the replay has to tell from the library's answers.
pub struct Vectors {
    pub cases: Vec<Case>,
    pub altered: Vec<Case>,
}

impl Vectors {
    /// Cases with answers of one length; for each number of an answer, a copy of the last case, the one before it and so on is altered.
    pub fn of(cases: Vec<Case>) -> Self {
        let length = cases.first().map_or(0, |c| c.1.len());
        let last_first = cases.iter().rev().cycle();
        let altered = last_first
            .take(length)
            .enumerate()
            .map(|(k, case)| turned(case, length - 1 - k))
            .collect();
        Self { cases, altered }
    }

    /// Cases of one length, of which so many numbers at the end are the answer, from their numbers one after the other.
    pub fn alike(case: usize, answer: usize, numbers: Vec<u64>) -> Self {
        let split = |numbers: &[u64]| {
            let (given, answer) = numbers.split_at(case - answer);
            (given.to_vec(), answer.to_vec())
        };
        Self::of(numbers.chunks_exact(case).map(split).collect())
    }
}

/// How many cases of a kind are made as they come, for a comparison at scale; 0 for the stored answers.
pub static AS_THEY_COME: AtomicUsize = AtomicUsize::new(0);

/// As many cases of each answer's number as are wanted, out of those that `next` makes; it may make none.
pub fn of_each(wanted: &[(u8, usize)], mut next: impl FnMut() -> Option<(u8, Case)>) -> Vec<Case> {
    let many = AS_THEY_COME.load(Ordering::Relaxed);
    if many > 0 {
        return std::iter::from_fn(|| Some(next()))
            .flatten()
            .map(|(_, case)| case)
            .take(many)
            .collect();
    }
    let mut left = wanted.to_vec();
    let mut cases = Vec::new();
    while left.iter().any(|l| l.1 > 0) {
        let Some((number, case)) = next() else {
            continue;
        };
        if let Some(l) = left.iter_mut().find(|l| l.0 == number && l.1 > 0) {
            l.1 -= 1;
            cases.push(case);
        }
    }
    cases
}

/// A case with the lowest bit of one number of its answer turned.
pub fn turned((given, answer): &Case, place: usize) -> Case {
    let mut answer = answer.clone();
    answer[place] ^= 1;
    (given.clone(), answer)
}

/// The patterns of floats as they are handed over.
pub fn raw(floats: &[f64]) -> impl Iterator<Item = u64> + '_ {
    floats.iter().map(|x| x.to_bits())
}

/// How many bytes, and the bytes, eight in a number, the first one lowest.
pub fn packed(bytes: &[u8]) -> Vec<u64> {
    let number = |eight: &[u8]| eight.iter().rev().fold(0, |n, &b| n << 8 | u64::from(b));
    let numbers = bytes.chunks(8).map(number);
    [bytes.len() as u64].into_iter().chain(numbers).collect()
}

/// The stream so far.
#[derive(Default)]
pub struct Stream(pub Vec<u8>);

impl Stream {
    /// Adds the cases of a kind: behind its number, 0 or where they are altered 1, and how many numbers follow.
    pub fn add(&mut self, kind: u64, vectors: &Vectors) {
        for (altered, cases) in [(0, &vectors.cases), (1, &vectors.altered)] {
            for (given, answer) in cases {
                let length = (given.len() + answer.len()) as u64;
                for n in [kind, altered, length].iter().chain(given).chain(answer) {
                    self.0.extend_from_slice(&n.to_le_bytes());
                }
            }
        }
    }
}

#[cfg(test)]
mod tests {
    use super::*;

    #[test]
    fn a_stream_has_each_case_and_its_altered_copies() {
        let mut stream = Stream::default();
        stream.add(9, &Vectors::alike(3, 2, vec![5, 6, 7]));
        let numbers: Vec<u64> = stream
            .0
            .chunks_exact(8)
            .map(|n| u64::from_le_bytes(n.try_into().unwrap()))
            .collect();
        let cases = [[9, 0, 3, 5, 6, 7], [9, 1, 3, 5, 6, 6], [9, 1, 3, 5, 7, 7]];
        assert_eq!(numbers, cases.concat());
    }

    #[test]
    fn bytes_are_packed_the_first_one_lowest() {
        assert_eq!(packed(b""), [0]);
        assert_eq!(
            packed(b"abcdefghi"),
            [9, u64::from_le_bytes(*b"abcdefgh"), u64::from(b'i')]
        );
    }
}
