//! The line form.

use super::displacement::displacement_input;
use super::sys;
use crate::fuzz::lent::Lender;
use crate::fuzz::Bytes;
use crate::line_form::{self, lines, LINE};
use crate::random::Random;
use crate::services::line::texts::{self, BYTES_NEAR};

/// A change to one byte of a text.
struct Edit {
    kind: usize,
    place: usize,
    byte: u8,
}

impl Edit {
    fn of(b: &mut Bytes) -> Self {
        Self {
            kind: b.below(8),
            place: usize::from(b.u16()),
            byte: if b.flag() {
                BYTES_NEAR[b.below(BYTES_NEAR.len())]
            } else {
                b.byte()
            },
        }
    }

    fn apply(&self, text: &mut Vec<u8>) {
        let n = text.len();
        match self.kind {
            0 | 1 => text.insert(self.place % (n + 1), self.byte),
            _ if n == 0 => {}
            2 | 3 => drop(text.remove(self.place % n)),
            4 => text.truncate(self.place % n),
            5 => text[self.place % n] ^= 1 << (self.byte % 8),
            _ => text[self.place % n] = self.byte,
        }
    }
}

/// A text: any bytes, one of the comparison's, or that of an input, with some bytes changed.
fn text(b: &mut Bytes) -> Vec<u8> {
    // The changes come first, since an input takes all bytes that are left.
    let edits: Vec<Edit> = match b.below(8) {
        some @ 5.. => (0..some - 4).map(|_| Edit::of(b)).collect(),
        _ => Vec::new(),
    };
    let mut out = match b.below(8) {
        0 => std::iter::from_fn(|| (!b.is_empty()).then(|| b.byte())).collect(),
        1 | 2 => texts::text(&mut Random::new(b.u64(), "fuzz")),
        _ => line_form::text(&lines(&displacement_input(b))),
    };
    edits.iter().for_each(|edit| edit.apply(&mut out));
    out
}

pub fn line(b: &mut Bytes) {
    // 0 to 80 bytes, and 80 where no byte is left.
    let room = LINE + 21 - b.below(LINE + 22);
    let mut memory = vec![b.byte(); room];
    let before = b.u64() as usize;
    let text = text(b);
    let expected = line_form::line(&line_form::answer(&text));
    let mut lender = Lender::new();
    let text = lender.lend(&text);
    let line = lender.lend(&memory);
    let written = lender.lend(&[before]);
    // SAFETY: each pointer leads to what its length says.
    let number =
        unsafe { sys::zaqnuti_line(text.at(), text.len(), line.at(), line.len(), written.at()) };
    text.kept();
    let fits = expected.len() <= memory.len();
    assert_eq!(number, if fits { 0 } else { 2 });
    if fits {
        memory[..expected.len()].copy_from_slice(&expected);
    }
    line.holds(&memory);
    written.holds(&[if fits { expected.len() } else { before }]);
}
