//! The line form, against a plain reader of texts with `delta_position` behind it.

mod stored;
pub mod texts;

pub use stored::vectors;

use super::Service;
use crate::estimate::Displacement;
use crate::line_form::{self, LINE};
use crate::numbers::Numbers;
use crate::random::Random;
use crate::sky::Input;
use crate::tally::Tally;
use crate::{bench, ffi};
use std::hint::black_box;

pub const SERVICE: Service = Service {
    name: "line",
    count: 40_000,
    compare,
    bench: Some(time),
};

/// How many bytes lie before and after a lent buffer.
const MARGIN: usize = 16;

/// The refusal of a buffer that is shorter than the line.
const TOO_SHORT: u8 = 2;

/// Whether the library answers a text as expected in a buffer of so many bytes: 0, the line and its
/// length, or 2 where it does not fit, which changes nothing. No byte beyond the line may change.
fn holds(random: &mut Random, text: &[u8], expected: &[u8], room: usize) -> bool {
    let mut memory = vec![0; MARGIN + room + MARGIN];
    memory.fill_with(|| random.bits() as u8);
    let mut theirs = memory.clone();
    let fits = expected.len() <= room;
    if fits {
        theirs[MARGIN..MARGIN + expected.len()].copy_from_slice(expected);
    }
    let before = random.bits() as usize;
    let mut written = before;
    let number = ffi::line(text, &mut memory[MARGIN..MARGIN + room], &mut written);
    let answered = if fits {
        (0, expected.len())
    } else {
        (TOO_SHORT, before)
    };
    (number, written) == answered && memory == theirs
}

/// A text as far as it can be read, and its length.
fn shown(text: &[u8]) -> String {
    format!("{} bytes:\n{}", text.len(), text.escape_ascii())
}

fn compare(tally: &mut Tally, random: &mut Random, count: u64) {
    let mut numbers = Numbers::default();
    for place in 0..count {
        let text = texts::text(random);
        let answer = line_form::answer(&text);
        let expected = line_form::line(&answer);
        numbers.count(answer.err().unwrap_or(0));
        // A buffer of each length up to the longest line in turn, and one that is long enough.
        let short = place as usize % (LINE + 1);
        let long = LINE + random.place(70);
        let same = [short, long]
            .into_iter()
            .all(|room| holds(random, &text, &expected, room));
        tally.judge(same, || {
            let mut line = [0; LINE];
            let mut length = 0;
            ffi::line(&text, &mut line, &mut length);
            format!(
                "ours {}, Rust's {}, of {}",
                line[..length.min(LINE)].escape_ascii(),
                expected.escape_ascii(),
                shown(&text)
            )
        });
    }
    tally.note(format!(
        "{numbers}; buffers of 0 to {LINE} bytes, and longer"
    ));
}

fn time(random: &mut Random) {
    for n in [12, 30, 64] {
        // So few that one turn of each side is shorter than a time slice.
        let mut texts = Vec::new();
        while texts.len() < 192 / n {
            let input = Displacement::clean(random, n);
            if input.answer().is_ok() {
                texts.push(line_form::text(&line_form::lines(&input)));
            }
        }
        let (mut line, mut rust_line) = ([0; LINE], [0; LINE]);
        let mut length = 0;
        bench::row(
            "line",
            n,
            texts.len(),
            || {
                for text in &texts {
                    black_box(ffi::line(black_box(text), &mut line, &mut length));
                    black_box((&line, length));
                }
            },
            || {
                for text in &texts {
                    let input = line_form::read(black_box(text));
                    let delta = input.and_then(|input| input.rust());
                    black_box(line_form::print(&delta.ok_or(0), &mut rust_line));
                    black_box(&rust_line);
                }
            },
        );
    }
}
