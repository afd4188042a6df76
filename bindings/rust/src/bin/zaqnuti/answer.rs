//! How answers are told: in words or as CSV, and whether each call was answered.

use zaqnuti::Refusal;

use crate::args::Args;
use crate::fault::{self, Run};
use crate::output::Output;
use crate::tally::Tally;

/// The options of every command that writes answers.
pub const OPTIONS: [&str; 1] = ["-o"];
/// Its flags.
pub const FLAGS: [&str; 2] = ["--csv", "--ignore-unknown"];

/// Answers on their way out.
pub struct Answers {
    out: Output,
    csv: bool,
    told: u64,
    refused: Tally,
    /// Whether a call was refused that has no answer of its own.
    aside: bool,
}

impl Answers {
    /// Returns where the options say; the header is that of the CSV.
    pub fn open(args: &Args, header: &str) -> Run<Self> {
        let (mut out, csv) = (Output::open(args.value("-o"))?, args.has("--csv"));
        if csv {
            out.line(header)?;
        }
        Ok(Self {
            out,
            csv,
            told: 0,
            refused: Tally::default(),
            aside: false,
        })
    }

    /// Writes one answer, in words or as a line of CSV.
    pub fn tell(
        &mut self,
        words: impl FnOnce() -> String,
        csv: impl FnOnce() -> String,
    ) -> Run<()> {
        self.told += 1;
        self.out.line(if self.csv { csv() } else { words() })
    }

    /// Counts the refusal of an answer, and gives it in words.
    pub fn refused(&mut self, why: Refusal) -> String {
        self.refused.add(why.number(), 1);
        in_words(why)
    }

    /// Tells on standard error of a refused call that has no answer of its own.
    pub fn refused_aside(&mut self, what: &str, why: Refusal) {
        self.aside = true;
        fault::tell(&format!("{what}: {}", in_words(why)));
    }

    /// Ends the output, sums up the refusals, and tells whether every call was answered.
    pub fn close(self) -> Run<bool> {
        self.out.close()?;
        sum_up(&self.refused, self.told);
        Ok(self.refused.total() == 0 && !self.aside)
    }
}

/// Returns a refusal in words.
pub fn in_words(why: Refusal) -> String {
    format!("refused by {}: {}", why.number(), why.why())
}

/// Says on standard error how many of the calls were refused, where some were.
pub fn sum_up(refused: &Tally, all: u64) {
    if refused.total() > 0 {
        let (total, words) = (refused.total(), refused.words());
        fault::tell(&format!("{total} of {all} refused: {words}"));
    }
}
