//! A line on standard error while a long input is read.

use std::io::{self, IsTerminal, Write};
use std::time::{Duration, Instant};

/// How many lines are read between two looks at the clock.
const LINES: u64 = 4096;
/// How long a run is before it says how far it is, and between two such lines.
const PAUSE: Duration = Duration::from_millis(500);

/// How far the reading of one input is.
pub struct Progress {
    wanted: bool,
    shown: bool,
    last: Instant,
    size: Option<u64>,
}

impl Progress {
    /// Of an input of so many bytes, where that is known.
    ///
    /// Where answers go to the terminal as well, they show how far the run is.
    pub fn new(size: Option<u64>) -> Self {
        Self {
            wanted: io::stderr().is_terminal() && !io::stdout().is_terminal(),
            shown: false,
            last: Instant::now(),
            size,
        }
    }

    /// Says now and then how many lines and bytes have been read.
    pub fn tell(&mut self, name: &str, lines: u64, bytes: u64) {
        if !self.wanted || lines % LINES != 0 || self.last.elapsed() < PAUSE {
            return;
        }
        self.last = Instant::now();
        self.shown = true;
        let part = match self.size {
            Some(size) if size > 0 => format!("{} %", 100 * bytes.min(size) / size),
            _ => format!("{} MB", bytes / 1_000_000),
        };
        // Nothing is lost where the line can't be written.
        let _ = write!(io::stderr(), "\r\x1b[K{name}: {lines} lines, {part}");
    }
}

impl Drop for Progress {
    fn drop(&mut self) {
        if self.shown {
            let _ = write!(io::stderr(), "\r\x1b[K");
        }
    }
}
