//! What ends a run before its end.

use std::io::{self, Write};

/// Why a run ends without all its answers.
pub enum Fault {
    /// The reader of the output has gone, and nobody is left to tell.
    Closed,
    /// What is wrong and where, for standard error.
    Said(String),
}

/// What a step of a run gives, or why the run ends.
pub type Run<T> = Result<T, Fault>;

/// Returns a fault in words.
pub fn said<T>(why: impl Into<String>) -> Run<T> {
    Err(Fault::Said(why.into()))
}

/// Returns a fault of reading or writing the file of a name.
pub fn failed(name: &str, e: &io::Error) -> Fault {
    match e.kind() {
        io::ErrorKind::BrokenPipe => Fault::Closed,
        _ => Fault::Said(format!("{name}: {e}")),
    }
}

/// Says something on standard error; the exit status tells it too where that can't be written.
pub fn tell(what: &str) {
    // One write, so that lines of several writers do not mix.
    let _ = io::stderr().write_all(format!("zaqnuti: {what}\n").as_bytes());
}

/// Says on standard error what may be wrong; the run goes on.
pub fn warn(what: &str) {
    tell(&format!("warning: {what}"));
}
