//! The displacement of a text in the line form: `cargo run --example line < examples/drive/01.txt`.

use std::io::{self, Read, Write};

use zaqnuti::{line, TEXT};

fn main() -> io::Result<()> {
    let mut text = Vec::new();
    // One byte more than a text may have is refused like any number more.
    io::stdin().take(TEXT as u64 + 1).read_to_end(&mut text)?;
    io::stdout().write_all(line::answer(&text).as_bytes())
}
