//! The lines of a RINEX file, which has fixed columns.

use std::io::{BufRead, BufReader, Read};
use std::process::{Child, Command, Stdio};

use crate::csv;
use crate::fault::{failed, said, tell, Fault, Run};
use crate::progress::Progress;

/// The longest line that is read, in bytes.
const LONGEST: u64 = 65_536;

/// A file and the line of it that was read last.
pub struct Lines {
    name: String,
    source: Box<dyn BufRead>,
    unpacker: Option<Child>,
    text: Vec<u8>,
    number: u64,
    bytes: u64,
    /// Whether the last line has no end.
    open: bool,
    again: bool,
    progress: Progress,
}

/// Checks for the first bytes of a file compressed by gzip or compress.
fn packed(start: &[u8]) -> bool {
    start.starts_with(&[0x1F, 0x8B]) || start.starts_with(&[0x1F, 0x9D])
}

/// Starts `gzip` to decompress a file.
fn unpacked(path: &str) -> Run<(Child, Box<dyn BufRead>)> {
    let mut gzip = Command::new("gzip");
    gzip.args(["-dc", "--", path]).stdin(Stdio::null());
    let child = gzip.stdout(Stdio::piped()).stderr(Stdio::null()).spawn();
    let mut child =
        child.map_err(|e| Fault::Said(format!("{path}: compressed, and gzip fails: {e}")))?;
    match child.stdout.take() {
        Some(out) => Ok((child, Box::new(BufReader::with_capacity(1 << 16, out)))),
        None => said(format!("{path}: compressed, and gzip has no output")),
    }
}

impl Lines {
    /// Opens a file, which may be compressed; `-` is standard input, which may not.
    pub fn open(path: &str) -> Run<Self> {
        let (name, mut source, size) = csv::open(path)?;
        let start = source.fill_buf().map_err(|e| failed(path, &e))?;
        let (mut unpacker, mut size) = (None, size);
        if path != "-" && packed(start) {
            let (child, out) = unpacked(path)?;
            (unpacker, source, size) = (Some(child), out, None);
        }
        let mut lines = Self::new(name, source, size);
        lines.unpacker = unpacker;
        Ok(lines)
    }

    fn new(name: String, source: Box<dyn BufRead>, size: Option<u64>) -> Self {
        Self {
            name,
            source,
            unpacker: None,
            text: Vec::new(),
            number: 0,
            bytes: 0,
            open: false,
            again: false,
            progress: Progress::new(size),
        }
    }

    /// Reads from a text, for tests.
    #[cfg(test)]
    pub fn of(text: &str) -> Self {
        let source = std::io::Cursor::new(text.as_bytes().to_vec());
        Self::new("text".into(), Box::new(source), None)
    }

    /// A fault in the line that was read last.
    pub fn fault(&self, why: &str) -> Fault {
        Fault::Said(format!("{}:{}: {why}", self.name, self.number))
    }

    /// The name of the file, for messages.
    pub fn name(&self) -> &str {
        &self.name
    }

    /// The number of the line that was read last.
    pub fn number(&self) -> u64 {
        self.number
    }

    /// Goes to the next line; false at the end of the file.
    pub fn next(&mut self) -> Run<bool> {
        if std::mem::take(&mut self.again) {
            return Ok(true);
        }
        self.text.clear();
        let mut part = self.source.by_ref().take(LONGEST + 2);
        let n = part.read_until(b'\n', &mut self.text);
        let n = n.map_err(|e| failed(&self.name, &e))? as u64;
        self.number += u64::from(n > 0);
        self.bytes += n;
        self.progress.tell(&self.name, self.number, self.bytes);
        self.open = n > 0 && self.text.last() != Some(&b'\n') || n == 0 && self.open;
        while let Some(b'\n' | b'\r') = self.text.last() {
            self.text.pop();
        }
        if self.text.len() as u64 > LONGEST {
            return Err(self.fault(&format!("the line is above {LONGEST} bytes")));
        }
        if n == 0 {
            self.end()?;
        }
        Ok(n > 0)
    }

    /// Checks at the end of the file that it is whole and that gzip succeeded.
    fn end(&mut self) -> Run<()> {
        if std::mem::take(&mut self.open) {
            let why = "the last line has no end: is a part missing?";
            tell(&format!("{}:{}: {why}", self.name, self.number));
        }
        let Some(mut child) = self.unpacker.take() else {
            return Ok(());
        };
        let status = child.wait().map_err(|e| failed(&self.name, &e))?;
        match status.success() {
            true => Ok(()),
            false => Err(self.fault("gzip can't decompress the rest of the file")),
        }
    }

    /// Goes to the next line; the file must not end here.
    pub fn wanted(&mut self, what: &str) -> Run<()> {
        match self.next()? {
            true => Ok(()),
            false => Err(self.fault(&format!("the file ends within {what}"))),
        }
    }

    /// Makes `next` return the same line again.
    pub fn again(&mut self) {
        self.again = true;
    }

    /// The line that was read last.
    pub fn text(&self) -> &[u8] {
        &self.text
    }

    /// Returns some columns of the line, trimmed; columns past its end are blank.
    pub fn field(&self, from: usize, to: usize) -> &[u8] {
        let end = self.text.len();
        self.text[from.min(end)..to.min(end)].trim_ascii()
    }

    /// Returns one column; columns past the end of the line are blank.
    pub fn column(&self, at: usize) -> u8 {
        self.text.get(at).copied().unwrap_or(b' ')
    }

    /// The label of a line of the header.
    pub fn label(&self) -> &[u8] {
        self.field(60, 80)
    }

    /// A fault in some columns.
    pub fn fault_in(&self, field: &[u8], what: &str) -> Fault {
        let field = String::from_utf8_lossy(field);
        match field.is_empty() {
            true => self.fault(&format!("empty; expected {what}")),
            false => self.fault(&format!("{field:?} is not {what}")),
        }
    }

    /// A whole number.
    pub fn whole(&self, from: usize, to: usize, what: &str) -> Run<i64> {
        let field = self.field(from, to);
        let text = std::str::from_utf8(field).ok();
        let number = text.and_then(|t| t.parse().ok());
        number.ok_or_else(|| self.fault_in(field, what))
    }

    /// A decimal, whose exponent may be written with D or E.
    pub fn float(&self, from: usize, to: usize, what: &str) -> Run<f64> {
        let field = self.field(from, to);
        number(field).ok_or_else(|| self.fault_in(field, what))
    }

    /// A decimal, 0 where the columns are blank.
    pub fn float_or_0(&self, from: usize, to: usize, what: &str) -> Run<f64> {
        match self.field(from, to).is_empty() {
            true => Ok(0.0),
            false => self.float(from, to, what),
        }
    }
}

/// Parses a finite decimal.
pub fn number(field: &[u8]) -> Option<f64> {
    let exponent = |b: &u8| if matches!(b, b'D' | b'd') { b'E' } else { *b };
    let plain = |b: &u8| b.is_ascii_digit() || b"+-.EDed".contains(b);
    if field.len() > 40 || !field.iter().all(plain) {
        return None;
    }
    let mut text = [0; 40];
    let text = &mut text[..field.len()];
    text.iter_mut()
        .zip(field)
        .for_each(|(t, b)| *t = exponent(b));
    let x: f64 = std::str::from_utf8(text).ok()?.parse().ok()?;
    x.is_finite().then_some(x)
}

/// Parses a decimal without an exponent, rounded once: the common case, and fast.
pub fn plain(field: &[u8]) -> Option<f64> {
    const TENS: [f64; 10] = [1.0, 1e1, 1e2, 1e3, 1e4, 1e5, 1e6, 1e7, 1e8, 1e9];
    let (minus, digits) = match field.split_first() {
        Some((b'-', rest)) => (true, rest),
        Some((b'+', rest)) => (false, rest),
        _ => (false, field),
    };
    // Up to 15 digits and the powers of ten are exact, so the quotient is rounded once.
    if digits.is_empty() || digits.len() > 16 {
        return number(field);
    }
    let (mut whole, mut behind, mut dot, mut some) = (0_u64, 0, false, false);
    for b in digits {
        match b {
            b'0'..=b'9' => {
                whole = whole * 10 + u64::from(b - b'0');
                behind += usize::from(dot);
                some = true;
            }
            b'.' if !dot => dot = true,
            _ => return None,
        }
    }
    if !some || behind >= TENS.len() || whole > 999_999_999_999_999 {
        return number(field);
    }
    let x = whole as f64 / TENS[behind];
    Some(if minus { -x } else { x })
}

impl Drop for Lines {
    fn drop(&mut self) {
        if let Some(child) = &mut self.unpacker {
            // gzip ends by itself when its pipe is closed.
            let _ = child.kill();
            let _ = child.wait();
        }
    }
}

#[cfg(test)]
mod tests {
    use super::*;

    #[test]
    fn decimals_are_read_to_the_nearest() {
        for text in [
            "24767686.375",
            "-691177.898",
            "0.5",
            "-.123",
            "7",
            "+3.",
            "107066545.435",
        ] {
            let field = text.as_bytes();
            assert_eq!(plain(field), text.parse().ok(), "{text}");
            assert_eq!(number(field), text.parse().ok(), "{text}");
        }
        assert_eq!(number(b"-5.329070518200D-15"), Some(-5.3290705182e-15));
        assert_eq!(number(b"0.100000000000d+01"), Some(1.0));
    }

    #[test]
    fn what_is_no_decimal_is_told() {
        for text in [
            "", "-", ".", "1.2.3", "12 34", "inf", "NaN", "0x10", "1-2", "--1", "2e400",
        ] {
            assert_eq!(plain(text.as_bytes()), None, "{text}");
            assert_eq!(number(text.as_bytes()), None, "{text}");
        }
    }
}
