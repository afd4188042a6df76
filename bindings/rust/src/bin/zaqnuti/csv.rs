//! Decimal CSV with a header line, read line by line in bounded memory.

use std::fs::File;
use std::io::{self, BufRead, BufReader, Read};
use std::str::FromStr;
use std::sync::atomic::{AtomicBool, Ordering};

use crate::fault::{failed, said, warn, Fault, Run};
use crate::files;
use crate::names;
use crate::progress::Progress;

/// The longest line that is read, in bytes.
const LONGEST: u64 = 65_536;

/// A column of a table by its place.
#[derive(Clone, Copy)]
pub struct Column {
    place: usize,
    name: &'static str,
}

/// A CSV file and the line of it that was read last.
pub struct Table {
    name: String,
    source: Box<dyn BufRead>,
    header: Vec<String>,
    text: String,
    fields: Vec<(usize, usize)>,
    lines: u64,
    bytes: u64,
    progress: Progress,
}

/// Whether standard input is some file's already.
static TAKEN: AtomicBool = AtomicBool::new(false);

/// Returns a name for messages, and what can be read; `-` is standard input.
pub fn open(path: &str) -> Run<(String, Box<dyn BufRead>, Option<u64>)> {
    if path == "-" {
        if TAKEN.swap(true, Ordering::Relaxed) {
            return said("standard input: is read twice");
        }
        let source = Box::new(io::stdin().lock());
        return Ok(("standard input".into(), source, None));
    }
    let file = File::open(path).map_err(|e| failed(path, &e))?;
    let about = file.metadata().map_err(|e| failed(path, &e))?;
    if about.is_dir() {
        return said(format!("{path}: is a folder"));
    }
    files::read(path, &about)?;
    let size = about.is_file().then_some(about.len());
    Ok((path.into(), Box::new(BufReader::new(file)), size))
}

impl Table {
    /// Returns the table of a file, whose header line is read.
    pub fn open(path: &str, strangers: bool) -> Run<Self> {
        let (name, source, size) = open(path)?;
        let mut table = Self {
            name,
            source,
            header: Vec::new(),
            text: String::new(),
            fields: Vec::new(),
            lines: 0,
            bytes: 0,
            progress: Progress::new(size),
        };
        if !table.read_line()? {
            return said(format!("{}: is empty; expected a header line", table.name));
        }
        // Spreadsheets begin a file so.
        if let Some(rest) = table.text.strip_prefix('\u{feff}') {
            table.text = rest.to_string();
        }
        table.header = table
            .text
            .split(',')
            .map(|n| n.trim().to_string())
            .collect();
        table.check_header(strangers)?;
        Ok(table)
    }

    fn check_header(&self, strangers: bool) -> Run<()> {
        for (i, name) in self.header.iter().enumerate() {
            if self.header[..i].contains(name) {
                return Err(self.fault(&format!("the column {name:?} appears twice")));
            }
            if names::is_known(name) {
                continue;
            }
            if !strangers {
                let hint = "see --help, or give --ignore-unknown";
                return Err(self.fault(&format!("the column {name:?} is unknown; {hint}")));
            }
            if let Some((known, how)) = names::near(name) {
                let at = format!("{}:1: the column {name:?} is not read", self.name);
                warn(&format!("{at}; it differs from {known:?} {how}"));
            }
        }
        Ok(())
    }

    /// Returns a fault in the line that was read last.
    pub fn fault(&self, why: &str) -> Fault {
        Fault::Said(format!("{}:{}: {why}", self.name, self.lines))
    }

    /// Returns a fault in a field of the line that was read last.
    pub fn fault_in(&self, column: Column, why: &str) -> Fault {
        self.fault(&format!("{}: {why}", column.name))
    }

    /// Reads one line without its end, LF or CRLF; false at the end of the file.
    fn read_line(&mut self) -> Run<bool> {
        let mut bytes = std::mem::take(&mut self.text).into_bytes();
        bytes.clear();
        let mut part = self.source.by_ref().take(LONGEST + 2);
        let n = part.read_until(b'\n', &mut bytes);
        let n = n.map_err(|e| failed(&self.name, &e))? as u64;
        self.lines += u64::from(n > 0);
        self.bytes += n;
        self.progress.tell(&self.name, self.lines, self.bytes);
        if bytes.last() == Some(&b'\n') {
            bytes.pop();
        }
        if bytes.last() == Some(&b'\r') {
            bytes.pop();
        }
        if bytes.len() as u64 > LONGEST {
            return Err(self.fault(&format!("the line is above {LONGEST} bytes")));
        }
        let text = String::from_utf8(bytes);
        self.text = text.map_err(|_| self.fault("the line is not UTF-8 text"))?;
        Ok(n > 0)
    }

    /// Goes to the next line that is not blank; false at the end of the file.
    pub fn next(&mut self) -> Run<bool> {
        loop {
            if !self.read_line()? {
                return Ok(false);
            }
            if !self.text.trim().is_empty() {
                break;
            }
        }
        self.fields.clear();
        let mut start = 0;
        for (end, &byte) in self.text.as_bytes().iter().enumerate() {
            if byte == b',' {
                self.fields.push((start, end));
                start = end + 1;
            }
        }
        self.fields.push((start, self.text.len()));
        if self.fields.len() == self.header.len() {
            return Ok(true);
        }
        let (have, want) = (self.fields.len(), self.header.len());
        Err(self.fault(&format!("{have} fields, the header has {want}")))
    }

    /// Returns the number of the line that was read last.
    pub fn line(&self) -> u64 {
        self.lines
    }

    /// Returns the name of the file, for messages.
    pub fn name(&self) -> &str {
        &self.name
    }

    /// Returns the header line.
    pub fn header(&self) -> String {
        self.header.join(",")
    }

    /// Returns the line that was read last.
    pub fn text(&self) -> &str {
        &self.text
    }

    /// Returns a column, if the file has it.
    pub fn optional(&self, name: &'static str) -> Option<Column> {
        let place = self.header.iter().position(|n| n == name)?;
        Some(Column { place, name })
    }

    /// Returns a column that must be there.
    pub fn column(&self, name: &'static str) -> Run<Column> {
        match self.optional(name) {
            Some(column) => Ok(column),
            None => said(format!("{}:1: the column {name:?} is missing", self.name)),
        }
    }

    /// Three columns that must be there.
    pub fn columns(&self, names: [&'static str; 3]) -> Run<[Column; 3]> {
        let [x, y, z] = names;
        Ok([self.column(x)?, self.column(y)?, self.column(z)?])
    }

    /// Three columns, if the file has the first of them.
    pub fn optionals(&self, names: [&'static str; 3]) -> Run<Option<[Column; 3]>> {
        match self.optional(names[0]) {
            Some(_) => self.columns(names).map(Some),
            None => Ok(None),
        }
    }

    /// Returns a field of the line that was read last, without spaces around it.
    pub fn field(&self, column: Column) -> &str {
        let (start, end) = self.fields[column.place];
        let field = &self.text[start..end];
        // Most fields have no space around them.
        match field.as_bytes() {
            [first, .., last] if first.is_ascii_graphic() && last.is_ascii_graphic() => field,
            _ => field.trim(),
        }
    }

    fn parsed<T: FromStr>(&self, column: Column, kind: &str) -> Run<T> {
        let field = self.field(column);
        field.parse().map_err(|_| match field {
            "" => self.fault_in(column, &format!("empty; expected {kind}")),
            _ => {
                let start: String = field.chars().take(40).collect();
                self.fault_in(column, &format!("{start:?} is not {kind}"))
            }
        })
    }

    /// Returns a float.
    pub fn float(&self, column: Column) -> Run<f64> {
        let field = self.field(column);
        match crate::decimal::read(field) {
            Some(x) => Ok(x),
            None => self.parsed(column, "a number"),
        }
    }

    /// Three floats.
    pub fn floats(&self, columns: [Column; 3]) -> Run<[f64; 3]> {
        let [x, y, z] = columns;
        Ok([self.float(x)?, self.float(y)?, self.float(z)?])
    }

    /// Returns a float of a column that may not be there, 0 without it.
    pub fn float_or_0(&self, column: Option<Column>) -> Run<f64> {
        column.map_or(Ok(0.0), |c| self.float(c))
    }

    /// Returns a whole number.
    pub fn whole<T: Whole>(&self, column: Column) -> Run<T> {
        self.parsed(column, T::KIND)
    }

    /// Returns a whole number up to a bound.
    pub fn whole_to(&self, column: Column, most: u64) -> Run<u64> {
        let x = self.whole(column)?;
        match x > most {
            true => Err(self.fault_in(column, &format!("{x} is above {most}"))),
            false => Ok(x),
        }
    }

    /// Returns a whole number of a column that may not be there.
    pub fn whole_or<T: Whole>(&self, column: Option<Column>, without: T) -> Run<T> {
        column.map_or(Ok(without), |c| self.whole(c))
    }
}

/// Checks that a text can be a field: quotes are not read, so it has no comma and no line's end.
pub fn plain<'a>(name: &str, text: &'a str) -> Run<&'a str> {
    let odd = |c: char| c == ',' || c == '"' || c.is_control();
    match text.contains(odd) || text.trim() != text {
        true => said(format!("{name}: {text:?} can't be a field of CSV")),
        false => Ok(text),
    }
}

/// A whole number of a width.
pub trait Whole: FromStr {
    /// Its kind, for messages.
    const KIND: &'static str;
}

impl Whole for u8 {
    const KIND: &'static str = "a whole number from 0 to 255";
}

impl Whole for u16 {
    const KIND: &'static str = "a whole number from 0 to 65535";
}

impl Whole for u32 {
    const KIND: &'static str = "a whole number from 0 to 4294967295";
}

impl Whole for u64 {
    const KIND: &'static str = "a whole number from 0 to 18446744073709551615";
}

impl Whole for i32 {
    const KIND: &'static str = "a whole number from -2147483648 to 2147483647";
}
