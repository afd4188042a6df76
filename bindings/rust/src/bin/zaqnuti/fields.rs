//! Rows of named fields, written in words, as CSV or as JSON.

use crate::args::Args;
use crate::csv::plain;
use crate::fault::{said, Run};
use crate::output::Output;
use crate::tally::Tally;

/// The flags of a command that writes such rows.
pub const FLAGS: [&str; 3] = ["--csv", "--json", "--ignore-unknown"];

/// What such a command can write, for help.
pub const ENDING: &str = "
  --csv               prints CSV, with a header line
  --json              prints JSON: an array of objects
  -o FILE             output, written completely or not at all [standard output]
  --ignore-unknown    allows columns with unknown names
  --help
";

/// The value of a field.
pub enum Value {
    Text(String),
    /// Decimal digits.
    Number(String),
    Refused(Tally),
    Missing,
}

impl Value {
    /// Returns a whole number.
    pub fn whole(x: u64) -> Self {
        Self::Number(x.to_string())
    }

    /// Returns a number that may not be known.
    pub fn maybe(x: Option<String>) -> Self {
        x.map_or(Self::Missing, Self::Number)
    }

    fn csv(&self, name: &str) -> Run<String> {
        match self {
            Self::Text(text) => Ok(plain(name, text)?.to_string()),
            Self::Number(digits) => Ok(digits.clone()),
            Self::Refused(tally) => Ok(tally.field()),
            Self::Missing => Ok(String::new()),
        }
    }

    fn json(&self) -> String {
        match self {
            Self::Text(text) => quoted(text),
            Self::Number(digits) => digits.clone(),
            Self::Refused(tally) => tally.json(),
            Self::Missing => "null".into(),
        }
    }
}

/// Returns a text as a string of JSON.
fn quoted(text: &str) -> String {
    let mut out = String::from("\"");
    for c in text.chars() {
        match c {
            '"' | '\\' => out.extend(['\\', c]),
            c if c.is_control() => out += &format!("\\u{:04x}", u32::from(c)),
            c => out.push(c),
        }
    }
    out + "\""
}

/// The fields of a row, by their names.
pub type Fields = Vec<(&'static str, Value)>;

#[derive(Clone, Copy, PartialEq)]
enum Form {
    Words,
    Csv,
    Json,
}

/// Writes rows.
pub struct Rows {
    out: Output,
    form: Form,
    /// The last object of JSON, whose comma is not known yet.
    last: Option<String>,
}

impl Rows {
    /// Returns where and in which form the options say; the header is that of CSV.
    pub fn open(args: &Args, header: &str) -> Run<Self> {
        let form = match (args.has("--csv"), args.has("--json")) {
            (true, true) => return said("--csv and --json: choose one"),
            (true, false) => Form::Csv,
            (false, true) => Form::Json,
            (false, false) => Form::Words,
        };
        let mut out = Output::open(args.value("-o"))?;
        match form {
            Form::Csv => out.line(header)?,
            Form::Json => out.line("[")?,
            Form::Words => {}
        }
        let last = None;
        Ok(Self { out, form, last })
    }

    /// Writes a row.
    pub fn put(&mut self, words: impl FnOnce() -> String, fields: &Fields) -> Run<()> {
        match self.form {
            Form::Words => self.out.line(words()),
            Form::Csv => {
                let each = fields.iter().map(|(name, value)| value.csv(name));
                self.out.line(each.collect::<Run<Vec<_>>>()?.join(","))
            }
            Form::Json => {
                let each = fields.iter();
                let each = each.map(|(name, value)| format!("{}:{}", quoted(name), value.json()));
                let object = format!("{{{}}}", each.collect::<Vec<_>>().join(","));
                match self.last.replace(object) {
                    Some(before) => self.out.line(before + ","),
                    None => Ok(()),
                }
            }
        }
    }

    /// Ends the output.
    pub fn close(mut self) -> Run<()> {
        if let Some(last) = self.last.take() {
            self.out.line(last)?;
        }
        if self.form == Form::Json {
            self.out.line("]")?;
        }
        self.out.close()
    }
}
