//! Depot, van and day of a drive, from the options or from the name of its file.

use std::path::Path;

use crate::args::Args;
use crate::fault::{said, Run};

/// The options that name a drive.
pub const VALUED: [&str; 4] = ["--depot", "--van", "--day", "--name-pattern"];

/// Depot, van and day, empty where they are not known.
#[derive(Clone, Default, PartialEq, Eq, Hash)]
pub struct Labels {
    pub depot: String,
    pub van: String,
    pub day: String,
}

impl Labels {
    /// Returns those of the drive in a file.
    pub fn of(args: &Args, path: &str) -> Run<Self> {
        let mut labels = match args.value("--name-pattern") {
            Some(pattern) => by_name(pattern, path)?,
            None => Self::default(),
        };
        for (option, place) in [
            ("--depot", &mut labels.depot),
            ("--van", &mut labels.van),
            ("--day", &mut labels.day),
        ] {
            match args.value(option) {
                Some(_) if !place.is_empty() => {
                    return said(format!("{option}: --name-pattern has it as well"))
                }
                Some(given) => *place = given.trim().to_string(),
                None => {}
            }
        }
        Ok(labels)
    }

    fn place(&mut self, name: &str) -> Option<&mut String> {
        match name {
            "depot" => Some(&mut self.depot),
            "van" => Some(&mut self.van),
            "day" => Some(&mut self.day),
            _ => None,
        }
    }
}

/// A part of a pattern: text as it is, or the name of a label.
enum Part<'a> {
    Text(&'a str),
    Label(&'a str),
}

fn parts(pattern: &str) -> Run<Vec<Part<'_>>> {
    let (mut rest, mut out, mut seen) = (pattern, Vec::new(), Vec::new());
    while let Some((text, after)) = rest.split_once('{') {
        let closed = after.split_once('}');
        let known = closed.filter(|(label, _)| ["depot", "van", "day"].contains(label));
        let Some((label, after)) = known.filter(|(label, _)| !seen.contains(label)) else {
            return said(format!(
                "--name-pattern: {pattern:?} has other braces than {{depot}}, {{van}} and {{day}}, once each"
            ));
        };
        seen.push(label);
        out.push(Part::Text(text));
        out.push(Part::Label(label));
        rest = after;
    }
    out.push(Part::Text(rest));
    Ok(out)
}

/// Checks whether a text is a date such as 2026-11-03.
fn is_date(text: &str) -> bool {
    let fits = |(i, b): (usize, u8)| match i {
        4 | 7 => b == b'-',
        _ => b.is_ascii_digit(),
    };
    text.len() == 10 && text.bytes().enumerate().all(fits)
}

/// Returns the labels in a file's name. Of several readings the one whose day is a date is taken.
fn by_name(pattern: &str, path: &str) -> Run<Labels> {
    let name = Path::new(path).file_name().and_then(|n| n.to_str());
    let name = name.unwrap_or(path);
    let mut found = Vec::new();
    readings(&parts(pattern)?, name, Labels::default(), &mut found);
    if found.len() > 1 && found.iter().any(|l| is_date(&l.day)) {
        found.retain(|l| is_date(&l.day));
    }
    match found.len() {
        0 => said(format!(
            "{path}: its name does not fit --name-pattern {pattern:?}"
        )),
        1 => Ok(found.remove(0)),
        _ => said(format!(
            "{path}: its name fits --name-pattern {pattern:?} in several ways"
        )),
    }
}

/// Gathers every reading of a name by the parts of a pattern.
fn readings(parts: &[Part], name: &str, so_far: Labels, found: &mut Vec<Labels>) {
    match parts {
        [] if name.is_empty() => found.push(so_far),
        [] => {}
        [Part::Text(text), rest @ ..] => {
            if let Some(name) = name.strip_prefix(text) {
                readings(rest, name, so_far, found);
            }
        }
        [Part::Label(label), rest @ ..] => {
            let ends = name.char_indices().map(|(i, c)| i + c.len_utf8());
            for end in ends {
                let mut labels = so_far.clone();
                if let Some(place) = labels.place(label) {
                    *place = name[..end].to_string();
                }
                readings(rest, &name[end..], labels, found);
            }
        }
    }
}
