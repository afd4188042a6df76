//! The words after a command: options, flags and files.

use std::str::FromStr;

use crate::decimal;
use crate::fault::{said, Fault, Run};

/// The words after a command, sorted out.
pub struct Args {
    given: Vec<(&'static str, String)>,
    /// The files; `-` is standard input.
    pub files: Vec<String>,
}

impl Args {
    /// Sorts out the words: `valued` options take a value, `flags` none.
    pub fn parse(words: &[String], valued: &[&'static str], flags: &[&'static str]) -> Run<Self> {
        let (mut given, mut files) = (Vec::new(), Vec::new());
        let mut words = words.iter();
        while let Some(word) = words.next() {
            if word == "--" {
                files.extend(words.by_ref().cloned());
            } else if !word.starts_with('-') || word == "-" {
                files.push(word.clone());
            } else if let Some(name) = flags.iter().find(|f| *f == word) {
                given.push((*name, String::new()));
            } else {
                let (name, joined) = match word.split_once('=') {
                    Some((name, value)) => (name, Some(value.to_string())),
                    None => (word.as_str(), None),
                };
                let Some(name) = valued.iter().find(|v| **v == name) else {
                    return said(format!("{word}: no such option; see --help"));
                };
                match joined.or_else(|| words.next().cloned()) {
                    Some(value) => given.push((*name, value)),
                    None => return said(format!("{name}: needs a value")),
                }
            }
        }
        Self { given, files }.checked()
    }

    fn checked(self) -> Run<Self> {
        for (i, (name, _)) in self.given.iter().enumerate() {
            if self.given[..i].iter().any(|(n, _)| n == name) {
                return said(format!("{name}: given twice"));
            }
        }
        Ok(self)
    }

    /// Returns the files, or standard input where there are none.
    pub fn sources(&self) -> Vec<&str> {
        match self.files.is_empty() {
            true => vec!["-"],
            false => self.files.iter().map(String::as_str).collect(),
        }
    }

    /// Returns the one file, or standard input.
    pub fn source(&self) -> Run<&str> {
        match self.files.as_slice() {
            [] => Ok("-"),
            [one] => Ok(one),
            [_, second, ..] => said(format!("{second}: only one file is read")),
        }
    }

    /// Checks whether an option or a flag is given.
    pub fn has(&self, name: &str) -> bool {
        self.given.iter().any(|(n, _)| *n == name)
    }

    /// Returns the value of an option.
    pub fn value(&self, name: &str) -> Option<&str> {
        let found = self.given.iter().find(|(n, _)| *n == name);
        found.map(|(_, value)| value.as_str())
    }

    /// Returns the value of an option that must be given.
    pub fn needed(&self, name: &str) -> Run<&str> {
        match self.value(name) {
            Some(value) => Ok(value),
            None => said(format!("{name}: is required; see --help")),
        }
    }

    fn wrong(name: &str, value: &str, kind: &str) -> Fault {
        Fault::Said(format!("{name}: {value:?} is not {kind}"))
    }

    /// Returns a float, or the one that holds without the option.
    pub fn float(&self, name: &str, without: f64) -> Run<f64> {
        let Some(value) = self.value(name) else {
            return Ok(without);
        };
        decimal::read(value).ok_or_else(|| Self::wrong(name, value, "a number"))
    }

    /// Returns a whole number, or the one that holds without the option.
    pub fn whole<T: FromStr>(&self, name: &str, without: T) -> Run<T> {
        let Some(value) = self.value(name) else {
            return Ok(without);
        };
        let parsed = value.parse();
        parsed.map_err(|_| Self::wrong(name, value, "a whole number from 0 up"))
    }

    /// Returns the settings of the kind of receiver.
    pub fn receiver<T>(&self, phone: T, geodetic: T) -> Run<T> {
        match self.value("--receiver") {
            None | Some("phone") => Ok(phone),
            Some("geodetic") => Ok(geodetic),
            Some(other) => Err(Self::wrong("--receiver", other, "phone or geodetic")),
        }
    }

    /// Returns a place by x, y and z, if the option is given.
    pub fn place(&self, name: &str) -> Run<Option<[f64; 3]>> {
        let Some(value) = self.value(name) else {
            return Ok(None);
        };
        let floats: Option<Vec<f64>> = value.split(',').map(|f| decimal::read(f.trim())).collect();
        let place = floats.and_then(|f| <[f64; 3]>::try_from(f).ok());
        let kind = "a place X,Y,Z in metres";
        place
            .map(Some)
            .ok_or_else(|| Self::wrong(name, value, kind))
    }
}
