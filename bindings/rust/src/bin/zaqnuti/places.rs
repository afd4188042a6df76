//! Where the receiver is at each epoch of a series.

use std::cmp::Ordering;
use std::path::Path;

use crate::args::Args;
use crate::csv::{Column, Table};
use crate::epochs::{Time, Times};
use crate::fault::{said, Run};

/// Where places come from.
pub enum Places {
    /// One for all epochs.
    One([f64; 3]),
    /// The fixes of a file.
    Fixes(Box<Fixes>),
    /// The lines of the series themselves.
    Lines,
}

impl Places {
    /// Returns those that the options or the series' own columns give.
    pub fn of(args: &Args, series: &Table) -> Run<Self> {
        match (args.place("--at")?, args.value("--fixes")) {
            (Some(_), Some(_)) => said("--at and --fixes: choose one"),
            (Some(at), None) => Ok(Self::One(at)),
            (None, Some(path)) => {
                let path = path.replace("{}", stem(series.name()));
                Ok(Self::Fixes(Box::new(Fixes::open(&path, args)?)))
            }
            (None, None) if series.optional("rx").is_some() => Ok(Self::Lines),
            (None, None) => said(format!(
                "{}: has no columns rx, ry, rz; give --at X,Y,Z or --fixes FILE",
                series.name()
            )),
        }
    }

    /// Checks whether the series' own rows give the places.
    pub fn are_lines(&self) -> bool {
        matches!(self, Self::Lines)
    }

    /// Returns the place at a time; `line` is the one in the series' own row.
    pub fn at(&mut self, time: Time, line: [f64; 3]) -> Run<[f64; 3]> {
        match self {
            Self::One(at) => Ok(*at),
            Self::Fixes(fixes) => fixes.at(time),
            Self::Lines => Ok(line),
        }
    }
}

/// Returns the name of a file without its folder and its ending.
pub fn stem(path: &str) -> &str {
    let stem = Path::new(path).file_stem().and_then(|s| s.to_str());
    stem.unwrap_or(path)
}

/// The fixes of a file that `zaqnuti fix --csv` wrote, going forward.
pub struct Fixes {
    table: Table,
    times: Times,
    place: [Column; 3],
    refusal: Option<Column>,
    last: Option<[f64; 3]>,
    ahead: Option<(Time, [f64; 3])>,
}

impl Fixes {
    fn open(path: &str, args: &Args) -> Run<Self> {
        let table = Table::open(path, args.has("--ignore-unknown"))?;
        let mut fixes = Self {
            times: Times::of(&table)?,
            place: table.columns(["x", "y", "z"])?,
            refusal: table.optional("refusal"),
            table,
            last: None,
            ahead: None,
        };
        fixes.ahead = fixes.read()?;
        Ok(fixes)
    }

    /// Returns the next fix that was answered.
    fn read(&mut self) -> Run<Option<(Time, [f64; 3])>> {
        while self.table.next()? {
            if self.table.whole_or(self.refusal, 0u8)? == 0 {
                let time = self.times.read(&self.table)?;
                return Ok(Some((time, self.table.floats(self.place)?)));
            }
        }
        Ok(None)
    }

    /// Returns the last fix up to a time, or the first of all.
    fn at(&mut self, time: Time) -> Run<[f64; 3]> {
        while let Some((next, place)) = self.ahead {
            if next.order(time) == Ordering::Greater && self.last.is_some() {
                break;
            }
            self.last = Some(place);
            self.ahead = self.read()?;
        }
        match self.last {
            Some(place) => Ok(place),
            None => said(format!("{}: has no fix", self.table.name())),
        }
    }
}
