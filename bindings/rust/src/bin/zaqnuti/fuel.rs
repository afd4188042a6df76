//! The fuel of depots, vans or days, and which trips it is for.

use std::collections::HashMap;

use crate::args::Args;
use crate::csv::Table;
use crate::fault::{said, Fault, Run};
use crate::labels::Labels;
use crate::ledger::MOST;

/// A line of fuel: of a depot, or of one van or day of it.
pub struct Entry {
    /// The line, for messages.
    pub at: String,
    /// Van and day are empty where it is for all of them.
    pub labels: Labels,
    /// None where the field is empty.
    pub millilitres: Option<u64>,
}

/// The lines of a file of fuel.
pub struct Fuel {
    path: String,
    pub entries: Vec<Entry>,
    places: HashMap<Labels, usize>,
}

impl Fuel {
    /// Reads the file that the options name.
    pub fn read(args: &Args) -> Run<Self> {
        let path = args.needed("--fuel")?;
        let mut table = Table::open(path, args.has("--ignore-unknown"))?;
        let (depot, millilitres) = (table.column("depot")?, table.column("millilitres")?);
        let (van, day) = (table.optional("van"), table.optional("day"));
        let mut fuel = Self {
            path: path.to_string(),
            entries: Vec::new(),
            places: HashMap::new(),
        };
        while table.next()? {
            let text = |column| table.field(column).to_string();
            let labels = Labels {
                depot: text(depot),
                van: van.map_or(String::new(), text),
                day: day.map_or(String::new(), text),
            };
            if labels.depot.is_empty() {
                return Err(table.fault_in(depot, "empty; expected a depot"));
            }
            let filled = Some(millilitres).filter(|&c| !table.field(c).is_empty());
            let place = fuel.entries.len();
            if let Some(before) = fuel.places.insert(labels.clone(), place) {
                let before = &fuel.entries[before].at;
                return Err(table.fault_in(depot, &format!("{before} has the same already")));
            }
            fuel.entries.push(Entry {
                at: format!("{path}:{}", table.line()),
                labels,
                millilitres: filled.map(|c| table.whole_to(c, MOST)).transpose()?,
            });
        }
        match fuel.entries.is_empty() {
            true => said(format!("{path}: has no fuel")),
            false => Ok(fuel),
        }
    }

    /// Returns the line for a trip, none where there is no such line; two lines are a fault.
    pub fn find(&self, at: &str, labels: &Labels) -> Run<Option<usize>> {
        let mut found: Option<usize> = None;
        for (with_van, with_day) in [(true, true), (true, false), (false, true), (false, false)] {
            let kept = |text: &String, wanted: bool| match wanted {
                true => text.clone(),
                false => String::new(),
            };
            let key = Labels {
                depot: labels.depot.clone(),
                van: kept(&labels.van, with_van),
                day: kept(&labels.day, with_day),
            };
            match (found, self.places.get(&key)) {
                (Some(first), Some(&second)) if first != second => {
                    let [first, second] = [first, second].map(|i| &self.entries[i].at);
                    let why = format!("depot: {first} and {second} both have its fuel");
                    return Err(Fault::Said(format!("{at}: {why}")));
                }
                (None, Some(&place)) => found = Some(place),
                _ => {}
            }
        }
        Ok(found)
    }

    /// Why a trip has no fuel.
    pub fn missing(&self, at: &str, labels: &Labels) -> Fault {
        let (path, which) = (&self.path, named(labels));
        Fault::Said(format!("{at}: depot: {path} has no fuel for {which}"))
    }

    /// Why a line of fuel has no trip.
    pub fn unused(&self, place: usize) -> Fault {
        let entry = &self.entries[place];
        let (at, which) = (&entry.at, named(&entry.labels));
        Fault::Said(format!("{at}: depot: there is no trip of {which}"))
    }
}

/// Depot, van and day in words.
fn named(labels: &Labels) -> String {
    let mut out = format!("{:?}", labels.depot);
    for (name, label) in [("van", &labels.van), ("day", &labels.day)] {
        if !label.is_empty() {
            out += &format!(", {name} {label:?}");
        }
    }
    out
}
