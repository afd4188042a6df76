//! The sums of each depot, and whether they can be compared.

use std::cmp::Ordering;
use std::collections::BTreeMap;

use crate::drive::fuel;
use crate::fault::Run;
use crate::fuel::Fuel;
use crate::ledger::Driven;
use crate::tally::Tally;

/// What a depot must reach to be ranked.
#[derive(Clone, Copy)]
pub struct Bounds {
    pub coverage: f64,
    /// Per cent.
    pub difference: f64,
    /// Whether a depot without fuel or trips is listed and not a fault.
    pub missing: bool,
}

/// The sums of a depot's drives.
#[derive(Default)]
pub struct Depot {
    pub name: String,
    pub rank: Option<usize>,
    pub millilitres: u64,
    pub trips: u64,
    /// Trips without a pulse.
    pub idle: u64,
    pub refused: Tally,
    pub carrier: u64,
    pub odometer: u64,
    pub pulses_counted: u64,
    pub pulses_all: u64,
    pub distance: u64,
    /// Why it can't be compared.
    pub reasons: Vec<String>,
    /// Whether its distance or its fuel is incomplete, so that there is no figure.
    incomplete: bool,
}

impl Depot {
    fn add(&mut self, driven: &Driven) {
        self.trips += 1;
        self.refused.join(&driven.refused);
        self.carrier += driven.carrier;
        self.odometer += driven.odometer;
        self.pulses_counted += driven.pulses_counted;
        self.pulses_all += driven.pulses_all;
        self.idle += u64::from(driven.pulses_all == 0);
        match driven.distance {
            Some(distance) => self.distance += distance,
            None if driven.pulses_all == 0 => {}
            None => self.lack(no_distance(driven)),
        }
    }

    /// Notes why the depot has no figure.
    fn lack(&mut self, why: String) {
        self.incomplete = true;
        self.reasons.push(why);
    }

    /// Checks whether there is a figure, comparable or not.
    pub fn is_complete(&self) -> bool {
        !self.incomplete && self.distance > 0
    }

    /// Thousandths of a millilitre for a kilometre, rounded once.
    pub fn thousandths(&self) -> Option<u64> {
        let distance = u128::from(self.distance);
        let product = u128::from(self.millilitres) * 1_000_000_000 + distance / 2;
        let figure = self.is_complete().then(|| product / distance);
        figure.and_then(|f| u64::try_from(f).ok())
    }

    /// Millilitres for a kilometre, three decimals.
    pub fn figure(&self) -> Option<String> {
        self.thousandths()
            .map(|t| format!("{}.{:03}", t / 1000, t % 1000))
    }

    /// Document 02's figure of the sums.
    pub fn by_carrier(&self) -> Option<u64> {
        fuel(self.millilitres, self.carrier).filter(|_| !self.incomplete)
    }

    /// Counted pulses by all pulses.
    pub fn coverage(&self) -> Option<f64> {
        let some = self.pulses_all > 0;
        some.then(|| self.pulses_counted as f64 / self.pulses_all as f64)
    }

    /// Returns how far the odometer is above the carrier distance, per cent.
    pub fn difference(&self) -> Option<f64> {
        let (odometer, carrier) = (self.odometer as f64, self.carrier as f64);
        (self.odometer > 0).then(|| 100.0 * (odometer - carrier) / odometer)
    }

    /// Checks what must hold for it to be ranked.
    fn judge(&mut self, bounds: Bounds) {
        if let Some(coverage) = self.coverage().filter(|&c| c < bounds.coverage) {
            let why = format!("coverage {coverage:.4} is below {}", bounds.coverage);
            self.reasons.push(why);
        }
        let far = |d: &f64| d.abs() > bounds.difference;
        if let Some(difference) = self.difference().filter(far) {
            let (words, most) = (format!("{:.2}", difference.abs()), bounds.difference);
            let why =
                format!("odometer and carrier differ by {words} %; at most {most} % is allowed");
            self.reasons.push(why);
        }
        if self.trips == 0 {
            self.lack("there are no trips".into());
        } else if self.distance == 0 && self.reasons.is_empty() {
            self.lack("no trip has a distance".into());
        }
        if self.millilitres == 0 && self.trips > 0 && !self.incomplete {
            self.lack("there is no fuel".into());
        }
    }

    /// Reasons and idle trips in words.
    pub fn note(&self) -> String {
        let idle = match self.idle {
            0 => None,
            1 => Some("1 idle trip: its fuel is counted".to_string()),
            n => Some(format!("{n} idle trips: their fuel is counted")),
        };
        let parts: Vec<String> = self.reasons.iter().cloned().chain(idle).collect();
        parts.join("; ")
    }

    /// By millilitres for a kilometre, exactly.
    fn order(&self, other: &Self) -> Ordering {
        let cross = |a: &Self, b: &Self| u128::from(a.millilitres) * u128::from(b.distance);
        cross(self, other).cmp(&cross(other, self))
    }
}

/// Why a drive with pulses has no distance.
fn no_distance(driven: &Driven) -> String {
    let why = match (driven.pulses_counted > 0, driven.gap > 0.0) {
        (false, _) => "none of its pulses was counted".to_string(),
        (true, true) => format!("pulses may be lost in its gap of {:.3} s", driven.gap),
        (true, false) => "pulses may be missing".to_string(),
    };
    format!("{} has no distance: {why}", driven.file)
}

/// Returns the depots, the ranked ones first and best first, the others by name.
pub fn ranked(drives: &[Driven], fuel: &Fuel, bounds: Bounds) -> Run<Vec<Depot>> {
    let mut depots: BTreeMap<String, Depot> = BTreeMap::new();
    let mut used = vec![false; fuel.entries.len()];
    for driven in drives {
        let name = &driven.labels.depot;
        let depot = depots.entry(name.clone()).or_default();
        depot.add(driven);
        match fuel.find(&driven.at, &driven.labels)? {
            Some(place) => used[place] = true,
            None if bounds.missing => depot.lack(format!("{} has no fuel", driven.file)),
            None => return Err(fuel.missing(&driven.at, &driven.labels)),
        }
    }
    for (place, entry) in fuel.entries.iter().enumerate() {
        if !used[place] && !bounds.missing {
            return Err(fuel.unused(place));
        }
        let depot = depots.entry(entry.labels.depot.clone()).or_default();
        match (entry.millilitres, used[place]) {
            (Some(millilitres), true) => depot.millilitres += millilitres,
            (_, false) => depot.lack(format!("{} has fuel without a trip", entry.at)),
            (None, true) => depot.lack(format!("{} leaves the fuel out", entry.at)),
        }
    }
    let mut out: Vec<Depot> = Vec::new();
    for (name, mut depot) in depots {
        depot.name = name;
        depot.judge(bounds);
        out.push(depot);
    }
    Ok(in_order(out))
}

/// Sorts depots and gives them their ranks; equal figures have one rank.
fn in_order(depots: Vec<Depot>) -> Vec<Depot> {
    let (mut best, others): (Vec<_>, Vec<_>) =
        depots.into_iter().partition(|d| d.reasons.is_empty());
    best.sort_by(Depot::order);
    for i in 0..best.len() {
        let same = i > 0 && best[i].order(&best[i - 1]) == Ordering::Equal;
        best[i].rank = match same {
            true => best[i - 1].rank,
            false => Some(i + 1),
        };
    }
    best.extend(others);
    best
}
