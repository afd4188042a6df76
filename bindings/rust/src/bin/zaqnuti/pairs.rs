//! The pairs of epochs of a displacement, from either form of CSV: a series of epochs, each of
//! which is paired with the one before it, or lines S, P and C as the line form has them.

use zaqnuti::tdcp::{delta_position, delta_position_between, Carrier, Delta, Settings};
use zaqnuti::time::GpsTime;
use zaqnuti::{Ecef, Refusal, RECORDS};

use crate::args::Args;
use crate::carriers::Columns;
use crate::csv::{Column, Table};
use crate::epochs::Time;
use crate::fault::{said, Run};
use crate::series::{exact, settings, truth, Series, Sky, VALUED};

/// The columns of both forms, for help.
pub const HELP: &str = "\
A series: lines of the same week and tow that follow each other are an epoch, and
each epoch is paired with the one before it.
  tow            time of week, s; with week, times are exact to the nanosecond
                 and continue across the end of a week
  constellation  1 GPS, 3 GLONASS, 5 BeiDou, 6 Galileo; svid; band in MHz (may be left out)
  adr            accumulated delta range, m, corrected for the satellite's clock;
                 or carrier, m, as measured: plus clock, minus modelled, plus twice
                 ionosphere (each of the three may be left out)
  state          1 valid, 2 cycle slip, 4 reset, summed (may be left out: 1)
  x, y, z        satellite at transmission, earth-centred earth-fixed, m
  elevation      degrees
  rate           range rate, m/s, receding is positive
  rx, ry, rz     the receiver's position, m (or --at or --fixes); a metre of error
                 moves the answer by 0.2 mm for each second between the epochs
  true_dx, true_dy, true_dz
                 the true displacement from the previous epoch, m (may be left out)

Pairs, as `zaqnuti decode` writes them: a column line has S, P or C.
  S              begins the pair named in the column pair: dt (s), x, y, z of the
                 receiver, screen, sigma_a, sigma_b, huber, mask, rounds, and
                 true_dx, true_dy, true_dz where they are known
  P, C           a carrier of the previous or the current epoch: constellation,
                 svid, band, adr, state, x, y, z of the satellite, elevation, rate
";

/// The most carriers of a pair that are kept: no text in the line form has more, and the library
/// refuses an epoch of fewer.
const CARRIERS: usize = 300;

/// Which epoch a carrier belongs to.
#[derive(Clone, Copy, PartialEq)]
pub enum Side {
    Previous,
    Current,
}

/// Two epochs, and what is asked of them.
pub struct Pair {
    /// Its name, for answers and files.
    pub name: String,
    /// The time of the later epoch, of a series.
    pub time: Option<Time>,
    /// The times of both epochs, of a series with weeks.
    pub times: Option<Result<[GpsTime; 2], Refusal>>,
    pub dt: f64,
    /// Where the receiver was at the earlier epoch.
    pub at: [f64; 3],
    pub set: Settings,
    pub carriers: Vec<(Side, Carrier)>,
    /// Whether there may be more carriers than are kept.
    pub over: bool,
    pub truth: Option<[f64; 3]>,
}

impl Pair {
    fn side(&self, side: Side) -> Vec<Carrier> {
        let of = self.carriers.iter().filter(|(s, _)| *s == side);
        of.map(|(_, carrier)| *carrier).collect()
    }

    /// Returns the displacement of the pair.
    pub fn solve(&self) -> Result<Delta, Refusal> {
        let [x, y, z] = self.at;
        let (previous, current) = (self.side(Side::Previous), self.side(Side::Current));
        let (at, set) = (Ecef::new(x, y, z), &self.set);
        match self.times {
            None => delta_position(&previous, &current, self.dt, at, set),
            Some(times) => {
                let [before, now] = times?;
                delta_position_between(&previous, &current, before, now, at, set)
            }
        }
    }
}

/// The pairs of a file.
pub enum Pairs {
    Series(Box<Steps>),
    Lines(Box<Lines>),
}

impl Pairs {
    /// Returns those of a file, whose form its header tells.
    pub fn open(source: &str, args: &Args) -> Run<Self> {
        let table = Table::open(source, args.has("--ignore-unknown"))?;
        if table.optional("line").is_none() {
            let series = Series::new(table, args, None, false)?;
            let (set, before) = (settings(args)?, None);
            return Ok(Self::Series(Box::new(Steps {
                series,
                set,
                before,
            })));
        }
        match VALUED.iter().find(|name| args.has(name)) {
            Some(name) => said(format!("{name}: the lines S of {} have it", table.name())),
            None => Ok(Self::Lines(Box::new(Lines::new(table)?))),
        }
    }

    /// Returns the name of the file, for messages.
    pub fn name(&self) -> &str {
        match self {
            Self::Series(steps) => steps.series.name(),
            Self::Lines(lines) => lines.table.name(),
        }
    }

    /// Returns the next pair, none at the end of the file.
    pub fn next(&mut self) -> Run<Option<Pair>> {
        match self {
            Self::Series(steps) => steps.next(),
            Self::Lines(lines) => lines.next(),
        }
    }
}

/// The epochs of a series, each paired with the one before it.
pub struct Steps {
    series: Series,
    set: Settings,
    before: Option<Sky>,
}

impl Steps {
    fn next(&mut self) -> Run<Option<Pair>> {
        if self.before.is_none() {
            self.before = self.series.next()?;
        }
        let Some(now) = self.series.next()? else {
            return Ok(None);
        };
        let Some(before) = &self.before else {
            return Ok(None);
        };
        let times = exact(before.time, now.time);
        let seconds = times.and_then(|times| {
            let [before, now] = times.ok()?;
            now.seconds_since(before).ok()
        });
        let side = |side, epoch: &Sky| -> Vec<(Side, Carrier)> {
            epoch.rows.iter().map(|c| (side, *c)).collect()
        };
        let pair = Pair {
            name: now.time.to_string(),
            time: Some(now.time),
            times,
            dt: seconds.unwrap_or(now.time.since(before.time)),
            at: self.series.place(before)?,
            set: self.set,
            carriers: [side(Side::Previous, before), side(Side::Current, &now)].concat(),
            over: before.rows.len().max(now.rows.len()) > RECORDS,
            truth: now.head.truth,
        };
        self.before = Some(now);
        Ok(Some(pair))
    }
}

/// Lines S, P and C.
pub struct Lines {
    table: Table,
    line: Column,
    pair: Option<Column>,
    heads: [Column; 6],
    rounds: Column,
    known: Option<[Column; 3]>,
    columns: Columns,
    ahead: Option<Pair>,
    count: usize,
}

impl Lines {
    fn new(table: Table) -> Run<Self> {
        let at = |name| table.column(name);
        Ok(Self {
            line: at("line")?,
            pair: table.optional("pair"),
            heads: [
                at("dt")?,
                at("screen")?,
                at("sigma_a")?,
                at("sigma_b")?,
                at("huber")?,
                at("mask")?,
            ],
            rounds: at("rounds")?,
            known: table.optionals(["true_dx", "true_dy", "true_dz"])?,
            columns: Columns::of(&table)?,
            ahead: None,
            count: 0,
            table,
        })
    }

    /// Returns the pair that a line S begins.
    fn head(&mut self) -> Run<Pair> {
        self.count += 1;
        let name = self.pair.map_or("", |pair| self.table.field(pair));
        let t = &self.table;
        let [dt, screen, sigma_a, sigma_b, huber, mask] = self.heads;
        Ok(Pair {
            name: match name {
                "" => self.count.to_string(),
                name => name.to_string(),
            },
            time: None,
            times: None,
            dt: t.float(dt)?,
            at: t.floats(self.columns.place)?,
            set: Settings {
                screen: t.float(screen)?,
                sigma_a: t.float(sigma_a)?,
                sigma_b: t.float(sigma_b)?,
                huber: t.float(huber)?,
                mask: t.float(mask)?,
                iterations: t.whole::<u32>(self.rounds)? as usize,
                ..Settings::default()
            },
            carriers: Vec::new(),
            over: false,
            truth: truth(t, self.known)?,
        })
    }

    fn next(&mut self) -> Run<Option<Pair>> {
        while self.table.next()? {
            let side = match self.table.field(self.line) {
                "S" => {
                    let head = self.head()?;
                    match self.ahead.replace(head) {
                        None => continue,
                        done => return Ok(done),
                    }
                }
                "P" => Side::Previous,
                "C" => Side::Current,
                _ => return Err(self.table.fault_in(self.line, "is not S, P or C")),
            };
            let carrier = self.columns.read(&self.table)?;
            match &mut self.ahead {
                Some(pair) if pair.carriers.len() < CARRIERS => pair.carriers.push((side, carrier)),
                Some(pair) => pair.over = true,
                None => return Err(self.table.fault_in(self.line, "no line S comes before it")),
            }
        }
        Ok(self.ahead.take())
    }
}
