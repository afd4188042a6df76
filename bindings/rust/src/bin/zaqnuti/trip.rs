//! `zaqnuti trip`: the distance of each drive, by carrier phases and odometer.

use std::thread;

use zaqnuti::tdcp::Settings;
use zaqnuti::{Ecef, Refusal};

use crate::answer::in_words;
use crate::args::Args;
use crate::changes::Changes;
use crate::csv::Table;
use crate::drive::Totals;
use crate::epochs::Time;
use crate::fault::{said, tell, warn, Fault, Run};
use crate::fields::{Rows, FLAGS};
use crate::intervals::Intervals;
use crate::jobs;
use crate::labels::{self, Labels};
use crate::odometer::{self, Odometer};
use crate::rating::{Asked, Mileage};
use crate::report::{Reported, COLUMNS};
use crate::series::{self, seconds, settings, Series, Sky};

pub const HELP: &str = "\
zaqnuti trip --pulses-per-km N [OPTIONS] FILE..: the distance of each drive

A file is one drive: a series of epochs as `zaqnuti displacement` reads it, with
rx, ry, rz or --at or --fixes, and one form of the odometer:
  odometer            a column: a running count of pulses, the same in all rows of
                      an epoch
  pulses              a column: the pulses since the previous epoch
  --odometer FILE     a second recording with week, tow and odometer at times of its
                      own; an epoch has the last count at or before it; {} in FILE
                      is the drive's name without its ending
A row whose satellite fields are empty is an epoch without satellites, as in a
tunnel; its pulses count.

  --pulses-per-km N   1 to 65535
  --wrap BITS         the running count wraps at 16 or 32 bits
  --depot, --van, --day NAME    what the drives belong to
  --name-pattern P    the same from the file's name, as '{depot}-{van}-{day}.csv'
  --settings FILE     week, tow, screen, sigma_a, sigma_b, huber, mask, rounds: each
                      line is in force from its time, the options before the first
  --city BAND         only GPS and Galileo on one band (MHz)
  --max-error M       sets aside displacements with a predicted error of M or more:
                      pdop times chi (at least 1) times 0.01 m [0.2]
  --millilitres ML    fuel of the drive: adds millilitres per kilometre of carrier
                      distance, rounded down
  --jobs N            files processed in parallel [the processor's cores]
";

const VALUED: [&str; 7] = [
    "--pulses-per-km",
    "--settings",
    "--city",
    "--max-error",
    "--millilitres",
    "--jobs",
    "-o",
];

/// What holds for every drive.
#[derive(Clone, Copy)]
struct Plan {
    per_km: u16,
    set: Settings,
    limit: f64,
    band: Option<u32>,
    millilitres: Option<u32>,
    jobs: usize,
}

impl Plan {
    fn of(args: &Args) -> Run<Self> {
        let rate = args.needed("--pulses-per-km")?;
        let per_km = rate.parse().ok().filter(|&n: &u16| n > 0);
        let Some(per_km) = per_km else {
            return said(format!("--pulses-per-km: {rate:?} is not 1 to 65535"));
        };
        let cores = thread::available_parallelism().map_or(1, usize::from);
        let some = |name| args.value(name).map(|_| args.whole(name, 0)).transpose();
        let plan = Self {
            per_km,
            set: settings(args)?,
            limit: args.float("--max-error", 0.2)?,
            band: some("--city")?,
            millilitres: some("--millilitres")?,
            jobs: args.whole("--jobs", cores)?,
        };
        if plan.jobs == 0 {
            return said("--jobs: must be 1 or more");
        }
        if Mileage::start(plan.limit).is_err() {
            return said("--max-error: must be a number of at most 1e9");
        }
        match Totals::begin(&plan.set, per_km, plan.limit) {
            Ok(_) => Ok(plan),
            Err(why) => said(format!("the settings are {}", in_words(why))),
        }
    }
}

/// A drive under way.
struct Way {
    plan: Plan,
    series: Series,
    odometer: Odometer,
    changes: Option<Changes>,
    totals: Totals,
    intervals: Intervals,
    /// The epoch before, and the running count there.
    before: Option<(Sky, u64)>,
    times: Option<(Time, Time)>,
    /// Epochs before the first count of a second recording.
    early: u64,
}

/// Returns a refusal that no input can bring about.
fn unforeseen(why: Refusal) -> Fault {
    Fault::Said(format!("the drive's totals are {}", in_words(why)))
}

impl Way {
    fn open(plan: Plan, args: &Args, path: &str) -> Run<Self> {
        let table = Table::open(path, args.has("--ignore-unknown"))?;
        if table.optional("line").is_some() {
            let why = "a drive is a series of epochs; lines S, P and C have no times";
            return said(format!("{}:1: line: {why}", table.name()));
        }
        let odometer = Odometer::of(args, &table)?;
        let totals = Totals::begin(&plan.set, plan.per_km, plan.limit);
        Ok(Self {
            plan,
            series: Series::new(table, args, odometer.field(), true)?,
            odometer,
            changes: Changes::open(args)?,
            totals: totals.map_err(unforeseen)?,
            intervals: Intervals::default(),
            before: None,
            times: None,
            early: 0,
        })
    }

    /// Takes the next epoch; false at the end of the file.
    fn step(&mut self) -> Run<bool> {
        let Some(now) = self.series.next()? else {
            return Ok(false);
        };
        if let Some((_, last)) = self.times {
            self.intervals.add(now.time.since(last));
        }
        let first = self.times.map_or(now.time, |(first, _)| first);
        self.times = Some((first, now.time));
        match self.odometer.total(&self.series, &now)? {
            None => self.early += 1,
            Some(total) => {
                if let Some((before, count)) = self.before.take() {
                    let pulses = Odometer::pulses(&self.series, &now, count, total)?;
                    self.travel(&before, &now, pulses)?;
                }
                self.before = Some((now, total));
            }
        }
        Ok(true)
    }

    /// Adds the displacement between two epochs, under the settings in force at the later one.
    fn travel(&mut self, before: &Sky, now: &Sky, pulses: u16) -> Run<()> {
        if let Some(changes) = &mut self.changes {
            if let Some(set) = changes.until(now.time)? {
                self.plan.set = set;
            }
        }
        let [x, y, z] = self.series.place(before)?;
        let moved = seconds(before.time, now.time).and_then(|dt| {
            let asked = Asked {
                previous: &before.rows,
                current: &now.rows,
                dt,
                band: self.plan.band,
                at: Ecef::new(x, y, z),
                set: &self.plan.set,
            };
            asked.rated()
        });
        self.totals.add(moved, pulses).map_err(unforeseen)
    }
}

/// A drive's line, and what is to be said beside it.
struct Told {
    /// The name of the file, for messages.
    name: String,
    line: Reported,
    warnings: Vec<String>,
}

impl Told {
    fn of(way: &Way, file: &str, labels: Labels) -> Run<Self> {
        let Some((first, last)) = way.times else {
            return said(format!("{}: has no epochs", way.series.name()));
        };
        let (gap, longest) = (way.intervals.missing(), way.intervals.longest());
        let lost = way.odometer.lost(gap, longest, way.plan.per_km);
        let millilitres = way.plan.millilitres;
        let line = Reported {
            file: file.to_string(),
            labels,
            first,
            last,
            sums: way.totals.sums().map_err(unforeseen)?,
            gap,
            lost: lost.is_some(),
            fuel: millilitres.map(|ml| way.totals.fuel(ml)),
        };
        let warnings = warnings(way, &line, lost);
        let name = way.series.name().to_string();
        Ok(Self {
            name,
            line,
            warnings,
        })
    }

    /// Checks whether an epoch with pulses was counted.
    fn counted(&self) -> bool {
        self.line.sums.mileage.covered > 0
    }
}

fn warnings(way: &Way, line: &Reported, lost: Option<String>) -> Vec<String> {
    let mut out = Vec::new();
    if line.sums.mileage.epochs == 0 {
        out.push("has no pair of epochs".to_string());
    }
    if way.early > 0 {
        out.push(format!(
            "{} epochs before the odometer's first count are left out",
            way.early
        ));
    }
    if let Some(short) = way.odometer.ends_before(line.last) {
        out.push(format!(
            "the odometer's recording ends {short:.3} s before the drive"
        ));
    }
    if let Some(why) = lost {
        out.push(format!("{why}; no distance"));
    }
    if let Some(coverage) = line.coverage().filter(|&c| 0.0 < c && c < 0.5) {
        out.push(format!(
            "only {:.2} % of its pulses are counted",
            100.0 * coverage
        ));
    }
    out
}

fn drive(plan: Plan, args: &Args, file: &str, labels: Labels) -> Run<Told> {
    let mut way = Way::open(plan, args, file)?;
    while way.step()? {}
    Told::of(&way, file, labels)
}

/// Returns the files with their labels, each once.
fn drives(args: &Args) -> Run<Vec<(String, Labels)>> {
    let mut out: Vec<(String, Labels)> = Vec::new();
    let mut seen = std::collections::HashSet::new();
    for file in args.sources() {
        if !seen.insert(file) {
            return said(format!("{file}: is given twice"));
        }
        out.push((file.to_string(), Labels::of(args, file)?));
    }
    match args.has("--millilitres") && out.len() > 1 {
        true => said("--millilitres: is the fuel of one drive, but several are given"),
        false => Ok(out),
    }
}

/// Tells each drive's totals; true where an epoch of each was counted.
pub fn run(words: &[String]) -> Run<bool> {
    let valued = [
        &VALUED[..],
        &series::VALUED,
        &odometer::VALUED,
        &labels::VALUED,
    ]
    .concat();
    let args = Args::parse(words, &valued, &FLAGS)?;
    let plan = Plan::of(&args)?;
    let drives = drives(&args)?;
    let more = plan.millilitres.map_or("", |_| ",ml_per_km_carrier");
    let mut rows = Rows::open(&args, &format!("{COLUMNS}{more}"))?;
    Changes::check(&args)?;
    let (count, mut all) = (drives.len(), true);
    let work = move |i: usize| {
        let (file, labels): &(String, Labels) = &drives[i];
        drive(plan, &args, file, labels.clone())
    };
    jobs::in_order(count, plan.jobs, work, |told: Run<Told>| {
        let told = told?;
        let name = &told.name;
        for warning in &told.warnings {
            warn(&format!("{name}: {warning}"));
        }
        if !told.counted() {
            all = false;
            tell(&format!("{name}: no epoch with pulses was counted"));
        }
        rows.put(|| told.line.words(), &told.line.fields())
    })?;
    rows.close()?;
    Ok(all)
}
