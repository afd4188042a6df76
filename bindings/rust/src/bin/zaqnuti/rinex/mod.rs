//! `zaqnuti rinex`: converts RINEX files to the CSV of the other commands.

mod codes;
mod ephemeris;
mod grain;
mod head;
mod header;
mod left;
mod lines;
mod lock;
mod motion;
mod navigation;
mod observations;
mod place;
mod record;
mod rhythm;
mod runner;
mod signals;
mod stray;
mod time;
mod written;

use crate::args::Args;
use crate::fault::{said, tell, Run};
use crate::output::Output;

use navigation::Ephemerides;
use observations::{Epoch, Observations};
use place::Models;
use runner::Runner;
use time::Moment;

pub const HELP: &str = "\
zaqnuti rinex [OPTIONS] OBS NAV..: a receiver's RINEX files as CSV for the other commands

OBS is an observation file, NAV.. are its navigation files, of RINEX 2.00 to 3.05,
plain or compressed by gzip. Writes a line for each signal of GPS, GLONASS, Galileo
and BeiDou: the satellite's position, velocity and clock by its broadcast ephemeris,
modelled delays, elevation, range rate, and the receiver's position.

  --at X,Y,Z          the receiver's position, m [the header's if the epoch's fix is
                      within 20 m of it, else that fix]
  --systems LETTERS   of G, R, E, C [GREC]
  --band LIST         of G1, G2, G5, R1, R2, E1, E5, E7, C2, C7, C6 [G1,R1,E1,C2]
  --every SECONDS     the least time between two epochs written [0]
  --no-models         no ionosphere and no troposphere
  -o FILE             where it goes, whole or not at all [standard output]
  --help

Signals without a healthy, recent ephemeris, and outliers, are left out and counted
on standard error. Exit status 1: epochs were left out.
";

const VALUED: [&str; 5] = ["--at", "--systems", "--band", "--every", "-o"];

/// The Klobuchar parameters of 2004-01-01, used if no file has any.
const OF_2004: [f64; 8] = [
    0.1118e-7, -0.7451e-8, -0.5961e-7, 0.1192e-6, 0.1167e6, -0.2294e6, -0.1311e6, 0.1049e7,
];

/// Returns the Klobuchar parameters, unless `--no-models` is given.
fn models(args: &Args, ephemerides: &Ephemerides) -> Models {
    match (args.has("--no-models"), ephemerides.klobuchar) {
        (true, _) => None,
        (false, Some(numbers)) => Some(numbers),
        (false, None) => {
            tell("no navigation file has ionosphere parameters; those of 2004-01-01 are used");
            Some(OF_2004)
        }
    }
}

/// Writes a line for each signal. Returns whether every epoch was written.
pub fn run(words: &[String]) -> Run<bool> {
    let args = Args::parse(words, &VALUED, &["--no-models"])?;
    let [path, navigation @ ..] = args.files.as_slice() else {
        return said("OBS: an observation file is needed; see --help");
    };
    if navigation.is_empty() {
        return said("NAV: a navigation file is needed after the observations; see --help");
    }
    let every = args.float("--every", 0.0)?;
    if !(0.0..1e6).contains(&every) {
        return said("--every: not a number of seconds");
    }
    let bands = signals::chosen(args.value("--band"), args.value("--systems"))?;
    let ephemerides = Ephemerides::read(navigation)?;
    let mut file = Observations::open(path, &bands)?;
    let models = models(&args, &ephemerides);
    let mut runner = Runner::new(bands, ephemerides, models, args.place("--at")?);
    let mut out = Output::open(args.value("-o"))?;
    out.line(written::HEADER)?;
    let mut written: Option<Moment> = None;
    let last = epochs(&mut file, |file, epoch, first| {
        if let Some(times) = first {
            runner.learn(times);
        }
        runner.take(file, epoch);
        // Receivers' epochs may be a few milliseconds early.
        if written.is_some_and(|last| epoch.time.since(last) < every - 0.01) {
            return Ok(());
        }
        written = Some(epoch.time);
        put(&mut out, runner.lines(file, epoch))
    })?;
    put(&mut out, runner.rest())?;
    ends(&file, last);
    let mut left = runner.left();
    left.unlisted = file.unlisted();
    let whole = left.told(file.name())?;
    out.close()?;
    Ok(whole)
}

/// Takes every epoch in turn, the first one with the times of those after it. Returns the times of
/// the first and the last one.
fn epochs(
    file: &mut Observations,
    mut take: impl FnMut(&Observations, &Epoch, Option<&[Moment]>) -> Run<()>,
) -> Run<Option<[Moment; 2]>> {
    let mut epoch = Epoch {
        time: Moment::new(0, 0.0),
        failed: false,
        signals: Vec::new(),
    };
    let (mut first, mut more) = (Vec::new(), Ok(true));
    while first.len() < rhythm::FIRST && matches!(more, Ok(true)) {
        more = file.next(&mut epoch);
        if let Ok(true) = more {
            first.push(epoch.clone());
        }
    }
    let times: Vec<Moment> = first.iter().map(|e| e.time).collect();
    for (i, epoch) in first.iter().enumerate() {
        take(file, epoch, (i == 0).then_some(&times[..]))?;
    }
    while more? {
        more = file.next(&mut epoch);
        if let Ok(true) = more {
            take(file, &epoch, None)?;
        }
    }
    Ok(times.first().map(|first| [*first, epoch.time]))
}

/// Tells where a file's first and last epochs are not those that its header has.
fn ends(file: &Observations, found: Option<[Moment; 2]>) {
    let Some(found) = found else {
        return;
    };
    let names = ["first", "last"];
    for ((name, found), header) in names.iter().zip(found).zip(file.times()) {
        if header.is_some_and(|h| found.since(h).abs() > 1e-3) {
            let why = format!("the {name} epoch is not that of the header: is a part missing?");
            tell(&format!("{}: {why}", file.name()));
        }
    }
}

/// Writes complete lines, if there are any.
fn put(out: &mut Output, lines: &str) -> Run<()> {
    match lines.strip_suffix('\n') {
        Some(lines) => out.line(lines),
        None => Ok(()),
    }
}
