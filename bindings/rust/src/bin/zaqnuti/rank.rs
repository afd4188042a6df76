//! `zaqnuti rank`: fuel per kilometre of each depot, best first.

use crate::args::Args;
use crate::depots::{ranked, Bounds, Depot};
use crate::fault::{said, tell, Run};
use crate::fields::{Fields, Rows, Value, FLAGS};
use crate::fuel::Fuel;
use crate::ledger::{self, Driven};
use crate::output::Output;
use crate::page;
use crate::report::kilometres;

pub const HELP: &str = "\
zaqnuti rank --fuel FUEL.csv [OPTIONS] TRIPS.csv..: fuel per kilometre by depot

TRIPS.csv is what `zaqnuti trip --csv` wrote. FUEL.csv has
  depot, millilitres  and van and day if the fuel is known by van or day; an empty
                      van or day means all of them. Each trip must have exactly one
                      line of fuel, and each line of fuel a trip.

Best first; a depot that can't be compared has no rank and is listed last, with
the reason. A trip without pulses (an idle van) adds its fuel and no distance.

  --fuel FILE           the fuel
  --min-coverage PART   smallest share of counted pulses [0.90]
  --max-difference PC   largest difference of odometer and carrier distance, % [3]
  --allow-missing       lists depots without fuel or trips, unranked
  --html PAGE           the ranking as a page for a browser
";

const HEADER: &str =
    "rank,depot,ml_per_km,ml_per_km_carrier,coverage,odometer_difference,refused,km,trips,note";

const VALUED: [&str; 5] = [
    "--fuel",
    "--min-coverage",
    "--max-difference",
    "--html",
    "-o",
];

fn bounds(args: &Args) -> Run<Bounds> {
    let bounds = Bounds {
        coverage: args.float("--min-coverage", 0.9)?,
        difference: args.float("--max-difference", 3.0)?,
        missing: args.has("--allow-missing"),
    };
    if !(0.0..=1.0).contains(&bounds.coverage) {
        return said("--min-coverage: must be from 0 to 1");
    }
    match bounds.difference >= 0.0 {
        true => Ok(bounds),
        false => said("--max-difference: must be 0 or more"),
    }
}

fn fields(depot: &Depot) -> Fields {
    let maybe = |x: Option<f64>, places: usize| Value::maybe(x.map(|x| format!("{x:.places$}")));
    let distance = depot.is_complete().then(|| kilometres(depot.distance));
    vec![
        ("rank", Value::maybe(depot.rank.map(|r| r.to_string()))),
        ("depot", Value::Text(depot.name.clone())),
        ("ml_per_km", Value::maybe(depot.figure())),
        (
            "ml_per_km_carrier",
            Value::maybe(depot.by_carrier().map(|x| x.to_string())),
        ),
        ("coverage", maybe(depot.coverage(), 4)),
        ("odometer_difference", maybe(depot.difference(), 3)),
        ("refused", Value::Refused(depot.refused.clone())),
        ("km", Value::maybe(distance)),
        ("trips", Value::whole(depot.trips)),
        ("note", Value::Text(depot.note())),
    ]
}

fn words(depot: &Depot) -> String {
    let rank = depot.rank.map_or("-".to_string(), |r| format!("{r}."));
    let figure = depot
        .figure()
        .map_or("no figure".to_string(), |f| format!("{f} ml/km"));
    let coverage = depot
        .coverage()
        .map_or(String::new(), |c| format!(", coverage {:.2} %", 100.0 * c));
    let trips = match depot.trips {
        1 => "1 trip".to_string(),
        n => format!("{n} trips"),
    };
    let note = match depot.note() {
        note if note.is_empty() => String::new(),
        note if depot.rank.is_none() => format!("; not ranked: {note}"),
        note => format!("; {note}"),
    };
    let far = kilometres(depot.distance);
    format!(
        "{rank} {}: {figure}{coverage}, {far} km in {trips}{note}",
        depot.name
    )
}

/// Writes the page for a browser, if it is asked for.
fn write_page(
    page: Option<Output>,
    depots: &[Depot],
    drives: &[Driven],
    bounds: Bounds,
) -> Run<()> {
    let Some(mut out) = page else {
        return Ok(());
    };
    out.line(page::written(depots, drives, bounds).trim_end())?;
    out.close()
}

/// Ranks the depots; true where each has a rank.
pub fn run(words_given: &[String]) -> Run<bool> {
    let flags = [&FLAGS[..], &["--allow-missing"]].concat();
    let args = Args::parse(words_given, &VALUED, &flags)?;
    let bounds = bounds(&args)?;
    let fuel = Fuel::read(&args)?;
    let drives = ledger::read(&args)?;
    let depots = ranked(&drives, &fuel, bounds)?;
    let mut rows = Rows::open(&args, HEADER)?;
    let page = args
        .value("--html")
        .map(|path| Output::open(Some(path)))
        .transpose()?;
    for depot in &depots {
        rows.put(|| words(depot), &fields(depot))?;
    }
    write_page(page, &depots, &drives, bounds)?;
    rows.close()?;
    let unranked = depots.iter().filter(|d| d.rank.is_none()).count();
    if unranked > 0 {
        tell(&format!("{unranked} of {} depots not ranked", depots.len()));
    }
    Ok(unranked == 0)
}
