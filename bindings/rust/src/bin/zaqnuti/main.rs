//! The command `zaqnuti`: the library's services at a shell, over decimal CSV. docs/SHELL.md is its page.

mod answer;
mod args;
mod atmosphere;
mod carriers;
mod changes;
mod corrections;
mod csv;
mod decimal;
mod depots;
mod displacement;
mod drive;
mod epochs;
mod fault;
mod fields;
mod files;
mod fix;
mod forces;
mod fuel;
mod intervals;
mod jobs;
mod labels;
mod ledger;
mod local;
mod names;
mod odometer;
mod orbit;
mod output;
mod page;
mod pairs;
mod places;
mod plot;
mod progress;
mod rank;
mod rating;
mod report;
mod rinex;
mod series;
mod svg;
mod tally;
mod text;
mod track;
mod trip;

use std::env;
use std::process::ExitCode;

use fault::{said, Fault, Run};
use output::Output;

const HELP: &str = "\
zaqnuti COMMAND [OPTIONS] [FILE..]: positioning from decimal CSV with a header line

  fix            a position from the pseudoranges of each epoch
  displacement   how far the receiver moved between two epochs of carrier phases
  corrections    the corrections of a base station, for each line of a rover
  track          the track that fits fixes and displacements
  trip           the distance of each drive, by carrier phases and odometer
  rank           fuel per kilometre of each depot, best first
  encode         CSV to texts of the program displacement
  decode         such texts to CSV
  plot           the path of a drive as a picture (SVG)
  rinex          a receiver's own files as CSV for the commands above

  zaqnuti COMMAND --help   its columns and options
  zaqnuti --version

Without a FILE, and for -, standard input is read. Exit status: 0 answered,
1 a call was refused (trip: a file has no counted epoch; rank: a depot has no
rank), 2 bad input, or a file can't be read or written.
";

const ENDING: &str = "
  --csv               prints CSV, with a header line and exact decimals
  -o FILE             output, written completely or not at all [standard output]
  --ignore-unknown    allows columns with unknown names
  --help
";

const SHORT_ENDING: &str = "
  -o FILE             output, written completely or not at all
  --ignore-unknown    allows columns with unknown names
  --help
";

type Command = fn(&[String]) -> Run<bool>;

/// Returns a command by its name, and its help.
fn command(name: &str) -> Option<(Command, Vec<&'static str>)> {
    Some(match name {
        "fix" => (fix::run, vec![fix::HELP, ENDING]),
        "displacement" => (
            displacement::run,
            vec![
                displacement::HELP,
                "\n",
                pairs::HELP,
                "\n",
                series::HELP,
                ENDING,
            ],
        ),
        "corrections" => (corrections::run, vec![corrections::HELP, ENDING]),
        "track" => (track::run, vec![track::HELP, ENDING]),
        "encode" => (text::encode, vec![text::ENCODE, SHORT_ENDING]),
        "decode" => (text::decode, vec![text::DECODE, SHORT_ENDING]),
        "trip" => (
            trip::run,
            vec![trip::HELP, "\n", series::HELP, fields::ENDING],
        ),
        "rank" => (rank::run, vec![rank::HELP, fields::ENDING]),
        "plot" => (plot::run, vec![plot::HELP, SHORT_ENDING]),
        "rinex" => (rinex::run, vec![rinex::HELP]),
        _ => return None,
    })
}

fn print(text: &str) -> Run<bool> {
    let mut out = Output::open(None)?;
    out.line(text.trim_end())?;
    out.close()?;
    Ok(true)
}

fn run(words: &[String]) -> Run<bool> {
    let Some((name, rest)) = words.split_first() else {
        return said("a command is required; see zaqnuti --help");
    };
    match name.as_str() {
        "--help" | "-h" | "help" => return print(HELP),
        "--version" => return print(concat!("zaqnuti ", env!("CARGO_PKG_VERSION"))),
        _ => {}
    }
    let Some((command, help)) = command(name) else {
        return said(format!("{name}: no such command; see zaqnuti --help"));
    };
    match rest.iter().any(|w| w == "--help" || w == "-h") {
        true => print(&help.concat()),
        false => command(rest),
    }
}

fn main() -> ExitCode {
    let words: Result<Vec<String>, _> = env::args_os().skip(1).map(|w| w.into_string()).collect();
    let done = match words {
        Ok(words) => run(&words),
        Err(word) => said(format!("{word:?}: is not text")),
    };
    match done {
        Ok(true) => ExitCode::SUCCESS,
        Ok(false) => ExitCode::from(1),
        Err(Fault::Closed) => ExitCode::from(2),
        Err(Fault::Said(why)) => {
            fault::tell(&why);
            ExitCode::from(2)
        }
    }
}
