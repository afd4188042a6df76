//! `zaqnuti displacement`: how far the receiver moved between two epochs of carrier phases.

use zaqnuti::frames::{north_east_down, Ned};
use zaqnuti::tdcp::Delta;
use zaqnuti::{Ecef, Refusal};

use crate::answer::{Answers, FLAGS, OPTIONS};
use crate::args::Args;
use crate::csv::plain;
use crate::decimal::{metres, written};
use crate::fault::{warn, Run};
use crate::pairs::{Pair, Pairs};
use crate::series::VALUED;

pub const HELP: &str = "\
zaqnuti displacement [OPTIONS] [FILE..]: how far the receiver moved between two
epochs of carrier phases; a file is a series of epochs, or pairs
  --compass           as north, east and down at the receiver's position
";

/// The flag that asks for compass directions.
const COMPASS: &str = "--compass";

/// Returns the displacement of a pair, and as north, east and down if asked for.
fn solve(pair: &Pair, compass: bool) -> Result<(Delta, Option<Ned>), Refusal> {
    let moved = pair.solve()?;
    let [x, y, z] = pair.at;
    let ned = compass.then(|| north_east_down(Ecef::new(x, y, z), moved.delta));
    Ok((moved, ned.transpose()?))
}

/// Formats metres in one of two directions.
fn along(x: f64, above: &str, below: &str) -> String {
    let word = if x < 0.0 { below } else { above };
    format!("{} m {word}", metres(x.abs()))
}

/// Formats a displacement: x, y and z, or by compass.
fn way(moved: &Delta, ned: Option<Ned>) -> String {
    match ned {
        None => {
            let [x, y, z] = [moved.delta.x, moved.delta.y, moved.delta.z].map(metres);
            format!("{x} {y} {z} m")
        }
        Some(ned) => {
            let n = along(ned.n, "north", "south");
            let e = along(ned.e, "east", "west");
            let d = along(ned.d, "down", "up");
            format!("{n}, {e}, {d}")
        }
    }
}

/// Writes the answer of a pair; `file` begins a line of CSV.
fn tell(answers: &mut Answers, file: &str, pair: &Pair, compass: bool) -> Run<()> {
    let start = || match pair.time {
        Some(time) => format!("{file}{},,{}", time.fields(), written(pair.dt)),
        None => format!("{file},,{},{}", pair.name, written(pair.dt)),
    };
    let name = &pair.name;
    match solve(pair, compass) {
        Ok((d, ned)) => answers.tell(
            || {
                let [x, y, z] = [d.delta.x, d.delta.y, d.delta.z];
                let length = metres((x * x + y * y + z * z).sqrt());
                let (way, used, screened) = (way(&d, ned), d.used, d.screened);
                format!("{name}: {way}, {length} m in all; {used} used, {screened} screened")
            },
            || {
                let [x, y, z] = [d.delta.x, d.delta.y, d.delta.z].map(written);
                let more = ned.map_or(String::new(), |v| {
                    let [n, e, d] = [v.n, v.e, v.d].map(written);
                    format!(",{n},{e},{d}")
                });
                format!("{},{x},{y},{z},{},{},0{more}", start(), d.used, d.screened)
            },
        ),
        Err(why) => {
            let words = answers.refused(why);
            let more = if compass { ",,," } else { "" };
            answers.tell(
                || format!("{name}: {words}"),
                || format!("{},,,,,,{}{more}", start(), why.number()),
            )
        }
    }
}

/// Answers each pair; true where none is refused.
pub fn run(words: &[String]) -> Run<bool> {
    let flags = [&FLAGS[..], &[COMPASS]].concat();
    let args = Args::parse(words, &[&VALUED[..], &OPTIONS].concat(), &flags)?;
    let compass = args.has(COMPASS);
    let more = if compass { ",north,east,down" } else { "" };
    let several = args.sources().len() > 1;
    let first = if several { "file," } else { "" };
    let header = format!("{first}week,tow,pair,dt,dx,dy,dz,used,screened,refusal{more}");
    let mut answers = Answers::open(&args, &header)?;
    for source in args.sources() {
        let mut pairs = Pairs::open(source, &args)?;
        let file = match several && args.has("--csv") {
            true => format!("{},", plain("file", source)?),
            false => String::new(),
        };
        let mut some = false;
        while let Some(pair) = pairs.next()? {
            tell(&mut answers, &file, &pair, compass)?;
            some = true;
        }
        if !some {
            warn(&format!("{}: has no pair of epochs", pairs.name()));
        }
    }
    answers.close()
}
