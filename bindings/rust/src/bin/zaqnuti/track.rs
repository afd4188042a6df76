//! `zaqnuti track`: the track that fits fixes and displacements.

use zaqnuti::smooth::{smooth, Anchor, Link, Settings};
use zaqnuti::{Refusal, Vec3, EPOCHS};

use crate::answer::{Answers, FLAGS, OPTIONS};
use crate::args::Args;
use crate::csv::{Column, Table};
use crate::decimal::{metres, written};
use crate::epochs::{Time, Times};
use crate::fault::{self, said, Run};

pub const HELP: &str = "\
zaqnuti track [OPTIONS] FILE..: the track that fits fixes and displacements

The header says what a file holds; output of `zaqnuti fix --csv` and
`zaqnuti displacement --csv` can be read directly.
  tow                time of week, s; week too, if there is one
  x, y, z            a fix, m; in a recording with satellites rx, ry, rz; or
  dx, dy, dz, dt     a displacement that ends at tow and took dt seconds, m and s
  sigma_x, sigma_y, sigma_z
                     one-sigma of either, m, above 0 (or the options below)
  refusal            a line with another value than 0 is an epoch without data

Each time is an epoch of the track, at most 1,024 of them. A displacement
leads from one epoch to the next.

  --fix-sigma M           one-sigma of each fix by axis, m [1]
  --displacement-sigma M  of each displacement by axis, m [0.05]
  --huber N               in sigmas [2]
  --rounds N              reweighting passes, at most 50 [6]
";

const VALUED: [&str; 4] = ["--fix-sigma", "--displacement-sigma", "--huber", "--rounds"];

/// What one line says of its epoch.
struct Said {
    value: Vec3,
    sigma: Vec3,
    /// The seconds since the epoch where it starts, of a displacement.
    took: Option<f64>,
}

/// The columns of fixes or displacements.
struct Columns {
    times: Times,
    value: [Column; 3],
    dt: Option<Column>,
    sigma: Option<[Column; 3]>,
    refusal: Option<Column>,
    otherwise: f64,
    /// Whether the lines of a time are satellites, which all have the one fix.
    satellites: bool,
}

/// Returns the columns of a fix: x, y, z belong to the satellites where a file has any.
fn fix_columns(table: &Table, satellites: bool) -> Run<[&'static str; 3]> {
    match table.optional("rx") {
        Some(_) => Ok(["rx", "ry", "rz"]),
        None if satellites => said(format!(
            "{}:1: x, y, z are the satellites'; the columns rx, ry, rz of a fix are missing",
            table.name()
        )),
        None => Ok(["x", "y", "z"]),
    }
}

impl Columns {
    fn of(table: &Table, args: &Args) -> Run<Self> {
        let links = table.optional("dx").is_some();
        let of_satellites = ["constellation", "svid", "elevation"];
        let satellites = !links && of_satellites.iter().any(|n| table.optional(n).is_some());
        let (names, otherwise) = match links {
            true => (
                ["dx", "dy", "dz"],
                args.float("--displacement-sigma", 0.05)?,
            ),
            false => (
                fix_columns(table, satellites)?,
                args.float("--fix-sigma", 1.0)?,
            ),
        };
        Ok(Self {
            times: Times::of(table)?,
            value: table.columns(names)?,
            dt: links.then(|| table.column("dt")).transpose()?,
            sigma: table.optionals(["sigma_x", "sigma_y", "sigma_z"])?,
            refusal: table.optional("refusal"),
            otherwise,
            satellites,
        })
    }

    fn read(&self, table: &Table) -> Run<(Time, Option<Said>)> {
        let time = self.times.read(table)?;
        let bare = |c: &Column| table.field(*c).is_empty();
        let tunnel = self.satellites && self.value.iter().all(bare);
        if tunnel || table.whole_or(self.refusal, 0u8)? != 0 {
            return Ok((time, None));
        }
        let vector = |[x, y, z]: [f64; 3]| Vec3::new(x, y, z);
        let sigma = self.sigma.map(|s| table.floats(s)).transpose()?;
        let said = Said {
            value: vector(table.floats(self.value)?),
            sigma: vector(sigma.unwrap_or([self.otherwise; 3])),
            took: self.dt.map(|dt| table.float(dt)).transpose()?,
        };
        Ok((time, Some(said)))
    }
}

/// The lines of the files.
#[derive(Default)]
struct Gathered {
    /// By time, and of each file at most as many as a track has epochs, and one more.
    lines: Vec<(Time, Option<Said>)>,
    /// The epochs of the file with the most.
    most: usize,
}

impl Gathered {
    fn of(args: &Args) -> Run<Self> {
        let mut gathered = Self::default();
        for source in args.sources() {
            gathered.read(Table::open(source, args.has("--ignore-unknown"))?, args)?;
        }
        gathered.lines.sort_by(|(a, _), (b, _)| a.order(*b));
        Ok(gathered)
    }

    fn read(&mut self, mut table: Table, args: &Args) -> Run<()> {
        let columns = Columns::of(&table, args)?;
        let (mut last, mut epochs, mut room) = (None, 0, EPOCHS + 1);
        while table.next()? {
            let line = columns.read(&table)?;
            let same = last == Some(line.0);
            last = Some(line.0);
            epochs += usize::from(!same);
            // One more than the library takes is refused whatever follows.
            if room > 0 && !(same && columns.satellites) {
                self.lines.push(line);
                room -= 1;
            }
        }
        self.most = self.most.max(epochs);
        Ok(())
    }
}

/// The epochs, and what is known of them.
#[derive(Default)]
struct Known {
    times: Vec<Time>,
    anchors: Vec<Anchor>,
    links: Vec<Link>,
}

impl Known {
    fn of(lines: Vec<(Time, Option<Said>)>) -> Run<Self> {
        let mut known = Self::default();
        for (time, said) in lines {
            if known.times.last() != Some(&time) {
                known.times.push(time);
            }
            if let Some(said) = said {
                known.place(said)?;
            }
        }
        Ok(known)
    }

    /// Takes what is said of the last epoch.
    fn place(&mut self, what: Said) -> Run<()> {
        let index = self.times.len() - 1;
        let (value, sigma) = (what.value, what.sigma);
        let Some(took) = what.took else {
            self.anchors.push(Anchor {
                index,
                position: value,
                sigma,
            });
            return Ok(());
        };
        let end = self.times[index];
        let before = index.checked_sub(1);
        let starts = |i: &usize| (end.since(self.times[*i]) - took).abs() < 1e-6;
        let Some(index) = before.filter(starts) else {
            return said(format!(
                "the displacement that ends at {end} does not start at the epoch before"
            ));
        };
        self.links.push(Link {
            index,
            delta: value,
            sigma,
        });
        Ok(())
    }
}

/// Answers a track of too many epochs.
fn too_many(answers: &mut Answers, count: usize) -> Run<()> {
    let why = Refusal::TooMany;
    answers.refused(why);
    let words = format!("{count} epochs; a track has at most {EPOCHS}");
    fault::tell(&words);
    answers.tell(
        || format!("refused by {}: {words}", why.number()),
        || format!(",,,,,{}", why.number()),
    )
}

/// Answers the track; true where it is not refused.
pub fn run(words: &[String]) -> Run<bool> {
    let args = Args::parse(words, &[&VALUED[..], &OPTIONS].concat(), &FLAGS)?;
    let kind = Settings::default();
    let set = Settings {
        huber: args.float("--huber", kind.huber)?,
        iterations: args.whole("--rounds", kind.iterations)?,
    };
    let Gathered { lines, most } = Gathered::of(&args)?;
    let known = match most > EPOCHS {
        true => Known::default(),
        false => Known::of(lines)?,
    };
    let mut answers = Answers::open(&args, "week,tow,x,y,z,refusal")?;
    let count = most.max(known.times.len());
    if count > EPOCHS {
        too_many(&mut answers, count)?;
        return answers.close();
    }
    match smooth(known.times.len(), &known.anchors, &known.links, &set) {
        Ok(track) => {
            for (time, p) in known.times.iter().zip(track) {
                let place = |f: fn(f64) -> String| [p.x, p.y, p.z].map(f);
                answers.tell(
                    || format!("{time}: {} m", place(metres).join(" ")),
                    || format!("{},{},0", time.fields(), place(written).join(",")),
                )?;
            }
        }
        Err(why) => {
            let words = answers.refused(why);
            answers.tell(|| words, || format!(",,,,,{}", why.number()))?;
        }
    }
    answers.close()
}
