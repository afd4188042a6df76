//! `zaqnuti fix`: a position from the pseudoranges of each epoch.

use zaqnuti::wls::{solve_full, Observation, Settings, Solution};
use zaqnuti::{Ecef, Refusal};

use crate::answer::{Answers, FLAGS, OPTIONS};
use crate::args::Args;
use crate::csv::{Column, Table};
use crate::decimal::{metres, written};
use crate::epochs::{Epochs, Time};
use crate::fault::Run;

pub const HELP: &str = "\
zaqnuti fix [OPTIONS] [FILE..]: a position from the pseudoranges of each epoch

Consecutive lines with the same week and tow are an epoch.
  tow            time of week, s; week too, if there is one
  constellation  1 GPS, 3 GLONASS, 5 BeiDou, 6 Galileo
  pseudorange    m, without the satellite's group delay
  x, y, z        satellite at transmission, earth-centred earth-fixed, m
  elevation      degrees
  clock          m, added to the pseudorange (may be left out)
  modelled       ionosphere and troposphere, m, subtracted (may be left out)
  correction     m, subtracted (may be left out); a line with an empty field is not used

  --at X,Y,Z          where the first round starts, m [0,0,0, the earth's centre]
  --receiver KIND     phone or geodetic: the settings below [phone]
  --sigma-a M         sigma = a + b / sin(elevation), m [phone 0.3, geodetic 0.3]
  --sigma-b M         [phone 16, geodetic 0.3]
  --huber N           in robust sigmas [phone 1, geodetic 1.5]
  --mask DEGREES      satellites below it are left out [10]
  --rounds N          the most rounds, 1 to 50 [25]
";

const VALUED: [&str; 7] = [
    "--at",
    "--receiver",
    "--sigma-a",
    "--sigma-b",
    "--huber",
    "--mask",
    "--rounds",
];

/// The columns of an observation.
struct Columns {
    constellation: Column,
    pseudorange: Column,
    place: [Column; 3],
    elevation: Column,
    clock: Option<Column>,
    modelled: Option<Column>,
    correction: Option<Column>,
}

impl Columns {
    fn of(table: &Table) -> Run<Self> {
        Ok(Self {
            constellation: table.column("constellation")?,
            pseudorange: table.column("pseudorange")?,
            place: table.columns(["x", "y", "z"])?,
            elevation: table.column("elevation")?,
            clock: table.optional("clock"),
            modelled: table.optional("modelled"),
            correction: table.optional("correction"),
        })
    }

    /// Checks whether a row has no satellite.
    fn is_bare(&self, table: &Table) -> bool {
        let [x, y, z] = self.place;
        let fields = [
            self.constellation,
            self.pseudorange,
            x,
            y,
            z,
            self.elevation,
        ];
        fields.iter().all(|&column| table.field(column).is_empty())
    }

    /// Returns the observation of a line, none if it has no satellite or lacks its correction.
    fn read(&self, table: &Table) -> Run<Option<Observation>> {
        let none = self.correction.is_some_and(|c| table.field(c).is_empty());
        if none || self.is_bare(table) {
            return Ok(None);
        }
        let pseudorange = table.float(self.pseudorange)?;
        let clock = table.float_or_0(self.clock)?;
        let modelled = table.float_or_0(self.modelled)?;
        let correction = table.float_or_0(self.correction)?;
        Ok(Some(Observation {
            constellation: table.whole(self.constellation)?,
            // The fix looks at neither of the two.
            band: 0,
            svid: 0,
            modelled,
            pseudorange: pseudorange + clock - modelled - correction,
            satellite: table.floats(self.place)?,
            elevation: table.float(self.elevation)?,
        }))
    }
}

fn settings(args: &Args) -> Run<Settings> {
    let kind = args.receiver(Settings::default(), Settings::geodetic())?;
    Ok(Settings {
        sigma_a: args.float("--sigma-a", kind.sigma_a)?,
        sigma_b: args.float("--sigma-b", kind.sigma_b)?,
        huber: args.float("--huber", kind.huber)?,
        mask: args.float("--mask", kind.mask)?,
        iterations: args.whole("--rounds", kind.iterations)?,
    })
}

fn tell(answers: &mut Answers, time: Time, found: Result<Solution, Refusal>) -> Run<()> {
    let place = |s: &Solution, f: fn(f64) -> String| s.position.coordinates().map(f);
    match found {
        Ok(s) => answers.tell(
            || {
                let [x, y, z] = place(&s, metres);
                let (chi, pdop) = (metres(s.chi), metres(s.pdop));
                format!(
                    "{time}: {x} {y} {z} m; {} used, chi {chi}, pdop {pdop}",
                    s.used
                )
            },
            || {
                let [x, y, z] = place(&s, written);
                let (chi, pdop) = (written(s.chi), written(s.pdop));
                format!("{},{x},{y},{z},{},{chi},{pdop},0", time.fields(), s.used)
            },
        ),
        Err(why) => {
            let words = answers.refused(why);
            answers.tell(
                || format!("{time}: {words}"),
                || format!("{},,,,,,,{}", time.fields(), why.number()),
            )
        }
    }
}

/// Answers each epoch; true where none is refused.
pub fn run(words: &[String]) -> Run<bool> {
    let args = Args::parse(words, &[&VALUED[..], &OPTIONS].concat(), &FLAGS)?;
    let set = settings(&args)?;
    let [x, y, z] = args.place("--at")?.unwrap_or_default();
    let guess = Ecef::new(x, y, z);
    let mut answers = Answers::open(&args, "week,tow,x,y,z,used,chi,pdop,refusal")?;
    for source in args.sources() {
        let table = Table::open(source, args.has("--ignore-unknown"))?;
        let columns = Columns::of(&table)?;
        let mut epochs = Epochs::of_rows(table, move |t| columns.read(t))?;
        while let Some(epoch) = epochs.next()? {
            tell(
                &mut answers,
                epoch.time,
                solve_full(&epoch.rows, guess, &set),
            )?;
        }
    }
    answers.close()
}
