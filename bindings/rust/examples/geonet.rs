//! The three levels on an hour of two real receivers that stand still at known places
//! (examples/geonet/README.md): `cargo run --example geonet [FOLDER [PICTURE.svg]]`.
//!
//! Prints the error of each against the truth, as the root of the mean square in three dimensions
//! in metres, and draws the places to the east and the north of the truth.

#[path = "../src/bin/zaqnuti/local.rs"]
mod local;
// The command draws more kinds of series.
#[allow(dead_code)]
#[path = "../src/bin/zaqnuti/svg.rs"]
mod svg;

use std::path::Path;
use std::{env, fs};

use local::Plane;
use svg::{Chart, Look, Series};
use zaqnuti::differential::{self, BaseEpoch, BaseRange, Corrections, SatelliteState};
use zaqnuti::smooth::{self, smooth, Anchor, Link};
use zaqnuti::tdcp::{self, delta_position, Carrier};
use zaqnuti::wls::{self, solve_full, Observation};
use zaqnuti::{Ecef, Vec3};

/// The folder of the files, unless another is named.
const FOLDER: &str = concat!(env!("CARGO_MANIFEST_DIR"), "/../../examples/geonet");

type Error = Box<dyn std::error::Error>;

const ROVER: [f64; 3] = [-3976219.5082, 3382372.5671, 3652512.9849];
const BASE: [f64; 3] = [-3978242.4348, 3382841.1715, 3649902.7667];

/// One-sigma of a fix and of a displacement by axis, as the track weighs them.
const FIX_SIGMA: Vec3 = Vec3::new(1.0, 1.0, 1.0);
const DISPLACEMENT_SIGMA: Vec3 = Vec3::new(0.05, 0.05, 0.05);

/// A satellite at an epoch, as a line of the files has it.
struct Seen {
    constellation: u8,
    svid: u16,
    pseudorange: f64,
    carrier: f64,
    position: [f64; 3],
    velocity: [f64; 3],
    clock: f64,
    modelled: f64,
    ionosphere: f64,
    elevation: f64,
    rate: f64,
}

impl Seen {
    /// Returns the pseudorange as a fix wants it, less a correction.
    fn observation(&self, correction: f64) -> Observation {
        Observation {
            constellation: self.constellation,
            band: 1,
            svid: self.svid,
            modelled: self.modelled,
            pseudorange: self.pseudorange + self.clock - self.modelled - correction,
            satellite: self.position,
            elevation: self.elevation,
        }
    }

    /// Returns the carrier as a displacement wants it: the ionosphere has the other sign there.
    fn carrier(&self) -> Carrier {
        Carrier {
            constellation: self.constellation,
            svid: self.svid,
            band: 1575,
            adr: self.carrier + self.clock - self.modelled + 2.0 * self.ionosphere,
            state: 1,
            satellite: self.position,
            elevation: self.elevation,
            rate: self.rate,
        }
    }

    fn range(&self) -> BaseRange {
        BaseRange {
            constellation: self.constellation,
            svid: self.svid,
            band: 1,
            pseudorange: self.pseudorange,
        }
    }

    fn state(&self) -> SatelliteState {
        SatelliteState {
            constellation: self.constellation,
            svid: self.svid,
            band: 1,
            position: self.position,
            velocity: self.velocity,
            clock: self.clock,
            modelled: self.modelled,
        }
    }
}

struct Epoch {
    tow: f64,
    sky: Vec<Seen>,
}

/// Returns the numbers of each line after the header.
fn numbers(path: &Path) -> Result<Vec<Vec<f64>>, Error> {
    let text = fs::read_to_string(path).map_err(|e| format!("{}: {e}", path.display()))?;
    let lines = text.lines().skip(1);
    let line = |l: &str| l.split(',').map(|f| Ok(f.parse()?)).collect();
    lines.map(line).collect()
}

/// Returns the epochs of a station.
fn epochs(path: &Path) -> Result<Vec<Epoch>, Error> {
    let mut out: Vec<Epoch> = Vec::new();
    for line in numbers(path)? {
        let n: [f64; 17] = line.try_into().map_err(|_| "a line has not 17 numbers")?;
        let seen = Seen {
            constellation: n[2] as u8,
            svid: n[3] as u16,
            pseudorange: n[4],
            carrier: n[5],
            position: [n[6], n[7], n[8]],
            velocity: [n[9], n[10], n[11]],
            clock: n[12],
            modelled: n[13],
            ionosphere: n[14],
            elevation: n[15],
            rate: n[16],
        };
        match out.last_mut() {
            Some(epoch) if epoch.tow == n[1] => epoch.sky.push(seen),
            _ => out.push(Epoch {
                tow: n[1],
                sky: vec![seen],
            }),
        }
    }
    Ok(out)
}

/// A place for each epoch that has one.
type Places = Vec<Option<[f64; 3]>>;

/// Returns the fix of each epoch, less its corrections; a satellite without one is left out.
fn fixes(rover: &[Epoch], correction: impl Fn(&Seen, f64) -> Option<f64>) -> Places {
    let [x, y, z] = BASE;
    let fix = |epoch: &Epoch| {
        let used = |s: &Seen| Some(s.observation(correction(s, epoch.tow)?));
        let sky: Vec<Observation> = epoch.sky.iter().filter_map(used).collect();
        let found = solve_full(&sky, Ecef::new(x, y, z), &wls::Settings::geodetic());
        found.ok().map(|s| s.position.coordinates())
    };
    rover.iter().map(fix).collect()
}

/// Returns the displacement from each epoch with a fix to the next.
fn displacements(rover: &[Epoch], fixed: &Places) -> Vec<Option<Vec3>> {
    let carriers =
        |epoch: &Epoch| -> Vec<Carrier> { epoch.sky.iter().map(Seen::carrier).collect() };
    let moved = |(pair, at): (&[Epoch], &Option<[f64; 3]>)| {
        let (before, now, [x, y, z]) = (&pair[0], &pair[1], (*at)?);
        let (previous, current) = (carriers(before), carriers(now));
        let (dt, at) = (now.tow - before.tow, Ecef::new(x, y, z));
        let found = delta_position(&previous, &current, dt, at, &tdcp::Settings::geodetic());
        found.ok().map(|d| d.delta)
    };
    rover.windows(2).zip(fixed).map(moved).collect()
}

/// Returns the corrections of every other epoch of the base, whose satellites are where it saw them.
fn corrections(base: &[Epoch]) -> Result<Corrections, Error> {
    let mut table = Corrections::new(&differential::Settings::default());
    for Epoch { tow, sky } in base.iter().step_by(2) {
        let (tow, ranges) = (*tow, sky.iter().map(Seen::range).collect());
        let states: Vec<SatelliteState> = sky.iter().map(Seen::state).collect();
        table.add(&BaseEpoch { tow, ranges }, Some(&states), BASE, BASE)?;
    }
    Ok(table)
}

/// Returns the track through fixes and displacements.
fn track(fixed: &Places, moved: &[Option<Vec3>]) -> Result<Places, Error> {
    let anchor = |(index, at): (usize, &Option<[f64; 3]>)| {
        at.map(|[x, y, z]| Anchor {
            index,
            position: Vec3::new(x, y, z),
            sigma: FIX_SIGMA,
        })
    };
    let link = |(index, delta): (usize, &Option<Vec3>)| {
        delta.map(|delta| Link {
            index,
            delta,
            sigma: DISPLACEMENT_SIGMA,
        })
    };
    let anchors: Vec<Anchor> = fixed.iter().enumerate().filter_map(anchor).collect();
    let links: Vec<Link> = moved.iter().enumerate().filter_map(link).collect();
    let points = smooth(fixed.len(), &anchors, &links, &smooth::Settings::default())?;
    Ok(points.iter().map(|p| Some([p.x, p.y, p.z])).collect())
}

/// Returns the root of the mean square of how far places are from the truth.
fn error(places: &Places, truth: [f64; 3]) -> f64 {
    let square = |p: &[f64; 3]| (0..3).map(|k| (p[k] - truth[k]).powi(2)).sum::<f64>();
    let squares: Vec<f64> = places.iter().flatten().map(square).collect();
    (squares.iter().sum::<f64>() / squares.len() as f64).sqrt()
}

/// Returns the places around the truth.
fn picture(levels: &[(&str, &Places, &'static str)]) -> Chart {
    let plane = Plane::at(ROVER);
    let off = |p: &[f64; 3]| plane.parts([0, 1, 2].map(|k| p[k] - ROVER[k]));
    let mut series: Vec<Series> = levels
        .iter()
        .map(|&(name, places, colour)| Series {
            name: format!("{name} ({:.2} m)", error(places, ROVER)),
            look: Look::Dots(colour),
            parts: vec![places.iter().flatten().map(off).collect()],
        })
        .collect();
    series.push(Series {
        name: "truth".into(),
        look: Look::Crosses("#000000"),
        parts: vec![vec![[0.0; 2]]],
    });
    Chart {
        title: "An hour of a standing receiver, GEONET 0759".into(),
        note: "In brackets the error in three dimensions, root of the mean square".into(),
        series,
    }
}

fn main() -> Result<(), Error> {
    let mut words = env::args().skip(1);
    let folder = words.next().unwrap_or(FOLDER.into());
    let folder = Path::new(&folder);
    let rover = epochs(&folder.join("rover.csv"))?;
    let base = epochs(&folder.join("base.csv"))?;
    let rtklib = numbers(&folder.join("rtklib.csv"))?;
    let rtklib: Places = rtklib.iter().map(|n| Some([n[2], n[3], n[4]])).collect();

    let fix = fixes(&rover, |_, _| Some(0.0));
    let moved = displacements(&rover, &fix);
    let table = corrections(&base)?;
    let corrected = fixes(&rover, |s, tow| {
        table.at(s.constellation, s.svid, 1, tow).ok()
    });
    let tracked = track(&fix, &moved)?;
    let corrected_track = track(&corrected, &moved)?;

    let still: Places = moved.iter().map(|d| d.map(|d| [d.x, d.y, d.z])).collect();
    let tell = |name: &str, metres: f64| println!("{name:<14} {metres:.3}");
    tell("fix", error(&fix, ROVER));
    tell("rtklib", error(&rtklib, ROVER));
    tell("displacement", error(&still, [0.0; 3]));
    tell("fix_corrected", error(&corrected, ROVER));
    tell("track", error(&tracked, ROVER));
    tell("track_corrected", error(&corrected_track, ROVER));

    if let Some(path) = words.next() {
        let chart = picture(&[
            ("RTKLIB", &rtklib, "#9a9a9a"),
            ("fix", &fix, "#0072b2"),
            ("corrected fix", &corrected, "#e69f00"),
            ("track", &tracked, "#cc79a7"),
            ("corrected track", &corrected_track, "#009e73"),
        ]);
        fs::write(path, chart.draw().ok_or("a place is out of all measure")?)?;
    }
    Ok(())
}
