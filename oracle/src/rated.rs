//! The displacement with its quality: a plain model of chi and pdop over the pairs that the Rust's displacement keeps, at the state that its rounds reach.

use crate::estimate::{City, Displacement, AT_ODDS, FIT_FAILED, QUALITY_NOT_FINITE};
use drifters_core::frames::Ecef;
use drifters_core::math::{Cholesky, Matrix};
use drifters_gnss::robust::{self, elevation_sigma, Clocks, Row, NX};
use drifters_gnss::tdcp::{geometry, Carrier, Delta, Settings};

/// A displacement, with chi and pdop.
pub type Rated = (Delta, [f64; 2]);

/// A satellite of both epochs.
struct Pair {
    unit: [f64; 3],
    constellation: u8,
    elevation: f64,
    observed: f64,
    detector: f64,
}

fn is_used(c: &Carrier) -> bool {
    c.state & 1 != 0 && c.state & 6 == 0 && c.adr.is_finite()
}

/// The pairs that the screen keeps.
fn kept(input: &Displacement) -> Vec<Pair> {
    let [x, y, z] = input.receiver;
    let at = Ecef::new(x, y, z);
    let set = &input.settings;
    let mut pairs = Vec::with_capacity(input.current.len());
    let now = input.current.iter().filter(|c| is_used(c));
    for c in now.filter(|c| c.elevation >= set.mask) {
        let same =
            |p: &&Carrier| (p.constellation, p.svid, p.band) == (c.constellation, c.svid, c.band);
        let Some(p) = input.previous.iter().find(|p| same(p) && is_used(p)) else {
            continue;
        };
        let (unit, range) = geometry(c.satellite, at);
        let (_, before) = geometry(p.satellite, at);
        let phase = c.adr - p.adr;
        pairs.push(Pair {
            unit,
            constellation: c.constellation,
            elevation: c.elevation,
            observed: phase - (range - before),
            detector: phase - 0.5 * (c.rate + p.rate) * input.dt,
        });
    }
    let mut sorted: Vec<f64> = pairs.iter().map(|p| p.detector).collect();
    sorted.sort_by(f64::total_cmp);
    if let Some(&centre) = sorted.get(sorted.len() / 2) {
        pairs.retain(|p| (p.detector - centre).abs() < set.screen);
    }
    pairs
}

/// The rows of the pairs at a state.
fn rows(pairs: &[Pair], clocks: &Clocks, x: &[f64; NX], set: &Settings) -> Vec<Row> {
    let row = |p: &Pair| {
        let (u, clock) = (p.unit, clocks.slot(p.constellation));
        Row {
            unit: u,
            clock,
            residual: p.observed - (u[0] * x[0] + u[1] * x[1] + u[2] * x[2]) - x[clock],
            sigma: elevation_sigma(p.elevation, set.sigma_a, set.sigma_b),
        }
    };
    pairs.iter().map(row).collect()
}

/// The state that the rounds reach, zeros where there are none.
fn state(pairs: &[Pair], clocks: &Clocks, set: &Settings) -> Option<[f64; NX]> {
    let mut x = [0.0; NX];
    for _ in 0..set.iterations {
        let dx = robust::step(&rows(pairs, clocks, &x, set), clocks.unknowns(), set.huber)?;
        for i in 0..clocks.unknowns() {
            x[i] += dx[i];
        }
        let level = (dx[0] * dx[0] + dx[1] * dx[1]).sqrt();
        if (level * level + dx[2] * dx[2]).sqrt() < 1e-5 {
            break;
        }
    }
    Some(x)
}

/// chi of rows.
fn chi(rows: &[Row], unknowns: usize) -> f64 {
    let mut sum = 0.0;
    for r in rows {
        let by = r.residual / r.sigma;
        sum += by * by;
    }
    let freedom = rows.len().saturating_sub(unknowns).max(1) as f64;
    (sum / freedom).sqrt()
}

/// pdop of rows, where the unweighted matrix has a factor.
fn pdop(rows: &[Row], unknowns: usize) -> Option<f64> {
    let mut normal = Matrix::<NX, NX>::zeros();
    for r in rows {
        let mut row = [0.0; NX];
        row[..3].copy_from_slice(&r.unit);
        row[r.clock] = 1.0;
        for i in 0..unknowns {
            for j in 0..unknowns {
                normal[(i, j)] += row[i] * row[j];
            }
        }
    }
    for i in unknowns..NX {
        normal[(i, i)] = 1.0;
    }
    let factor = Cholesky::new(&normal)?;
    let mut sum = 0.0;
    for i in 0..3 {
        let mut unit = Matrix::<NX, 1>::zeros();
        unit[(i, 0)] = 1.0;
        sum += factor.solve(&unit)[(i, 0)];
    }
    Some(sum.sqrt())
}

/// The displacement that a state is, and chi and pdop there, finite or not.
fn figures(input: &Displacement) -> Result<([f64; 3], [f64; 2]), u8> {
    let pairs = kept(input);
    let clocks = Clocks::assign(pairs.iter().map(|p| p.constellation));
    let n = clocks.unknowns();
    let x = state(&pairs, &clocks, &input.settings).ok_or(FIT_FAILED)?;
    let rows = rows(&pairs, &clocks, &x, &input.settings);
    let pdop = pdop(&rows, n).ok_or(FIT_FAILED)?;
    Ok(([x[0], x[1], x[2]], [chi(&rows, n), pdop]))
}

impl Displacement {
    /// The Rust's displacement with chi and pdop of its rows, or the number of the refusal.
    pub fn rated(&self) -> Result<Rated, u8> {
        let d = self.answer()?;
        let (at, quality) = figures(self)?;
        if at.map(f64::to_bits) != [d.delta.x, d.delta.y, d.delta.z].map(f64::to_bits) {
            return Err(AT_ODDS);
        }
        match quality.iter().all(|q| q.is_finite()) {
            true => Ok((d, quality)),
            false => Err(QUALITY_NOT_FINITE),
        }
    }

    /// Displacement and figures by the model alone, as they are timed.
    pub fn plain_rated(&self) -> Option<([f64; 3], [f64; 2])> {
        let (at, quality) = figures(self).ok()?;
        at.iter()
            .chain(&quality)
            .all(|x| x.is_finite())
            .then_some((at, quality))
    }

    /// Of one that 14 turns away, whether chi and whether pdop is not finite.
    pub fn figures_not_finite(&self) -> [bool; 2] {
        figures(self).map_or([false; 2], |(_, q)| q.map(|x| !x.is_finite()))
    }
}

impl City {
    /// The same of what is left, within the rules of the city profile.
    pub fn rated(&self) -> Result<Rated, u8> {
        self.answer()?;
        self.left().rated()
    }
}
