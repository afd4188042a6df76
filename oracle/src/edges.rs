//! The trials that the program `edges` runs, by the Rust: the lines must be those of crates/edges/stdout.
//!
//! The skies are those of crates/edges/src/sky.rt.

use crate::estimate::{Displacement, Fix};
use drifters_core::frames::Ecef;
use drifters_gnss::differential::{self, build, Corrections, SatelliteState};
use drifters_gnss::rinex::{Base, BaseEpoch, BaseRange};
use drifters_gnss::tdcp::{self, geometry, Carrier};
use drifters_gnss::wls::{self, Observation};
use std::fmt::Write;

const START: [f64; 3] = [0.0, 0.0, 6.37e6];
const END: [f64; 3] = [1.0, 2.0, 6.370003e6];

fn along(k: usize, by: usize) -> f64 {
    ((k * by % 64) as f64 - 31.5) * 6e5
}

fn satellite(k: usize) -> [f64; 3] {
    [along(k, 37), along(k, 23), 2.4e7 + 0.2 * along(k, 11)]
}

fn range(k: usize, [x, y, z]: [f64; 3]) -> f64 {
    geometry(satellite(k), Ecef::new(x, y, z)).1
}

fn epoch(n: usize, slots: usize, current: bool) -> Vec<Carrier> {
    let carrier = |k: usize| Carrier {
        constellation: (k % slots) as u8,
        svid: k as u16,
        band: 1575,
        adr: range(k, if current { END } else { START }),
        state: 1,
        satellite: satellite(k),
        elevation: 45.0,
        rate: range(k, END) - range(k, START),
    };
    (0..n).map(carrier).collect()
}

fn between(previous: Vec<Carrier>, current: Vec<Carrier>, rounds: usize) -> String {
    let input = Displacement {
        previous,
        current,
        dt: 1.0,
        receiver: START,
        settings: tdcp::Settings {
            screen: 0.5,
            sigma_a: 0.008,
            sigma_b: 0.002,
            huber: 1.5,
            mask: 10.0,
            iterations: rounds,
            ..tdcp::Settings::default()
        },
    };
    match input.answer() {
        Ok(d) => {
            let [x, y, z] = [d.delta.x, d.delta.y, d.delta.z].map(f64::to_bits);
            let counts = format!("used {}, screened {}", d.used, d.screened);
            format!("{counts}, moved {x:016x} {y:016x} {z:016x}")
        }
        Err(n) => format!("refused by {n}"),
    }
}

/// The displacement of seven carriers, of which the first current one is changed.
fn first(change: impl Fn(&mut Carrier)) -> String {
    let mut current = epoch(7, 1, true);
    change(&mut current[0]);
    between(epoch(7, 1, false), current, 8)
}

fn displacements(out: &mut String) {
    let mut line =
        |name: &str, came: String| writeln!(out, "displacement, {name}: {came}").unwrap();
    let of = |n, slots| between(epoch(n, slots, false), epoch(n, slots, true), 8);
    line("64 records", of(64, 1));
    line("65 records", of(65, 1));
    line("5 pairs", of(5, 1));
    line("6 pairs", of(6, 1));
    line("six slots of 10 rows", of(10, 6));
    line("seven slots of 10 rows", of(10, 7));
    line("seven slots of 11 rows", of(11, 7));
    line("elevation equal to the mask", first(|c| c.elevation = 10.0));
    line(
        "elevation below the mask",
        first(|c| c.elevation = 10f64.next_down()),
    );
    line("detector equal to the screen", first(|c| c.adr += 0.5));
    line(
        "detector below the screen",
        first(|c| c.adr += 0.4990234375),
    );
    let six = vec![epoch(1, 1, false)[0]; 6];
    line("six equal pairs, zero rounds", between(six.clone(), six, 0));
}

fn observations(n: usize, slots: usize) -> Vec<Observation> {
    let observation = |k: usize| Observation {
        constellation: (k % slots) as u8,
        band: 1,
        svid: k as u16,
        modelled: 0.0,
        pseudorange: range(k, START),
        satellite: satellite(k),
        elevation: 45.0,
    };
    (0..n).map(observation).collect()
}

fn found(observations: Vec<Observation>) -> String {
    let input = Fix {
        observations,
        guess: [1e5, 0.0, 6.37e6],
        settings: wls::Settings {
            sigma_a: 0.5,
            sigma_b: 1.0,
            huber: 1.5,
            mask: 10.0,
            iterations: 8,
        },
    };
    match input.answer() {
        Ok(s) => {
            let p = s.position;
            let [x, y, z] = [p.x, p.y, p.z].map(f64::to_bits);
            format!("used {}, at {x:016x} {y:016x} {z:016x}", s.used)
        }
        Err(n) => format!("refused by {n}"),
    }
}

fn fixes(out: &mut String) {
    let mut line = |name: &str, came: String| writeln!(out, "fix, {name}: {came}").unwrap();
    let of = |n, slots| found(observations(n, slots));
    let first_up = |elevation| {
        let mut seven = observations(7, 1);
        seven[0].elevation = elevation;
        found(seven)
    };
    line("64 records", of(64, 1));
    line("65 records", of(65, 1));
    line("six slots of 10 rows", of(10, 6));
    line("seven slots of 10 rows", of(10, 7));
    line("seven slots of 11 rows", of(11, 7));
    line("elevation equal to the mask", first_up(10.0));
    line("elevation below the mask", first_up(10f64.next_down()));
}

/// How many samples three ranges give, of which the last is 5 m too long.
fn five_metres(max_correction: f64) -> String {
    let signal = |svid| SatelliteState {
        constellation: 1,
        svid,
        band: 1,
        position: [0.0, 0.0, 2e7],
        velocity: [0.0; 3],
        clock: 0.0,
        modelled: 0.0,
    };
    let range = |(svid, pseudorange)| BaseRange {
        constellation: 1,
        svid,
        band: 1,
        pseudorange,
    };
    let base = Base {
        name: String::new(),
        position: [0.0; 3],
        epochs: vec![BaseEpoch {
            tow: 10.0,
            ranges: [(1, 2e7), (2, 2e7), (3, 2e7 + 5.0)].map(range).to_vec(),
        }],
    };
    let settings = differential::Settings {
        max_gap: 90.0,
        max_correction,
        constellations: [true; 8],
    };
    let states = |_| Some([1, 2, 3].map(signal).to_vec());
    let built = build(&base, [0.0; 3], states, &settings);
    format!("samples {}", built.samples())
}

/// Samples of 1 m at 10 s and 3 m at 20 s, asked for 15 s.
fn half_way(max_gap: f64) -> String {
    let series = [((1, 5, 1), vec![(10.0, 1.0), (20.0, 3.0)])].into();
    match (Corrections { series, max_gap }).at(1, 5, 1, 15.0) {
        Some(x) => format!("metres {:016x}", x.to_bits()),
        None => "refused by 12".to_string(),
    }
}

fn corrections(out: &mut String) {
    let mut line = |name: &str, came: String| writeln!(out, "{name}: {came}").unwrap();
    line("correction equal to the maximum", five_metres(5.0));
    line(
        "correction above the maximum",
        five_metres(5f64.next_down()),
    );
    line("gap equal to the limit", half_way(10.0));
    line("gap above the limit", half_way(10f64.next_down()));
}

#[test]
fn the_program_edges_writes_what_the_rust_gives() {
    let mut lines = String::new();
    displacements(&mut lines);
    fixes(&mut lines);
    corrections(&mut lines);
    assert_eq!(lines, include_str!("../../crates/edges/stdout"));
}
