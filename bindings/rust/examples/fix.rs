//! A position from the pseudoranges of one epoch: `cargo run --example fix`.

use zaqnuti::wls::{solve_full, Observation, Settings};
use zaqnuti::{Ecef, Refusal};

/// GPS over a station in Japan, 2005-04-02: svid, pseudorange with every correction applied,
/// satellite at transmission, elevation.
const SKY: [(u16, f64, [f64; 3], f64); 8] = [
    (
        3,
        24796660.3435,
        [-24595184.3409, -10320589.5824, 1244218.6742],
        9.7076,
    ),
    (
        7,
        24321128.9414,
        [10026487.6901, 18601864.0690, 16597421.8539],
        16.1755,
    ),
    (
        8,
        23399829.5900,
        [-683949.7926, 26351230.7650, 79787.4804],
        20.0771,
    ),
    (
        11,
        20374438.0990,
        [-14822915.6595, 8930208.3680, 20079386.0967],
        69.4716,
    ),
    (
        19,
        22607777.4750,
        [-23358517.4998, -5407967.0045, 11505396.1790],
        31.7452,
    ),
    (
        20,
        21543255.5857,
        [-23036169.0859, 13172079.7389, 766984.1650],
        45.3946,
    ),
    (
        24,
        22278154.6066,
        [-4410870.9394, 25703724.4991, 4806330.1948],
        34.8016,
    ),
    (
        28,
        21557461.4116,
        [-2383676.5779, 17483698.3984, 19982740.5748],
        47.2315,
    ),
];

fn main() -> Result<(), Refusal> {
    let sky = SKY.map(|(svid, pseudorange, satellite, elevation)| Observation {
        constellation: 1,
        band: 1,
        svid,
        modelled: 0.0,
        pseudorange,
        satellite,
        elevation,
    });
    // Any guess near the earth does; its centre too.
    let found = solve_full(&sky, Ecef::default(), &Settings::geodetic())?;
    let Ecef { x, y, z } = found.position;
    println!("{x:.3} {y:.3} {z:.3} m from {} satellites", found.used);
    println!("chi {:.2}, pdop {:.2}", found.chi, found.pdop);

    // Four satellites leave no fifth to check them by.
    match solve_full(&sky[..4], found.position, &Settings::geodetic()) {
        Ok(_) => println!("four are enough"),
        Err(why) => println!("with four: {why}"),
    }
    Ok(())
}
