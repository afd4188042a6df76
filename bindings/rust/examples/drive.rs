//! A day of 2,000 seconds whose mask head office raises at noon: `cargo run --example drive`.

use zaqnuti::robust::geometry;
use zaqnuti::tdcp::{Carrier, Settings};
use zaqnuti::trip::Drive;
use zaqnuti::{Ecef, Refusal};

/// Five satellites of GPS and five of Galileo above the van: constellation, svid, place, elevation.
const SKY: [(u8, u16, [f64; 3], f64); 10] = [
    (1, 2, [-8130939.0, -15201828.0, 22139305.0], 71.0),
    (1, 5, [5471280.0, -21319229.0, 17055354.0], 44.0),
    (1, 12, [-1251790.0, -27153999.0, -2012650.0], 28.0),
    (1, 25, [-20783761.0, -17887361.0, 5740534.0], 52.0),
    (1, 29, [-19313127.0, 1355625.0, 19493087.0], 33.0),
    (6, 3, [-12511062.0, -10340786.0, 22944196.0], 63.0),
    (6, 8, [3218266.0, -9424175.0, 25806354.0], 38.0),
    (6, 15, [894310.0, -26094985.0, 9885325.0], 47.0),
    (6, 24, [-17037785.0, -19966550.0, -6798282.0], 25.0),
    (6, 31, [-21733507.0, -12228783.0, 12902198.0], 57.0),
];

/// Returns the carriers at a place, with their rates for a move there from `from`.
fn epoch(from: Ecef, place: Ecef) -> Vec<Carrier> {
    let one = |&(constellation, svid, satellite, elevation)| Carrier {
        constellation,
        svid,
        band: 1575,
        adr: geometry(satellite, place).unwrap().1,
        state: 1,
        satellite,
        elevation,
        rate: geometry(satellite, place).unwrap().1 - geometry(satellite, from).unwrap().1,
    };
    SKY.iter().map(one).collect()
}

fn main() -> Result<(), Refusal> {
    let at = Ecef::new(-2694045.0, -4266427.0, 3888311.0);
    let next = Ecef::new(at.x + 1.5, at.y - 2.0, at.z);
    let (mut before, now) = (epoch(at, at), epoch(at, next));
    for (b, n) in before.iter_mut().zip(&now) {
        b.rate = n.rate;
    }
    let morning = Settings::default();
    let noon = Settings {
        mask: 30.0,
        ..morning
    };
    let mut drive = Drive::begin(&morning, 4000)?;
    let mut used = [0; 2];
    for second in 0..2000 {
        if second == 1000 {
            // A mask that is none is refused, and the morning's settings stay; the noon's are taken.
            let none = Settings {
                mask: 2e9,
                ..morning
            };
            assert_eq!(drive.change(&none), Err(Refusal::SettingOutOfRange));
            assert_eq!(drive.in_force(), morning);
            drive.change(&noon)?;
        }
        used[second / 1000] = drive.travel(&before, &now, 1.0, at, 10)?.used;
        // Five carriers are too few: the epoch and its pulses are not counted.
        let few = drive.travel(&before[..5], &now, 1.0, at, 10);
        assert_eq!(few, Err(Refusal::TooFewPairs));
    }
    let report = drive.trip().report()?;
    println!(
        "The van went {} mm by its carriers, with {} satellites before noon and {} after it,",
        report.carrier, used[0], used[1]
    );
    println!(
        "and {} mm by its odometer; the two were furthest apart, by {} mm, after epoch {}.",
        report.odometer, report.greatest, report.reached
    );
    Ok(())
}
