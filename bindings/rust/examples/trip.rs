//! A day of 65,535 epochs, by carriers and by the odometer, told in words.
//!
//! The van goes 12 m, 9 m or nothing in a second; the odometer has 4,000 pulses to the kilometre, and
//! its wheels slip for ten seconds after five hours.

use zaqnuti::trip::Trip;
use zaqnuti::{Refusal, Vec3};

/// Metres with their millimetres.
fn metres(millimetres: u64) -> String {
    format!("{}.{:03} m", millimetres / 1000, millimetres % 1000)
}

fn main() -> Result<(), Refusal> {
    let steps = [
        (Vec3::new(12.0, 0.0, 0.0), 48),
        (Vec3::new(0.0, -9.0, 0.0), 36),
        (Vec3::new(0.0, 0.0, 0.0), 0),
    ];
    let mut day = Trip::start(4000)?;
    for second in 0..65_535 {
        let (step, pulses) = steps[second % 3];
        let slipped = if second / 10 == 1800 { 100 } else { 0 };
        day.add(step, pulses + slipped)?;
    }
    let report = day.report()?;
    println!(
        "In 65,535 epochs the van went {} by its carriers and {} by its odometer.",
        metres(report.carrier),
        metres(report.odometer)
    );
    println!(
        "The two were furthest apart, by {}, after epoch {}.",
        metres(report.greatest),
        report.reached
    );
    println!(
        "The day took {} ml of fuel for a kilometre.",
        day.fuel(41_288)?
    );
    // The trip is full: one epoch more is refused, and the report stays.
    if let Err(why) = day.add(steps[2].0, 0) {
        println!("One epoch more: {why}.");
    }
    assert_eq!(day.report()?, report);
    Ok(())
}
