//! The sight line: unit vector and range, against the `geometry` of wls.rs and that of tdcp.rs where
//! their range is neither zero nor not finite, and 15 where it is.

use super::Service;
use crate::random::{exp2, pattern, Random};
use crate::sky;
use crate::tally::{hex, Tally};
use crate::vectors::{of_each, raw, Vectors};
use crate::{bench, ffi, rules};
use drifters_core::frames::Ecef;
use drifters_gnss::wls::Observation;
use drifters_gnss::{tdcp, wls};
use std::hint::black_box;

pub const SERVICE: Service = Service {
    name: "sight",
    count: 5_000_000,
    compare,
    bench: Some(time),
};

/// The range at which the travel angle is 2^-10, about.
const LIMIT: f64 = 299_792_458.0 / 7.292_115_146_7e-5 / 1024.0;

/// Any three floats.
fn any(random: &mut Random) -> [f64; 3] {
    std::array::from_fn(|_| random.float())
}

/// A satellite and a receiver.
fn pair(random: &mut Random) -> ([f64; 3], [f64; 3]) {
    let place = sky::Place::random(random);
    let (satellite, _) = place.satellite(random);
    match random.below(8) {
        // The same place, or one coordinate apart from it.
        0 => {
            let mut at = satellite;
            if random.below(2) == 0 {
                at[random.place(3)] = random.ordinary();
            }
            (satellite, at)
        }
        // Next to the travel angle's limit.
        1 => {
            let d = sky::direction(random);
            let range = LIMIT * (1.0 + random.unit() * exp2(random.between(-52, -8)));
            let at = place.at;
            (std::array::from_fn(|i| at[i] + range * d[i]), at)
        }
        2 => (any(random), any(random)),
        3 => {
            let mut s = satellite;
            s[random.place(3)] = random.float();
            (s, place.at)
        }
        4 => {
            let scale = exp2(random.between(-540, 520));
            (satellite.map(|x| x * scale), place.at.map(|x| x * scale))
        }
        _ => (satellite, place.at),
    }
}

/// Unit and range by tdcp.rs.
#[inline(never)]
fn by_tdcp(satellite: [f64; 3], at: [f64; 3]) -> [f64; 4] {
    let (unit, range) = tdcp::geometry(satellite, Ecef::new(at[0], at[1], at[2]));
    [unit[0], unit[1], unit[2], range]
}

/// Unit and range by wls.rs.
fn by_wls(satellite: [f64; 3], at: [f64; 3]) -> [f64; 4] {
    let observation = Observation {
        constellation: 0,
        band: 0,
        svid: 0,
        modelled: 0.0,
        pseudorange: 0.0,
        satellite,
        elevation: 0.0,
    };
    let mut x = [0.0; 9];
    x[..3].copy_from_slice(&at);
    let (unit, range) = wls::geometry(&observation, &x);
    [unit[0], unit[1], unit[2], range]
}

fn compare(tally: &mut Tally, random: &mut Random, count: u64) {
    let (mut zero, mut odd) = (0u64, 0u64);
    for _ in 0..count {
        let (satellite, at) = pair(random);
        let lent: [f64; 4] = std::array::from_fn(|_| random.float());
        let mut ours = lent;
        let number = ffi::geometry(&satellite, &at, &mut ours);
        let fix = by_wls(satellite, at).map(pattern);
        let displacement = by_tdcp(satellite, at).map(pattern);
        let range = f64::from_bits(fix[3]);
        zero += u64::from(range == 0.0);
        odd += u64::from(!range.is_finite());
        // A refusal keeps every bit.
        let same = if rules::on_receiver(range) {
            number == 15 && ours.map(f64::to_bits) == lent.map(f64::to_bits)
        } else {
            number == 0 && ours.map(f64::to_bits) == fix
        };
        tally.judge(same && fix == displacement, || {
            format!(
                "of {} from {}: ours {number}, {}, wls.rs {}, tdcp.rs {}",
                hex(satellite.map(f64::to_bits)),
                hex(at.map(f64::to_bits)),
                hex(ours.map(f64::to_bits)),
                hex(fix),
                hex(displacement)
            )
        });
    }
    tally.note(format!(
        "refused with a range of zero {zero}, with one that is not finite {odd}"
    ));
}

fn time(random: &mut Random) {
    let pairs: Vec<_> = (0..512)
        .map(|_| {
            let place = sky::Place::random(random);
            (place.satellite(random).0, place.at)
        })
        .collect();
    let mut lent = [0.0; 4];
    bench::row(
        "sight",
        1,
        pairs.len(),
        || {
            for (s, at) in &pairs {
                black_box(ffi::geometry(black_box(s), at, &mut lent));
                black_box(&lent);
            }
        },
        || {
            for (s, at) in &pairs {
                black_box(by_tdcp(*black_box(s), *at));
            }
        },
    );
}

/// Satellite 3, receiver 3; number, unit vector 3, range (zeros where refused).
pub fn vectors(random: &mut Random) -> Vectors {
    let wanted = [(0, 48), (15, 12)];
    let next = || {
        let (satellite, at) = pair(random);
        let given = raw(&satellite).chain(raw(&at)).collect();
        let sight = by_wls(satellite, at);
        let (number, sight) = match rules::on_receiver(sight[3]) {
            true => (15, [0.0; 4]),
            false => (0, sight),
        };
        let stored = [vec![u64::from(number)], sight.map(pattern).to_vec()].concat();
        Some((number, (given, stored)))
    };
    Vectors::of(of_each(&wanted, next))
}
