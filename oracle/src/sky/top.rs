//! Skies with a satellite where the receiver is: on the guess, on the receiver, on the place where a fix ends.

use super::{Input, Plan};
use crate::estimate::{Displacement, Fix};
use crate::random::Random;
use crate::rules;
use drifters_gnss::tdcp::Carrier;

/// One of the carriers, if there are any.
fn one<'a>(random: &mut Random, epoch: &'a mut [Carrier]) -> Option<&'a mut Carrier> {
    let count = epoch.len();
    (count > 0).then(|| &mut epoch[random.place(count)])
}

/// A displacement with a satellite on the receiver: at the current epoch, at the previous one or at
/// both; and there it may be without a partner, unusable, below the mask or screened out.
pub fn displacement(random: &mut Random) -> Displacement {
    let plan = match random.below(4) {
        0 => Plan::scarce(random),
        _ => Plan::usual(random),
    };
    let mut input = Displacement::under(random, &plan);
    on_receiver(random, &mut input);
    input
}

/// Puts a satellite of it on the receiver.
pub fn on_receiver(random: &mut Random, input: &mut Displacement) {
    let at = input.receiver;
    let which = random.below(3);
    if which != 0 {
        if let Some(p) = one(random, &mut input.previous) {
            p.satellite = at;
        }
    }
    let mask = input.settings.mask;
    let hidden = random.below(6);
    if which != 1 {
        if let Some(c) = one(random, &mut input.current) {
            c.satellite = at;
            match hidden {
                0 => c.svid ^= 1 << 15,
                1 => c.state = random.pick(&[0, 3, 5]),
                2 => c.elevation = (mask - 1.0).max(-90.0),
                3 => c.adr += 1e5,
                4 => c.elevation = c.elevation.max(mask.min(90.0)),
                _ => {}
            }
        }
    }
}

/// A fix with a satellite on the guess, or where it ends.
pub fn fix(random: &mut Random) -> Fix {
    let plan = match random.below(4) {
        0 => Plan::scarce(random),
        _ => Plan::usual(random),
    };
    let mut input = Fix::under(random, &plan);
    if input.observations.is_empty() {
        return input;
    }
    let k = random.place(input.observations.len());
    match random.below(8) {
        0 => input.observations[k].satellite = input.guess,
        1 => {
            let mask = input.settings.mask;
            let o = &mut input.observations[k];
            o.satellite = input.guess;
            o.elevation = (mask - 1.0).max(-90.0);
        }
        // So far off that the rounds run away, and ranges with them.
        2 => {
            input.observations[k].pseudorange = 1e9 * random.unit();
            input.guess = input.guess.map(|x| x * 1e2);
        }
        _ => ends_on(random, &mut input, k),
    }
    input
}

/// Brings satellite k to the place where the fix ends, again and again as this moves that place,
/// until it stands there to the last bit, or not.
fn ends_on(random: &mut Random, input: &mut Fix, k: usize) {
    input.settings.iterations = random.pick(&[1, 1, 2, 25]);
    input.settings.mask = -90.0;
    if rules::fix(input).is_some() {
        return;
    }
    for _ in 0..12 {
        let Some(found) = input.rust() else {
            return;
        };
        let p = found.position;
        let place = [p.x, p.y, p.z];
        if input.observations[k].satellite == place || !place.iter().all(|x| x.abs() < 1e9) {
            return;
        }
        input.observations[k].satellite = place;
    }
}
