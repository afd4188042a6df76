//! The fix, and its position alone.

use super::{column, count, floats, patterns, signal, sys};
use crate::estimate::Fix;
use crate::fuzz::lent::Lender;
use crate::fuzz::Bytes;
use crate::random::Random;
use crate::sky::{self, Input};
use drifters_gnss::wls::{self, Observation};

fn observation(b: &mut Bytes) -> Observation {
    let (constellation, svid) = signal(b);
    Observation {
        constellation,
        band: 1,
        svid,
        modelled: f64::NAN,
        pseudorange: b.float(),
        satellite: b.three(),
        elevation: b.float(),
    }
}

fn fix_input(b: &mut Bytes) -> Fix {
    let kind = b.byte();
    if kind % 4 == 0 {
        b.set_plain(kind & 4 == 0);
        let n = b.below(67);
        return Fix {
            settings: wls::Settings {
                sigma_a: b.float(),
                sigma_b: b.float(),
                huber: b.float(),
                mask: b.float(),
                iterations: b.count(50),
            },
            guess: b.three(),
            observations: (0..n).map(|_| observation(b)).collect(),
        };
    }
    let mut random = Random::new(u64::from(b.u16()), "fuzz");
    let mut input = match kind % 4 {
        1 => sky::input(&mut random),
        _ => {
            let n = 5 + b.below(60);
            Fix::clean(&mut random, n)
        }
    };
    for _ in 0..24 {
        if b.is_empty() {
            break;
        }
        b.set_plain(kind & 8 == 0);
        let n = input.observations.len();
        let set = &mut input.settings;
        match b.below(10) {
            0 => set.sigma_a = b.float(),
            1 => set.sigma_b = b.float(),
            2 => set.huber = b.float(),
            3 => set.mask = b.float(),
            4 => set.iterations = b.count(50),
            5 => input.guess[b.below(3)] = b.float(),
            _ if n == 0 => {}
            6 => input.observations[b.below(n)].constellation = b.byte(),
            7 => input.observations[b.below(n)].satellite[b.below(3)] = b.float(),
            8 => input.observations[b.below(n)].elevation = b.float(),
            _ => input.observations[b.below(n)].pseudorange = b.float(),
        }
    }
    input
}

pub fn fix(b: &mut Bytes) {
    let mut input = fix_input(b);
    let constellation = column(b, &input.observations, |o| o.constellation);
    let fs = floats(b, &input.observations, |o| {
        let [x, y, z] = o.satellite;
        [o.pseudorange, x, y, z, o.elevation]
    });
    let n = count(b, input.observations.len());
    let fits = n <= 64 && n <= constellation.len() && 5 * n <= fs.len();
    let expected = if fits && n <= input.observations.len() {
        input.observations.truncate(n);
        input.answer()
    } else if fits {
        // Records beyond those decoded are zeros: the columns were made longer.
        return;
    } else {
        Err(2)
    };
    let set = &input.settings;
    let mut lender = Lender::new();
    let (c, f) = (lender.lend(&constellation), lender.lend(&fs));
    let guess = lender.lend(&input.guess);
    let settings = lender.lend(&[set.sigma_a, set.sigma_b, set.huber, set.mask]);
    let lent = [1.5; 5].map(|x: f64| f64::from_bits(x.to_bits() ^ b.u64()));
    let (solution, used) = (lender.lend(&lent), lender.lend(&[b.u64() as usize]));
    let position = lender.lend(&lent[..3]);
    // SAFETY: each pointer leads to what its length or its type says.
    let (number, number_alone) = unsafe {
        (
            sys::zaqnuti_fix(
                c.at(),
                c.len(),
                f.at(),
                f.len(),
                n,
                guess.at().cast(),
                settings.at().cast(),
                set.iterations,
                solution.at().cast(),
                used.at(),
            ),
            sys::zaqnuti_position(
                c.at(),
                c.len(),
                f.at(),
                f.len(),
                n,
                guess.at().cast(),
                settings.at().cast(),
                set.iterations,
                position.at().cast(),
            ),
        )
    };
    c.kept();
    f.kept();
    guess.kept();
    settings.kept();
    assert_eq!(number, number_alone);
    match expected {
        Ok(s) => {
            let p = s.position;
            assert_eq!(number, 0);
            used.holds(&[s.used]);
            position.holds(&[p.x, p.y, p.z]);
            assert_eq!(
                patterns(solution.now()),
                patterns(&[p.x, p.y, p.z, s.chi, s.pdop])
            );
        }
        Err(why) => {
            assert_eq!(number, why);
            solution.kept();
            used.kept();
            position.kept();
        }
    }
}
