//! A mileage against a plain model in whole numbers of 128 bits: the reference has none. The model keeps the list of epochs since the start, puts each
//! into its class by its neighbours, and works every word out of that.

use super::trip::{at, displacement, length, millimetres};
use super::Service;
use crate::numbers::Numbers;
use crate::random::Random;
use crate::tally::{hex, Tally};
use crate::vectors::Vectors;
use crate::{bench, ffi};
use std::hint::black_box;
use zaqnuti::mileage::predicted_error;

pub const SERVICE: Service = Service {
    name: "mileage",
    count: 1_000_000,
    compare,
    bench: Some(time),
};

/// Ten words: the limit's bits, epochs, refused, set aside, counted mm, counted pulses, standing mm, all pulses, whether the last epoch had a pulse, and its
/// millimetres where it stands so far.
pub type Words = [u64; 10];

/// The most epochs of a mileage.
const FULL: u64 = 65_535;

/// One epoch as a call takes it.
#[derive(Clone, Copy, Debug)]
pub struct Epoch {
    pub refused_by: u8,
    pub delta: [f64; 3],
    pub quality: [f64; 2],
    pub pulses: u16,
}

/// What becomes of an epoch.
#[derive(Clone, Copy, PartialEq, Eq)]
enum Class {
    Refused,
    Aside,
    Standing,
    Counted,
}

impl Epoch {
    fn is_taken(&self) -> bool {
        self.refused_by != 0
            || self.delta.iter().all(|x| x.is_finite()) && length(&self.delta) <= 1000.0
    }

    fn is_rated(&self, limit: f64) -> bool {
        self.quality.iter().all(|x| x.is_finite() && *x >= 0.0)
            && predicted_error(self.quality[0], self.quality[1]) < limit
    }

    /// Its class, and whether a neighbour has a pulse.
    fn class(&self, limit: f64, neighbour: bool) -> Class {
        if self.refused_by != 0 {
            Class::Refused
        } else if !self.is_rated(limit) {
            Class::Aside
        } else if neighbour || self.pulses > 0 {
            Class::Counted
        } else {
            Class::Standing
        }
    }

    fn millimetres(&self) -> u64 {
        millimetres(length(&self.delta))
    }
}

/// The words of a list of epochs, from the list alone.
pub fn words_of(limit: f64, list: &[Epoch]) -> Words {
    let moves = |k: Option<usize>| k.and_then(|k| list.get(k)).is_some_and(|e| e.pulses > 0);
    let class = |k: usize| list[k].class(limit, moves(k.checked_sub(1)) || moves(Some(k + 1)));
    let among = |which: Class, of: fn(&Epoch) -> u64| {
        let epochs = list.iter().enumerate().filter(|(k, _)| class(*k) == which);
        epochs.map(|(_, e)| of(e)).sum::<u64>()
    };
    let waiting = match list.last() {
        Some(e) if class(list.len() - 1) == Class::Standing => e.millimetres(),
        _ => 0,
    };
    [
        limit.to_bits(),
        list.len() as u64,
        among(Class::Refused, |_| 1),
        among(Class::Aside, |_| 1),
        among(Class::Counted, Epoch::millimetres),
        among(Class::Counted, |e| e.pulses.into()),
        among(Class::Standing, Epoch::millimetres) - waiting,
        list.iter().map(|e| u64::from(e.pulses)).sum(),
        moves(list.len().checked_sub(1)).into(),
        waiting,
    ]
}

/// Whether 16 lets words pass.
pub fn is_sound(mileage: &Words) -> bool {
    let limit = f64::from_bits(mileage[0]);
    let [_, epochs, refused, aside, counted, covered, standing, pulses, moved, waiting] =
        mileage.map(u128::from);
    limit.is_finite()
        && limit.abs() <= 1e9
        && epochs <= FULL.into()
        && refused + aside <= epochs
        && counted + standing + waiting <= 1_000_000 * epochs
        && pulses <= 65_535 * epochs
        && covered <= pulses
        && moved <= 1
}

/// The words of a start, or 3.
pub fn started(limit: f64) -> Result<Words, u8> {
    if limit.is_finite() && limit.abs() <= 1e9 {
        Ok(words_of(limit, &[]))
    } else {
        Err(3)
    }
}

/// The words with one epoch more, or 16.
pub fn added(mileage: &Words, epoch: &Epoch) -> Result<Words, u8> {
    if !is_sound(mileage) || mileage[1] == FULL || !epoch.is_taken() {
        return Err(16);
    }
    let mut next = *mileage;
    let pulses = u64::from(epoch.pulses);
    next[if pulses > 0 { 4 } else { 6 }] += mileage[9];
    next[1] += 1;
    next[7] += pulses;
    next[8] = u64::from(pulses > 0);
    next[9] = 0;
    match epoch.class(f64::from_bits(mileage[0]), mileage[8] > 0) {
        Class::Refused => next[2] += 1,
        Class::Aside => next[3] += 1,
        Class::Standing => next[9] = epoch.millimetres(),
        Class::Counted => {
            next[4] += epoch.millimetres();
            next[5] += pulses;
        }
    }
    Ok(next)
}

/// The report, or 16.
pub fn reported(mileage: &Words) -> Result<[u64; 7], u8> {
    let [_, epochs, refused, aside, counted, covered, standing, pulses, _, waiting] = *mileage;
    let sound = || {
        let standing = standing + waiting;
        [epochs, refused, aside, counted, covered, standing, pulses]
    };
    is_sound(mileage).then(sound).ok_or(16)
}

/// The distance, or 16 or 17.
pub fn distance(mileage: &Words) -> Result<u64, u8> {
    let [counted, covered, pulses] = [4, 5, 7].map(|k: usize| u128::from(mileage[k]));
    match covered {
        _ if !is_sound(mileage) => Err(16),
        0 => Err(17),
        _ => match counted * pulses / covered {
            long if long >= 1 << 63 => Err(16),
            short => Ok(short as u64),
        },
    }
}

/// The fuel for a kilometre, or 16 or 17.
pub fn fuelled(mileage: &Words, millilitres: u32) -> Result<u64, u8> {
    match distance(mileage)? {
        0 => Err(17),
        d => Ok(u64::from(millilitres) * 1_000_000 / d),
    }
}

/// A limit as a depot sets it, or at an edge.
fn limit(random: &mut Random) -> f64 {
    match random.below(8) {
        0 => random.pick(&[0.0, -0.0, 1e9, -1e9, 5e-324, 0.01]),
        1 => random.unit(),
        _ => 0.2,
    }
}

/// A limit that a start may refuse.
fn any_limit(random: &mut Random) -> f64 {
    match random.below(4) {
        0 => random.pick(&[f64::NAN, f64::INFINITY, f64::NEG_INFINITY, 1e9f64.next_up()]),
        1 => random.float(),
        _ => limit(random),
    }
}

/// A quality: mostly good; at the limit or beside it; at an edge; any floats.
fn quality(random: &mut Random, limit: f64) -> [f64; 2] {
    const EDGES: [f64; 10] = [
        0.0,
        -0.0,
        -5e-324,
        5e-324,
        1.0,
        -1.0,
        f64::MAX,
        f64::INFINITY,
        f64::NEG_INFINITY,
        f64::NAN,
    ];
    match random.below(16) {
        0 => [random.pick(&EDGES), random.pick(&EDGES)],
        1 => [random.float(), random.float()],
        2..=4 => {
            let chi = 0.5 + 2.0 * random.unit();
            let pdop = limit / 0.01 / chi.max(1.0);
            let bits = pdop.to_bits();
            let off = i64::from(random.between(-2, 2));
            [chi, f64::from_bits(bits.wrapping_add_signed(off))]
        }
        _ => [2.0 * random.unit(), 1.0 + 8.0 * random.unit()],
    }
}

/// An epoch of a van: refused at times, standing at times, and now and then of any floats.
fn epoch(random: &mut Random, limit: f64) -> Epoch {
    Epoch {
        refused_by: match random.below(4) {
            0 => random.bits() as u8,
            _ => 0,
        },
        delta: match random.below(4) {
            0 => displacement(random),
            _ => std::array::from_fn(|_| 30.0 * random.unit() - 15.0),
        },
        quality: quality(random, limit),
        pulses: match random.below(8) {
            0..=3 => 0,
            4 => random.pick(&[1, 65_534, 65_535]),
            _ => random.below(80) as u16,
        },
    }
}

/// Made-up words: each at a limit, beside it, within it, or any.
pub fn made_up(random: &mut Random) -> Words {
    let within = |random: &mut Random, limit: u64| match random.below(16) {
        0..=1 => at(random, limit),
        2 => random.bits() >> random.below(64),
        _ => random.below(limit.saturating_add(1)),
    };
    let epochs = match random.below(4) {
        0 => at(random, FULL),
        1 => random.below(4),
        _ => within(random, FULL),
    };
    let refused = within(random, epochs);
    let far = 1_000_000u64.saturating_mul(epochs);
    let counted = within(random, far);
    let standing = within(random, far.saturating_sub(counted));
    let left = far.saturating_sub(counted).saturating_sub(standing);
    let pulses = within(random, 65_535u64.saturating_mul(epochs));
    let covered = match random.below(4) {
        0 => random.below(4),
        _ => within(random, pulses),
    };
    [
        match random.below(8) {
            0 => any_limit(random).to_bits(),
            1 => random.pattern(),
            _ => limit(random).to_bits(),
        },
        epochs,
        refused,
        within(random, epochs.saturating_sub(refused)),
        counted,
        covered,
        standing,
        pulses,
        match random.below(16) {
            0 => at(random, 1),
            1 => random.bits(),
            _ => random.below(2),
        },
        match random.below(4) {
            0 => 0,
            _ => within(random, left.min(1_000_000)),
        },
    ]
}

/// One comparison: the numbers, and what is lent holds afterwards.
struct Both<'a> {
    tally: &'a mut Tally,
    numbers: &'a mut Numbers,
}

impl Both<'_> {
    fn judge<const N: usize>(
        &mut self,
        what: &str,
        given: &[u64],
        number: u8,
        ours: [u64; N],
        model: Result<[u64; N], u8>,
        lent: [u64; N],
    ) {
        let wanted = model.err().unwrap_or(0);
        self.numbers.count(wanted);
        let expected = model.unwrap_or(lent);
        self.tally.judge(number == wanted && ours == expected, || {
            let given = hex(given.iter().copied());
            format!(
                "{what} of {given}: ours {number}, {ours:?}, the model's {wanted}, {expected:?}"
            )
        });
    }

    fn start(&mut self, limit: f64, lent: Words) -> Words {
        let mut ours = lent;
        let number = ffi::mileage_start(limit, &mut ours);
        self.judge(
            "start",
            &[limit.to_bits()],
            number,
            ours,
            started(limit),
            lent,
        );
        ours
    }

    fn add(&mut self, mileage: Words, epoch: &Epoch) -> Words {
        let mut ours = mileage;
        let Epoch {
            refused_by,
            delta,
            quality,
            pulses,
        } = epoch;
        let number = ffi::mileage_add(&mut ours, *refused_by, delta, quality, *pulses);
        let model = added(&mileage, epoch);
        let same = number == model.err().unwrap_or(0) && ours == model.unwrap_or(mileage);
        self.numbers.count(model.err().unwrap_or(0));
        self.tally.judge(same, || {
            format!(
                "add of {mileage:?} and {epoch:?}: ours {number}, {ours:?}, the model's {model:?}"
            )
        });
        ours
    }

    fn ask(&mut self, mileage: Words, millilitres: u32, lent: u64) {
        let (mut report, mut far, mut per_km) = ([lent; 7], [lent], [lent]);
        let number = ffi::mileage_report(&mileage, &mut report);
        self.judge(
            "report",
            &mileage,
            number,
            report,
            reported(&mileage),
            [lent; 7],
        );
        let number = ffi::mileage_distance(&mileage, &mut far[0]);
        let model = distance(&mileage).map(|d| [d]);
        self.judge("distance", &mileage, number, far, model, [lent]);
        let number = ffi::mileage_fuel(&mileage, millilitres, &mut per_km[0]);
        let model = fuelled(&mileage, millilitres).map(|f| [f]);
        self.judge("fuel", &mileage, number, per_km, model, [lent]);
    }

    /// The words are those of the list.
    fn whole(&mut self, mileage: Words, limit: f64, list: &[Epoch]) {
        let model = words_of(limit, list);
        self.judge(
            "words of the list",
            &[list.len() as u64],
            0,
            mileage,
            Ok(model),
            mileage,
        );
    }
}

/// So many lists of epochs from their start, compared with the model word by word after each epoch, and report, distance and fuel at their end; a few long
/// ones, one until it is full; and made-up words at each limit.
fn compare(tally: &mut Tally, random: &mut Random, count: u64) {
    let mut numbers = Numbers::default();
    let mut both = Both {
        tally,
        numbers: &mut numbers,
    };
    let (mut epochs, mut longest) = (0u64, 0);
    for k in 0..count {
        let start = any_limit(random);
        let lent = [random.bits(); 10];
        let mut words = both.start(start, lent);
        if words != lent {
            let calls = match k {
                0..=1 => FULL + 4000,
                _ if random.below(4096) == 0 => random.below(400),
                _ => random.below(12),
            };
            let mut list = Vec::new();
            for _ in 0..calls {
                let epoch = epoch(random, start);
                let before = words[1];
                words = both.add(words, &epoch);
                if words[1] > before {
                    list.push(epoch);
                }
            }
            both.whole(words, start, &list);
            both.ask(words, random.bits() as u32, random.bits());
            epochs += calls;
            longest = longest.max(list.len());
        }
        let odd = made_up(random);
        match random.below(4) {
            0 => both.ask(odd, random.bits() as u32 >> random.below(32), random.bits()),
            _ => {
                let limit = f64::from_bits(odd[0]);
                both.add(odd, &epoch(random, limit));
            }
        }
    }
    tally.note(format!(
        "{numbers}; {count} lists with {epochs} epochs, the longest {longest}"
    ));
}

/// The same in plain Rust, as a call, since ours is.
#[inline(never)]
fn rust_add(
    mileage: &mut Words,
    refused_by: u8,
    delta: &[f64; 3],
    quality: &[f64; 2],
    pulses: u16,
) -> u8 {
    let [bits, epochs, refused, aside, counted, covered, standing, all, moved, waiting] = *mileage;
    let limit = f64::from_bits(bits);
    let far = 1_000_000 * epochs.min(FULL);
    let sound = limit.abs() <= 1e9
        && epochs <= FULL
        && refused <= epochs
        && aside <= epochs - refused
        && counted <= far
        && standing <= far - counted
        && waiting <= far - counted - standing
        && all <= 65_535 * epochs
        && covered <= all
        && moved <= 1;
    if !sound || epochs == FULL {
        return 16;
    }
    let pulses = u64::from(pulses);
    let moves = pulses > 0;
    let near = moved > 0 || moves;
    let mut next = [
        bits,
        epochs + 1,
        refused,
        aside,
        counted + if moves { waiting } else { 0 },
        covered,
        standing + if moves { 0 } else { waiting },
        all + pulses,
        u64::from(moves),
        0,
    ];
    if refused_by != 0 {
        next[2] += 1;
    } else {
        let long = length(delta);
        // A length of at most 1,000 m is that of finite components.
        if !(long <= 1000.0) {
            return 16;
        }
        let [chi, pdop] = *quality;
        let finite = chi >= 0.0 && chi < f64::INFINITY && pdop >= 0.0 && pdop < f64::INFINITY;
        if !finite || pdop * chi.max(1.0) * 0.01 >= limit {
            next[3] += 1;
        } else if near {
            next[4] += millimetres(long);
            next[5] += pulses;
        } else {
            next[9] = millimetres(long);
        }
    }
    *mileage = next;
    0
}

/// A drive as a van has it: most epochs well rated and with pulses, some refused, some set aside, and stops.
fn drive(random: &mut Random) -> Vec<Epoch> {
    let stops: Vec<bool> = (0..32).map(|_| random.below(3) == 0).collect();
    (0..1024)
        .map(|k| Epoch {
            refused_by: if random.below(10) == 0 { 7 } else { 0 },
            delta: std::array::from_fn(|_| 30.0 * random.unit()),
            quality: [
                2.0 * random.unit(),
                if random.below(50) == 0 { 40.0 } else { 3.0 },
            ],
            pulses: if stops[k / 32] {
                0
            } else {
                1 + random.below(80) as u16
            },
        })
        .collect()
}

fn time(random: &mut Random) {
    let given = drive(random);
    let start = started(0.2).unwrap_or_default();
    let (mut mileage, mut theirs) = (start, start);
    bench::row(
        "mileage: an epoch more",
        1,
        given.len(),
        || {
            mileage = start;
            for e in &given {
                black_box(ffi::mileage_add(
                    &mut mileage,
                    e.refused_by,
                    &e.delta,
                    &e.quality,
                    e.pulses,
                ));
            }
            black_box(&mileage);
        },
        || {
            theirs = start;
            for e in &given {
                black_box(rust_add(
                    &mut theirs,
                    e.refused_by,
                    &e.delta,
                    &e.quality,
                    e.pulses,
                ));
            }
            black_box(&theirs);
        },
    );
}

/// Mileage 10, refused by, displacement 3, quality 2, pulses, millilitres; number of the addition and the words 10 after it, number of the report of those and
/// the report 7, number of the distance and the distance, number of the fuel and the fuel (zeros where refused).
pub fn vectors(random: &mut Random) -> Vectors {
    let mut given: Vec<(Words, Epoch, u32)> = Vec::new();
    for _ in 0..300 {
        let words = made_up(random);
        let limit = f64::from_bits(words[0]);
        given.push((words, epoch(random, limit), random.bits() as u32));
    }
    // Accepted ones last, of which the answers are turned in the altered copies.
    for k in 0..32 {
        let words = [
            0.2f64.to_bits(),
            9 + k,
            2,
            1,
            60_001,
            40 + k,
            7,
            90 + k,
            k % 2,
            3,
        ];
        let epoch = Epoch {
            refused_by: 0,
            delta: [3.0, 4.0, k as f64],
            quality: [0.9, 4.0],
            pulses: 20,
        };
        given.push((words, epoch, 850_000));
    }
    let case = |(words, epoch, millilitres): (Words, Epoch, u32)| {
        let floats = epoch
            .delta
            .into_iter()
            .chain(epoch.quality)
            .map(f64::to_bits);
        let handed = words.into_iter().chain([u64::from(epoch.refused_by)]);
        let handed = handed.chain(floats);
        let handed = handed
            .chain([u64::from(epoch.pulses), u64::from(millilitres)])
            .collect();
        let number = |n: Option<u8>| u64::from(n.unwrap_or(0));
        let after = added(&words, &epoch);
        let now = after.unwrap_or(words);
        let (report, far, fuel) = (reported(&now), distance(&now), fuelled(&now, millilitres));
        let mut stored = vec![number(after.err())];
        stored.extend(after.unwrap_or([0; 10]));
        stored.push(number(report.err()));
        stored.extend(report.unwrap_or([0; 7]));
        stored.extend([number(far.err()), far.unwrap_or(0)]);
        stored.extend([number(fuel.err()), fuel.unwrap_or(0)]);
        (handed, stored)
    };
    Vectors::of(given.into_iter().map(case).collect())
}
