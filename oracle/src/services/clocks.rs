//! Clock slots, against `Clocks`: lists of constellations, and one more given to any state.

use super::Service;
use crate::ffi;
use crate::random::Random;
use crate::tally::Tally;
use crate::vectors::Vectors;
use drifters_gnss::robust::Clocks;

pub const SERVICE: Service = Service {
    name: "clocks",
    count: 4_000_000,
    compare,
    bench: None,
};

/// A state: the slots of eight constellations, and how many are given.
type State = ([usize; 8], usize);

/// The state before any constellation.
const NONE: State = ([usize::MAX; 8], 0);

/// A constellation: mostly one of the first eight, else any.
fn constellation(random: &mut Random) -> u8 {
    match random.below(4) {
        0 => random.bits() as u8,
        1 => random.pick(&[6, 7, 8, 9, 255]),
        _ => random.below(9) as u8,
    }
}

/// Constellations with many repeats, of a few or of every slot.
fn list(random: &mut Random) -> Vec<u8> {
    let mut few: Vec<u8> = (0..1 + random.place(10))
        .map(|_| constellation(random))
        .collect();
    if random.below(2) == 0 {
        few.extend(0..8);
    }
    (0..random.place(60)).map(|_| random.pick(&few)).collect()
}

/// Any state: a count up to 7, above it, or as large as can be, and slots free, usual or arbitrary.
fn state(random: &mut Random) -> State {
    let slot = std::array::from_fn(|_| match random.below(4) {
        0 | 1 => usize::MAX,
        2 => 3 + random.place(9),
        _ => (random.bits() >> random.below(64)) as usize,
    });
    let count = match random.below(8) {
        0 => random.pick(&[8, 9, usize::MAX - 3, usize::MAX - 2, usize::MAX]),
        1 => (random.bits() >> random.below(64)) as usize,
        _ => random.place(9),
    };
    (slot, count)
}

/// Our state after some constellations.
fn ours((mut slot, mut count): State, list: &[u8]) -> State {
    for &c in list {
        ffi::clocks_given(&mut slot, &mut count, c);
    }
    (slot, count)
}

/// The loop of the Rust from any state.
fn theirs((slot, count): State, list: &[u8]) -> State {
    let after = Clocks { slot, count }.assign_more(list.iter().copied());
    (after.slot, after.count)
}

/// The Rust's state after some constellations; a count above 7 hands the state back, where the Rust goes on.
fn reference(before: State, given: &[u8]) -> State {
    if before.1 > 7 {
        before
    } else if before == NONE {
        let all = Clocks::assign(given.iter().copied());
        (all.slot, all.count)
    } else {
        theirs(before, given)
    }
}

fn compare(tally: &mut Tally, random: &mut Random, count: u64) {
    let (mut full, mut unchanged) = (0u64, 0u64);
    for place in 0..count {
        let (before, given) = if place % 2 == 0 {
            (NONE, list(random))
        } else {
            (state(random), vec![constellation(random)])
        };
        let expected = reference(before, &given);
        unchanged += u64::from(before.1 > 7);
        full += u64::from(before == NONE && expected.1 > 6);
        // Our beginning overwrites whatever the state held.
        let mut begun = state(random);
        ffi::clocks_new(&mut begun.0, &mut begun.1);
        let after = ours(if before == NONE { begun } else { before }, &given);
        let unknowns = ffi::clocks_unknowns(&after.0, after.1);
        let asked = constellation(random);
        let slot = ffi::clocks_slot(&after.0, asked);
        let clocks = Clocks {
            slot: expected.0,
            count: expected.1,
        };
        // The Rust's sum wraps in a release build; a debug build would stop at a count near the top.
        let same = begun == NONE
            && after == expected
            && slot == clocks.slot(asked)
            && unknowns == expected.1.wrapping_add(3);
        tally.judge(same, || {
            format!("{given:?} to {before:?}: ours {after:?}, Rust's {expected:?}; slot of {asked} ours {slot}, unknowns {unknowns}")
        });
    }
    tally.note(format!(
        "{full} lists of seven slots or more, {unchanged} states with a count above 7"
    ));
}

/// The numbers of a state.
fn numbers((slot, count): State) -> impl Iterator<Item = u64> {
    slot.into_iter().chain([count]).map(|n| n as u64)
}

/// 1 where the state is that of none given, else 0, slot 8, count, how many constellations, each of them, one that is asked for; slot 8 and
/// count afterwards, the slot that is asked for, the unknowns.
pub fn vectors(random: &mut Random) -> Vectors {
    let one = |place: usize| {
        let (before, list) = if place % 2 == 0 {
            (NONE, list(random))
        } else {
            (state(random), vec![constellation(random)])
        };
        let asked = constellation(random);
        let (slot, count) = reference(before, &list);
        let mut given = vec![u64::from(before == NONE)];
        given.extend(numbers(before));
        given.push(list.len() as u64);
        given.extend(list.iter().chain([&asked]).map(|&c| u64::from(c)));
        let clocks = Clocks { slot, count };
        let mut answer: Vec<u64> = numbers((slot, count)).collect();
        answer.extend([clocks.slot(asked), count.wrapping_add(3)].map(|n| n as u64));
        (given, answer)
    };
    Vectors::of((0..100).map(one).collect())
}
