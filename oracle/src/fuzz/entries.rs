//! One function for each entry point: decode, lend, call, compare.

mod corrections;
mod directions;
mod displacement;
mod drives;
mod fix;
mod forget;
mod line;
mod mileages;
mod pieces;
mod rearrange;
mod times;
mod track;
mod trips;
mod wire;

use super::Bytes;
use crate::random::pattern;
use zaqnuti::sys;

/// The name of an entry point, and its call.
type Entry = (&'static str, fn(&mut Bytes));

/// Every entry point; times, those of a trip, clocks and numbers together.
pub const ENTRIES: &[Entry] = &[
    ("fix", fix::fix),
    ("displacement", displacement::displacement),
    ("between", displacement::between),
    ("city", displacement::city),
    ("rated", displacement::rated),
    ("city_rated", displacement::city_rated),
    ("line", line::line),
    ("read_records", wire::read_records),
    ("write_records", wire::write_records),
    ("records", wire::displacement_records),
    ("add_epoch", corrections::add_epoch),
    ("query", corrections::query),
    ("queries", corrections::queries),
    ("widen_bands", corrections::widen_bands),
    ("forget", forget::forget),
    ("directory_of", rearrange::directory_of),
    ("signals_of", rearrange::signals_of),
    ("smooth", track::smooth),
    ("times", times::times),
    ("trip", trips::trip),
    ("mileage", mileages::mileage),
    ("directions", directions::directions),
    ("drive", drives::drive),
    ("round", pieces::a_round),
    ("centre", pieces::centre),
    ("geometry", pieces::geometry),
    ("factor", pieces::a_factor),
    ("solve", pieces::a_solve),
    ("clocks", pieces::clocks),
    ("numbers", pieces::numbers),
];

/// A column of a record each, sometimes shorter or longer than they need.
fn column<R, T: Copy + Default>(b: &mut Bytes, records: &[R], of: impl Fn(&R) -> T) -> Vec<T> {
    let mut out: Vec<T> = records.iter().map(of).collect();
    turn_length(b, &mut out);
    out
}

/// As `column`, of some floats for each record.
fn floats<R, const N: usize>(
    b: &mut Bytes,
    records: &[R],
    of: impl Fn(&R) -> [f64; N],
) -> Vec<f64> {
    let mut out: Vec<f64> = records.iter().flat_map(of).collect();
    turn_length(b, &mut out);
    out
}

fn turn_length<T: Copy + Default>(b: &mut Bytes, column: &mut Vec<T>) {
    match b.byte() {
        250 => drop(column.pop()),
        251 => column.truncate(column.len() / 2),
        252 => column.clear(),
        253..=255 => column.extend([T::default(); 3]),
        _ => {}
    }
}

/// How many of the records are counted: mostly all.
fn count(b: &mut Bytes, records: usize) -> usize {
    match b.byte() {
        0..=229 => records,
        230..=239 => b.below(records + 1),
        240..=247 => records + 1 + b.below(3),
        _ => b.u64() as usize,
    }
}

/// Signals of which many are alike.
fn signal(b: &mut Bytes) -> (u8, u16) {
    match b.byte() {
        k @ 0..=199 => (k % 9, u16::from(k) / 9),
        _ => (b.byte(), b.u16()),
    }
}

fn bits(floats: &[f64]) -> Vec<u64> {
    floats.iter().map(|x| x.to_bits()).collect()
}

fn patterns(floats: &[f64]) -> Vec<u64> {
    floats.iter().map(|&x| pattern(x)).collect()
}
