//! The stack that each entry point uses: the stack below is filled with a mark, the call is made
//! with full epochs and with each kind of refusal, and the lowest word that has lost the mark is
//! looked for. No call may use more than `include/zaqnuti.h` says.
//!
//! `cargo test --test stack -- --nocapture` prints the table.
#![cfg(target_arch = "x86_64")]

mod common;

use common::{carriers, observations, text, AT};
use std::arch::asm;
use std::collections::BTreeMap;
use std::path::Path;
use zaqnuti::sys;
use zaqnuti::tdcp::{Carrier, Settings};
use zaqnuti::{wire, Ecef, LINE, TEXT};

/// How far down the stack is filled, above what any call uses.
const DEPTH: usize = 1 << 20;
/// What is left alone below the stack pointer: the red zone.
const NEAR: usize = 128;
const MARK: u64 = 0xA5C3_96E1_5A3C_691E;

/// The stack pointer.
#[inline(always)]
fn top() -> usize {
    let out: usize;
    // SAFETY: it reads a register.
    unsafe { asm!("mov {}, rsp", out(reg) out, options(nomem, nostack)) };
    out
}

/// The bytes below the caller's frame that the call writes; `call` gives the stack pointer of the frame that calls.
#[inline(never)]
fn used(call: &mut dyn FnMut() -> usize) -> usize {
    let here = top();
    let words = (DEPTH - NEAR) / 8;
    let low = here - DEPTH;
    // SAFETY: the thread has this much stack, and below the red zone nothing of it is in use.
    unsafe {
        asm!("rep stosq", inout("rdi") low => _, inout("rcx") words => _, in("rax") MARK, options(nostack));
    }
    let frame = call();
    let left: usize;
    // SAFETY: as above; it reads up to the first word that has lost the mark.
    unsafe {
        asm!("repe scasq", inout("rdi") low => _, inout("rcx") words => left, in("rax") MARK, options(nostack, readonly));
    }
    let lowest = low + 8 * (words - left - 1);
    frame.saturating_sub(lowest)
}

/// Runs each measurement in a thread that has the stack for it.
fn measured(mut call: impl FnMut() -> usize + Send) -> usize {
    std::thread::scope(|scope| {
        let thread = std::thread::Builder::new().stack_size(4 * DEPTH);
        let run = thread.spawn_scoped(scope, move || {
            // The first call loads what is loaded on demand.
            used(&mut call);
            used(&mut call)
        });
        run.unwrap().join().unwrap()
    })
}

fn fix(count: usize, rounds: usize, spoil: bool) -> usize {
    let mut sky = observations(64);
    if spoil {
        let first = sky[0].satellite;
        sky.iter_mut().for_each(|o| o.satellite = first);
    }
    // Pseudoranges that no place fits keep the rounds going.
    sky.iter_mut()
        .enumerate()
        .for_each(|(i, o)| o.pseudorange += 1e5 * (i % 11) as f64);
    let constellation: Vec<u8> = sky.iter().map(|o| o.constellation).collect();
    let floats: Vec<f64> = sky
        .iter()
        .flat_map(|o| {
            [
                o.pseudorange,
                o.satellite[0],
                o.satellite[1],
                o.satellite[2],
                o.elevation,
            ]
        })
        .collect();
    let (mut solution, mut seen) = ([0.0; 5], 0);
    measured(move || {
        let frame = top();
        // SAFETY: each column has its length beside it, and the last two are ours alone.
        unsafe {
            sys::zaqnuti_fix(
                constellation.as_ptr(),
                constellation.len(),
                floats.as_ptr(),
                floats.len(),
                count,
                &AT.coordinates(),
                &[0.3, 16.0, 1e-3, 10.0],
                rounds,
                &mut solution,
                &mut seen,
            );
        }
        frame
    })
}

fn position(count: usize, rounds: usize) -> usize {
    let sky = observations(64);
    let constellation: Vec<u8> = sky.iter().map(|o| o.constellation).collect();
    let floats: Vec<f64> = sky
        .iter()
        .flat_map(|o| {
            [
                o.pseudorange + 100.0 * f64::from(o.svid),
                o.satellite[0],
                o.satellite[1],
                o.satellite[2],
                o.elevation,
            ]
        })
        .collect();
    let mut place = [0.0; 3];
    measured(move || {
        let frame = top();
        // SAFETY: each column has its length beside it, and the last is ours alone.
        unsafe {
            sys::zaqnuti_position(
                constellation.as_ptr(),
                constellation.len(),
                floats.as_ptr(),
                floats.len(),
                count,
                &AT.coordinates(),
                &[0.3, 16.0, 1e-3, 10.0],
                rounds,
                &mut place,
            );
        }
        frame
    })
}

/// Two full epochs whose carriers no displacement fits, which keeps the rounds going.
fn epochs() -> (Vec<Carrier>, Vec<Carrier>) {
    let moved = Ecef::new(AT.x + 9.0, AT.y, AT.z);
    let mut after = carriers(64, moved);
    after
        .iter_mut()
        .enumerate()
        .for_each(|(i, c)| c.adr += 3.0 * (i % 7) as f64);
    (carriers(64, AT), after)
}

/// Which of the displacement's entry points is called.
#[derive(Clone, Copy)]
enum Way {
    Plain,
    Between([u64; 2]),
    City(u32),
    Rated,
    CityRated(u32),
}

fn displacement(count: usize, rounds: usize, screen: f64, way: Way) -> usize {
    let floats = |c: &[Carrier]| -> Vec<f64> {
        c.iter()
            .flat_map(|c| {
                [
                    c.adr,
                    c.satellite[0],
                    c.satellite[1],
                    c.satellite[2],
                    c.elevation,
                    c.rate,
                ]
            })
            .collect()
    };
    let (before, after) = epochs();
    let (pf, cf) = (floats(&before), floats(&after));
    let mut constellation: Vec<u8> = before.iter().map(|c| c.constellation).collect();
    if let Way::City(_) | Way::CityRated(_) = way {
        let both = constellation.iter_mut().enumerate();
        both.for_each(|(k, c)| *c = if k % 2 == 0 { 1 } else { 6 });
    }
    let svid: Vec<u16> = before.iter().map(|c| c.svid).collect();
    let (band, state) = (vec![1575u32; 64], vec![1i32; 64]);
    let (mut delta, mut quality, mut counts) = ([0.0; 3], [0.0; 2], [0; 2]);
    measured(move || {
        macro_rules! call {
            ($entry:ident, $($apart:expr),+; $($quality:expr)?) => {
                sys::$entry(
                    constellation.as_ptr(),
                    64,
                    svid.as_ptr(),
                    64,
                    band.as_ptr(),
                    64,
                    state.as_ptr(),
                    64,
                    pf.as_ptr(),
                    pf.len(),
                    count,
                    constellation.as_ptr(),
                    64,
                    svid.as_ptr(),
                    64,
                    band.as_ptr(),
                    64,
                    state.as_ptr(),
                    64,
                    cf.as_ptr(),
                    cf.len(),
                    count,
                    $($apart),+,
                    &AT.coordinates(),
                    &[screen, 0.008, 0.002, 1e-3, 10.0],
                    rounds,
                    &mut delta,
                    $($quality,)?
                    &mut counts,
                )
            };
        }
        let frame = top();
        // SAFETY: each column has its length beside it, and what is written is ours alone.
        unsafe {
            match way {
                Way::Plain => call!(zaqnuti_displacement, 1.0;),
                Way::Between([before, now]) => call!(zaqnuti_displacement_between, before, now;),
                Way::City(chosen) => call!(zaqnuti_city_displacement, 1.0, chosen;),
                Way::Rated => call!(zaqnuti_displacement_rated, 1.0; &mut quality),
                Way::CityRated(chosen) => {
                    call!(zaqnuti_city_displacement_rated, 1.0, chosen; &mut quality)
                }
            }
        };
        frame
    })
}

/// Both epochs under settings in force, added to a trip; the settings are begun with and changed.
fn trip_displacement(count: usize, rounds: usize, screen: f64, words: [u64; 6]) -> usize {
    let (before, after) = epochs();
    let floats = |c: &[Carrier]| -> Vec<f64> {
        let six = |c: &Carrier| {
            let [x, y, z] = c.satellite;
            [c.adr, x, y, z, c.elevation, c.rate]
        };
        c.iter().flat_map(six).collect()
    };
    let (pf, cf) = (floats(&before), floats(&after));
    let constellation: Vec<u8> = before.iter().map(|c| c.constellation).collect();
    let svid: Vec<u16> = before.iter().map(|c| c.svid).collect();
    let (band, state) = (vec![1575u32; 64], vec![1i32; 64]);
    let set = [screen, 0.008, 0.002, 1e-3, 10.0];
    let (mut trip, mut force, mut force_rounds) = (words, [0.0; 5], 0);
    let (mut delta, mut counts) = ([0.0; 3], [0; 2]);
    measured(move || {
        let frame = top();
        // SAFETY: each column has its length beside it, and what is written is ours alone.
        unsafe {
            sys::zaqnuti_trip_begin(&set, rounds, 1, &mut trip, &mut force, &mut force_rounds);
            trip = words;
            sys::zaqnuti_trip_settings(&trip, &set, rounds, &mut force, &mut force_rounds);
            sys::zaqnuti_trip_displacement(
                &mut trip,
                &set,
                rounds,
                constellation.as_ptr(),
                64,
                svid.as_ptr(),
                64,
                band.as_ptr(),
                64,
                state.as_ptr(),
                64,
                pf.as_ptr(),
                pf.len(),
                count,
                constellation.as_ptr(),
                64,
                svid.as_ptr(),
                64,
                band.as_ptr(),
                64,
                state.as_ptr(),
                64,
                cf.as_ptr(),
                cf.len(),
                count,
                1.0,
                &AT.coordinates(),
                7,
                &mut delta,
                &mut counts,
            );
        }
        frame
    })
}

/// A displacement of the bytes of both epochs, the first so many of each, with a result of so many bytes.
fn records(previous: usize, current: usize, rounds: u32, screen: f64, room: usize) -> usize {
    let (before, after) = epochs();
    let [p, c] = [(&before, previous), (&after, current)].map(|(epoch, n)| {
        let mut bytes = wire::write(epoch).unwrap();
        bytes.resize(n, 0);
        bytes
    });
    let mut result = vec![0; room];
    measured(move || {
        let frame = top();
        // SAFETY: each slice has its length beside it, and the last is ours alone.
        unsafe {
            sys::zaqnuti_displacement_records(
                p.as_ptr(),
                p.len(),
                c.as_ptr(),
                c.len(),
                1.0,
                AT.x,
                AT.y,
                AT.z,
                screen,
                0.008,
                0.002,
                1e-3,
                10.0,
                rounds,
                result.as_mut_ptr(),
                room,
            );
        }
        frame
    })
}

/// Reading so many bytes into columns of 64 places.
fn read_records(bytes: usize) -> usize {
    let bytes = vec![0xA5; bytes];
    let (mut constellation, mut svid) = ([0; 64], [0; 64]);
    let (mut band, mut state, mut floats) = ([0; 64], [0; 64], [0; 384]);
    let mut count = 0;
    measured(move || {
        let frame = top();
        // SAFETY: each column has its length beside it, and all but the bytes are ours alone.
        unsafe {
            sys::zaqnuti_read_records(
                bytes.as_ptr(),
                bytes.len(),
                constellation.as_mut_ptr(),
                64,
                svid.as_mut_ptr(),
                64,
                band.as_mut_ptr(),
                64,
                state.as_mut_ptr(),
                64,
                floats.as_mut_ptr(),
                384,
                &mut count,
            );
        }
        frame
    })
}

/// Writing so many records of 64 into so many bytes.
fn write_records(count: usize, room: usize) -> usize {
    let (constellation, svid, band) = ([1; 64], [2; 64], [1575; 64]);
    let (state, floats) = ([-1; 64], [u64::MAX; 384]);
    let mut bytes = vec![0; room];
    measured(move || {
        let frame = top();
        // SAFETY: each column has its length beside it, and the last is ours alone.
        unsafe {
            sys::zaqnuti_write_records(
                constellation.as_ptr(),
                64,
                svid.as_ptr(),
                64,
                band.as_ptr(),
                64,
                state.as_ptr(),
                64,
                floats.as_ptr(),
                384,
                count,
                bytes.as_mut_ptr(),
                room,
            );
        }
        frame
    })
}

fn times(week: u32, tow: f64, earlier: u64) -> usize {
    let (mut nanos, mut since, mut seconds) = (0, 0, 0.0);
    measured(move || {
        let frame = top();
        // SAFETY: the last of each is ours alone.
        unsafe {
            sys::zaqnuti_time(week, tow, &mut nanos);
            sys::zaqnuti_nanos_since(nanos, earlier, &mut since);
            sys::zaqnuti_seconds_since(nanos, earlier, &mut seconds);
        }
        frame
    })
}

/// A mileage as it is handed in, one epoch more for it, and its figures.
fn mileage(words: [u64; 10], refused_by: u8, x: f64) -> usize {
    let (mut lent, mut report, mut figure) = (words, [0; 7], 0);
    let limit = f64::from_bits(words[0]);
    measured(move || {
        let frame = top();
        // SAFETY: the words, the report and the figure are ours alone, and the rest is read.
        unsafe {
            sys::zaqnuti_mileage_start(limit, &mut lent);
            lent = words;
            sys::zaqnuti_mileage_add(&mut lent, refused_by, &[x, 0.0, 0.0], &[1.0, 2.0], 7);
            sys::zaqnuti_mileage_report(&lent, &mut report);
            sys::zaqnuti_mileage_distance(&lent, &mut figure);
            sys::zaqnuti_mileage_fuel(&lent, 850, &mut figure);
        }
        frame
    })
}

/// A trip as it is handed in, and one epoch more for it.
fn trip(words: [u64; 6], x: f64) -> usize {
    let (mut lent, mut report, mut per_km) = (words, [0; 4], 0);
    measured(move || {
        let frame = top();
        // SAFETY: what is written is ours alone.
        unsafe {
            sys::zaqnuti_trip_start(words[0] as u16, &mut lent);
            lent = words;
            sys::zaqnuti_trip_add(&mut lent, &[x, -x, x], 7);
            sys::zaqnuti_trip_report(&lent, &mut report);
            sys::zaqnuti_trip_fuel(&lent, 850, &mut per_km);
        }
        frame
    })
}

fn directions(position: [f64; 3], displacement: [f64; 3]) -> usize {
    let mut ned = [0.0; 3];
    measured(move || {
        let frame = top();
        // SAFETY: the last is ours alone.
        unsafe { sys::zaqnuti_north_east_down(&position, &displacement, &mut ned) };
        frame
    })
}

/// The text of both epochs with its last byte replaced, and a buffer of so many bytes for the line.
fn line(rounds: usize, last: &[u8], room: usize) -> usize {
    let (before, after) = epochs();
    let set = Settings {
        screen: 1e9,
        huber: 1e-3,
        iterations: rounds,
        ..Settings::default()
    };
    let mut text = text(&before, &after, &set);
    text.pop();
    text.extend(last);
    let mut line = vec![0; room];
    let mut written = 0;
    measured(move || {
        let frame = top();
        // SAFETY: each pointer has its length beside it, and the line and its length are ours alone.
        unsafe {
            sys::zaqnuti_line(
                text.as_ptr(),
                text.len(),
                line.as_mut_ptr(),
                room,
                &mut written,
            )
        };
        frame
    })
}

/// An epoch of 64 ranges to a table of so much room that holds `full` samples.
fn add_epoch(k: usize, room: usize, full: usize) -> usize {
    let sky = observations(64);
    let (c, b) = (vec![1u8; 64], vec![1u32; 64]);
    let v: Vec<u16> = (0..64).rev().collect();
    let p: Vec<f64> = sky.iter().map(|o| o.pseudorange).collect();
    let f: Vec<f64> = sky
        .iter()
        .flat_map(|o| {
            [
                o.satellite[0],
                o.satellite[1],
                o.satellite[2],
                900.0,
                -2000.0,
                1500.0,
                10.0,
                5.0,
            ]
        })
        .collect();
    measured(move || {
        let (mut cs, mut vs, mut bs) = (vec![1u8; room], vec![0u16; room], vec![1u32; room]);
        let (mut df, mut dn) = (vec![0usize; room], vec![full; room]);
        let (mut ts, mut xs) = (vec![0.0; room], vec![0.0; room]);
        let mut n = full;
        let mut m = full.min(1);
        let place = AT.coordinates();
        let frame = top();
        // SAFETY: each column has its length beside it, and the table is ours alone.
        unsafe {
            sys::zaqnuti_add_epoch(
                cs.as_mut_ptr(),
                room,
                vs.as_mut_ptr(),
                room,
                bs.as_mut_ptr(),
                room,
                df.as_mut_ptr(),
                room,
                dn.as_mut_ptr(),
                room,
                &mut m,
                ts.as_mut_ptr(),
                room,
                xs.as_mut_ptr(),
                room,
                &mut n,
                30.0,
                k,
                c.as_ptr(),
                64,
                v.as_ptr(),
                64,
                b.as_ptr(),
                64,
                p.as_ptr(),
                64,
                true,
                64,
                c.as_ptr(),
                64,
                v.as_ptr(),
                64,
                b.as_ptr(),
                64,
                f.as_ptr(),
                f.len(),
                &place,
                &place,
                90.0,
                1e9,
                &[true; 8],
            );
        }
        frame
    })
}

fn query(n: usize, time: f64) -> usize {
    let (cs, vs, bs) = (vec![1u8; 2048], vec![1u16; 2048], vec![1u32; 2048]);
    let (df, dn) = (vec![0usize; 2048], vec![n; 2048]);
    let ts: Vec<f64> = (0..2048).map(f64::from).collect();
    let xs = vec![1.0; 2048];
    let mut metres = 0.0;
    measured(move || {
        let frame = top();
        // SAFETY: each column has its length beside it, and the last is ours alone.
        unsafe {
            sys::zaqnuti_query(
                cs.as_ptr(),
                2048,
                vs.as_ptr(),
                2048,
                bs.as_ptr(),
                2048,
                df.as_ptr(),
                2048,
                dn.as_ptr(),
                2048,
                n.min(1),
                ts.as_ptr(),
                2048,
                xs.as_ptr(),
                2048,
                n,
                90.0,
                1,
                1,
                1,
                time,
                &mut metres,
            );
        }
        frame
    })
}

fn forget(n: usize, time: f64) -> usize {
    let (cs, vs, bs) = (vec![1u8; 2048], vec![1u16; 2048], vec![1u32; 2048]);
    let (mut df, mut dn) = (vec![0usize; 2048], vec![n; 2048]);
    let mut ts: Vec<f64> = (0..2048).map(f64::from).collect();
    let mut xs = vec![1.0; 2048];
    let mut count = n;
    measured(move || {
        let frame = top();
        // SAFETY: each column has its length beside it, and those that are written are ours alone.
        unsafe {
            sys::zaqnuti_forget(
                cs.as_ptr(),
                2048,
                vs.as_ptr(),
                2048,
                bs.as_ptr(),
                2048,
                df.as_mut_ptr(),
                2048,
                dn.as_mut_ptr(),
                2048,
                n.min(1),
                ts.as_mut_ptr(),
                2048,
                xs.as_mut_ptr(),
                2048,
                &mut count,
                time,
            );
        }
        frame
    })
}

fn queries(n: usize, count: usize) -> usize {
    let (cs, vs, bs) = (vec![1u8; 2048], vec![1u16; 2048], vec![1u32; 2048]);
    let (df, dn) = (vec![0usize; 2048], vec![n; 2048]);
    let ts: Vec<f64> = (0..2048).map(f64::from).collect();
    let xs = vec![1.0; 2048];
    let (c, v, b) = (vec![1u8; 64], vec![1u16; 64], vec![1u32; 64]);
    let t: Vec<f64> = (0..64).map(|i| f64::from(i) * 40.5 - 9.0).collect();
    let (mut numbers, mut metres) = (vec![0u8; 64], vec![0.0; 64]);
    measured(move || {
        let frame = top();
        // SAFETY: each column has its length beside it, and the last two are ours alone.
        unsafe {
            sys::zaqnuti_queries(
                cs.as_ptr(),
                2048,
                vs.as_ptr(),
                2048,
                bs.as_ptr(),
                2048,
                df.as_ptr(),
                2048,
                dn.as_ptr(),
                2048,
                n.min(1),
                ts.as_ptr(),
                2048,
                xs.as_ptr(),
                2048,
                n,
                90.0,
                c.as_ptr(),
                64,
                v.as_ptr(),
                64,
                b.as_ptr(),
                64,
                t.as_ptr(),
                64,
                count,
                numbers.as_mut_ptr(),
                64,
                metres.as_mut_ptr(),
                64,
            );
        }
        frame
    })
}

fn widen_bands(n: usize) -> usize {
    let (narrow, mut wide) = (vec![1u8; 2048], vec![0u32; 2048]);
    measured(move || {
        let frame = top();
        // SAFETY: each column has its length beside it, and the last is ours alone.
        unsafe {
            sys::zaqnuti_widen_bands(narrow.as_ptr(), 2048, n, wide.as_mut_ptr(), 2048);
        }
        frame
    })
}

/// The directory of a table of so many samples, and its signals again.
fn forms(n: usize) -> usize {
    let (c, v, b) = (vec![1u8; 2048], vec![2u16; 2048], vec![3u32; 2048]);
    let (ts, xs) = (vec![4.0; 2048], vec![5.0; 2048]);
    let (mut dc, mut dv, mut db) = (vec![0u8; 2048], vec![0u16; 2048], vec![0u32; 2048]);
    let (mut df, mut dn, mut m) = (vec![0usize; 2048], vec![0usize; 2048], 0);
    let (mut cs, mut vs, mut bs) = (c.clone(), v.clone(), b.clone());
    measured(move || {
        let frame = top();
        // SAFETY: each column has its length beside it, and what is written is ours alone.
        unsafe {
            sys::zaqnuti_directory_of(
                c.as_ptr(),
                2048,
                v.as_ptr(),
                2048,
                b.as_ptr(),
                2048,
                ts.as_ptr(),
                2048,
                xs.as_ptr(),
                2048,
                n,
                dc.as_mut_ptr(),
                2048,
                dv.as_mut_ptr(),
                2048,
                db.as_mut_ptr(),
                2048,
                df.as_mut_ptr(),
                2048,
                dn.as_mut_ptr(),
                2048,
                &mut m,
            );
            sys::zaqnuti_signals_of(
                dc.as_ptr(),
                2048,
                dv.as_ptr(),
                2048,
                db.as_ptr(),
                2048,
                df.as_ptr(),
                2048,
                dn.as_ptr(),
                2048,
                m,
                ts.as_ptr(),
                2048,
                xs.as_ptr(),
                2048,
                n,
                cs.as_mut_ptr(),
                2048,
                vs.as_mut_ptr(),
                2048,
                bs.as_mut_ptr(),
                2048,
            );
        }
        frame
    })
}

fn smooth(n: usize, links: usize, iterations: usize) -> usize {
    let index: Vec<usize> = (0..1024).collect();
    let value: Vec<f64> = (0..3072).map(|i| f64::from(i % 97)).collect();
    let sigma = vec![0.5; 3072];
    let (mut result, mut work) = (vec![0.0; 3072], vec![0.0; 11 * 1024]);
    measured(move || {
        let frame = top();
        // SAFETY: each column has its length beside it, and the last two are ours alone.
        unsafe {
            sys::zaqnuti_smooth(
                n,
                n,
                links,
                index.as_ptr(),
                1024,
                value.as_ptr(),
                3072,
                sigma.as_ptr(),
                3072,
                index.as_ptr(),
                1024,
                value.as_ptr(),
                3072,
                sigma.as_ptr(),
                3072,
                2.0,
                iterations,
                result.as_mut_ptr(),
                3072,
                work.as_mut_ptr(),
                11 * 1024,
            );
        }
        frame
    })
}

fn round(rows: usize, unknowns: usize) -> usize {
    let units: Vec<f64> = (0..192).map(|i| f64::from(i * 29 % 31) / 31.0).collect();
    let clocks: Vec<usize> = (0..64).map(|i| 3 + i % 6).collect();
    let residuals: Vec<u64> = (0..64).map(|i| f64::from(i * 37 % 64).to_bits()).collect();
    let sigmas = vec![1.0; 64];
    let mut dx = [0.0; 9];
    measured(move || {
        let frame = top();
        // SAFETY: each column has its length beside it, and the last is ours alone.
        unsafe {
            sys::zaqnuti_round(
                units.as_ptr(),
                192,
                clocks.as_ptr(),
                64,
                residuals.as_ptr(),
                64,
                sigmas.as_ptr(),
                64,
                rows,
                unknowns,
                1.5,
                &mut dx,
            );
        }
        frame
    })
}

fn centre(n: usize) -> usize {
    let residuals: Vec<u64> = (0..65).map(|i| f64::from(i * 37 % 64).to_bits()).collect();
    let mut out = [0.0; 2];
    measured(move || {
        let frame = top();
        // SAFETY: the first has as many patterns as are said, and the last is ours alone.
        unsafe { sys::zaqnuti_centre(residuals.as_ptr(), n, &mut out) };
        frame
    })
}

fn factor(diagonal: f64) -> usize {
    let mut a = [[0.5; 9]; 9];
    (0..9).for_each(|i| a[i][i] = diagonal);
    let mut l = [[0.0; 9]; 9];
    measured(move || {
        let frame = top();
        // SAFETY: both point to 81 floats, and the second is ours alone.
        unsafe { sys::zaqnuti_factor(&a, &mut l) };
        frame
    })
}

fn solve() -> usize {
    let l = [[2.0; 9]; 9];
    let mut x = [0.0; 9];
    measured(move || {
        let frame = top();
        // SAFETY: each points to as many floats as its type says, and the last is ours alone.
        unsafe { sys::zaqnuti_solve(&l, &[1.0; 9], &mut x) };
        frame
    })
}

fn geometry() -> usize {
    let mut out = [0.0; 4];
    measured(move || {
        let frame = top();
        // SAFETY: each points to as many floats as its type says, and the last is ours alone.
        let number =
            unsafe { sys::zaqnuti_geometry(&[2e7, 1e7, 1e7], &AT.coordinates(), &mut out) };
        assert_eq!(number, 0);
        frame
    })
}

fn clocks() -> usize {
    let (mut slot, mut count) = ([0; 8], 0);
    measured(move || {
        let frame = top();
        // SAFETY: both are ours alone.
        unsafe {
            sys::zaqnuti_clocks_new(&mut slot, &mut count);
            sys::zaqnuti_clocks_given(&mut slot, &mut count, 3);
            sys::zaqnuti_clocks_slot(&slot, 3);
            sys::zaqnuti_clocks_unknowns(&slot, count);
        }
        frame
    })
}

fn numbers(x: f64) -> usize {
    measured(move || {
        let frame = top();
        // SAFETY: they take numbers alone.
        unsafe {
            sys::zaqnuti_sqrt(x);
            sys::zaqnuti_before(x.to_bits(), 1);
            sys::zaqnuti_pattern(x);
            sys::zaqnuti_square(x);
            sys::zaqnuti_hypot(x, 3.0);
            sys::zaqnuti_travel_sine(x);
            sys::zaqnuti_travel_cosine(x);
            sys::zaqnuti_radians(x);
            sys::zaqnuti_elevation_sine(x);
            sys::zaqnuti_elevation_sigma(x, 1.0, 2.0);
            sys::zaqnuti_abs(x);
            sys::zaqnuti_max(x, 2.0);
        }
        frame
    })
}

/// The bytes of the arguments that lie on the stack in the frame that calls, where `used` does not see them. Six words and eight floats go in registers;
/// the stack is kept at a multiple of 16. These calls are laid out so by the compiler that was tried (1.95); a caller in C on a painted stack shows the same sum.
/// Beside that caller `query`, `queries` and `forget` are seen with 24 bytes too few, which the rounding of the header covers.
fn handed(name: &str) -> usize {
    match name {
        "displacement" | "city" => 176,
        "between" | "rated" | "trip_displacement" => 192,
        "add_epoch" => 256,
        "records" => 16,
        _ => 0,
    }
}

fn most(of: impl IntoIterator<Item = usize>) -> usize {
    of.into_iter().max().unwrap()
}

/// The table of the header: a line `name ... bytes` for each.
fn stated() -> BTreeMap<String, usize> {
    let header = Path::new(env!("CARGO_MANIFEST_DIR")).join("../../include/zaqnuti.h");
    let text = std::fs::read_to_string(header).unwrap();
    let (_, table) = text.split_once("Stack.").unwrap();
    let (table, _) = table.split_once("*/").unwrap();
    let line = |l: &str| {
        let mut words = l.trim_start_matches([' ', '*']).split_whitespace();
        let name = words.next()?.to_string();
        let bytes = words.next()?.replace(',', "").parse().ok()?;
        words.next().is_none().then_some((name, bytes))
    };
    table.lines().filter_map(line).collect()
}

#[test]
fn no_more_than_the_header_says() {
    let table = [
        (
            "fix",
            most([
                fix(64, 50, false),
                fix(64, 50, true),
                fix(65, 50, false),
                fix(9, 25, false),
                fix(64, 0, false),
            ]),
        ),
        ("position", most([position(64, 50), position(65, 50)])),
        (
            "displacement",
            most([
                displacement(64, 50, 1e9, Way::Plain),
                displacement(64, 50, 4.0, Way::Plain),
                displacement(64, 0, 1e9, Way::Plain),
                displacement(65, 4, 1.0, Way::Plain),
                displacement(5, 4, 1.0, Way::Plain),
            ]),
        ),
        (
            "between",
            most([
                displacement(64, 50, 1e9, Way::Between([1, 1_000_000_001])),
                displacement(64, 50, 4.0, Way::Between([1, 1_000_000_001])),
                displacement(64, 0, 1e9, Way::Between([1, 1_000_000_001])),
                displacement(65, 4, 1.0, Way::Between([1, 1_000_000_001])),
                displacement(5, 4, 1.0, Way::Between([1, 1_000_000_001])),
                displacement(64, 50, 1e9, Way::Between([1, u64::MAX])),
                displacement(64, 50, 1e9, Way::Between([1, 1])),
            ]),
        ),
        (
            "city",
            most([
                displacement(64, 50, 1e9, Way::City(1575)),
                displacement(64, 50, 4.0, Way::City(1575)),
                displacement(64, 0, 1e9, Way::City(1575)),
                displacement(65, 4, 1.0, Way::City(1575)),
                displacement(64, 4, 1.0, Way::City(1)),
            ]),
        ),
        (
            "rated",
            most([
                displacement(64, 50, 1e9, Way::Rated),
                displacement(64, 50, 4.0, Way::Rated),
                displacement(64, 0, 1e9, Way::Rated),
                displacement(65, 4, 1.0, Way::Rated),
                displacement(5, 4, 1.0, Way::Rated),
                displacement(64, 50, 1e9, Way::CityRated(1575)),
                displacement(64, 50, 4.0, Way::CityRated(1575)),
                displacement(64, 0, 1e9, Way::CityRated(1575)),
                displacement(65, 4, 1.0, Way::CityRated(1575)),
                displacement(64, 4, 1.0, Way::CityRated(1)),
            ]),
        ),
        (
            "line",
            most([
                line(50, b"\n", LINE),
                line(50, b"\n", LINE - 20),
                line(0, b"\n", LINE),
                line(51, b"\n", LINE),
                line(50, b"", LINE),
                line(50, b"\nP,1\n", 0),
                line(50, &[b'\n'; TEXT], LINE),
            ]),
        ),
        (
            "records",
            most([
                records(64 * 59, 64 * 59, 50, 1e9, 40),
                records(64 * 59, 64 * 59, 50, 4.0, 41),
                records(64 * 59, 64 * 59, 0, 1e9, 40),
                records(65 * 59, 64 * 59, 4, 1e9, 40),
                records(64 * 59, 65 * 59, 4, 1e9, 40),
                records(64 * 59, 63 * 59 + 1, 4, 1e9, 40),
                records(5 * 59, 64 * 59, 4, 1e9, 40),
                records(64 * 59, 64 * 59, 4, 1e9, 39),
                records(0, 0, 4, 1e9, 40),
            ]),
        ),
        (
            "read_records",
            most([64 * 59, 65 * 59, 63 * 59 + 1, 59, 0].map(read_records)),
        ),
        (
            "write_records",
            most([
                write_records(64, 64 * 59),
                write_records(65, 65 * 59),
                write_records(64, 64 * 59 - 1),
                write_records(0, 0),
            ]),
        ),
        (
            "add_epoch",
            most([
                add_epoch(64, 2048, 0),
                add_epoch(64, 2048, 1024),
                add_epoch(64, 100, 90),
                add_epoch(65, 2048, 0),
                add_epoch(64, 64, 0),
            ]),
        ),
        (
            "query",
            most([
                query(2048, 1000.5),
                query(2048, 7.0),
                query(2049, 1.0),
                query(0, 1.0),
                query(1000, 5e3),
            ]),
        ),
        (
            "queries",
            most([
                queries(2048, 64),
                queries(2048, 65),
                queries(2049, 64),
                queries(0, 64),
                queries(2048, 0),
            ]),
        ),
        (
            "forget",
            most([
                forget(2048, 1000.5),
                forget(2048, -1.0),
                forget(2049, 1.0),
                forget(0, 1.0),
                forget(1000, f64::NAN),
            ]),
        ),
        ("forms", most([forms(2048), forms(2049), forms(0)])),
        (
            "widen_bands",
            most([widen_bands(2048), widen_bands(2049), widen_bands(0)]),
        ),
        (
            "smooth",
            most([
                smooth(1024, 1023, 50),
                smooth(1024, 0, 1),
                smooth(1025, 0, 1),
                smooth(2, 1, 6),
            ]),
        ),
        (
            "round",
            most([
                round(64, 9),
                round(65, 9),
                round(64, 10),
                round(0, 9),
                round(12, 4),
            ]),
        ),
        (
            "centre",
            most([centre(64), centre(65), centre(0), centre(1)]),
        ),
        (
            "times",
            most([
                times(1316, 604_799.5, 77),
                times(15_001, 0.5, 77),
                times(15_000, f64::NAN, u64::MAX),
                times(2, 5e-324, u64::MAX),
            ]),
        ),
        (
            "trip",
            most([
                trip([1000, 4, 10_000, 8, 2000, 2], 3.0),
                trip([1, 0, 0, 0, 0, 0], 0.001),
                trip([1000, 65_535, 0, 8, 2000, 2], 3.0),
                trip([0; 6], f64::NAN),
                trip([u64::MAX; 6], 1e300),
            ]),
        ),
        (
            "mileage",
            most([
                mileage([0.2f64.to_bits(), 9, 2, 1, 60_000, 40, 7, 90, 0, 3], 0, 3.0),
                mileage([0.2f64.to_bits(), 9, 2, 1, 60_000, 40, 7, 90, 0, 3], 7, 3.0),
                mileage(
                    [0.2f64.to_bits(), 9, 2, 1, 60_000, 0, 7, 90, 1, 0],
                    0,
                    0.001,
                ),
                mileage([0.2f64.to_bits(), 65_535, 0, 0, 0, 1, 0, 1, 0, 0], 0, 3.0),
                mileage([0; 10], 0, f64::NAN),
                mileage([u64::MAX; 10], 0, 1e300),
            ]),
        ),
        (
            "trip_displacement",
            most([
                trip_displacement(64, 50, 1e9, [1000, 4, 10_000, 8, 2000, 2]),
                trip_displacement(64, 50, 0.5, [1000, 4, 10_000, 8, 2000, 2]),
                trip_displacement(65, 50, 1e9, [u64::MAX; 6]),
                trip_displacement(64, 51, 1e9, [0; 6]),
                trip_displacement(5, 4, f64::NAN, [1000, 65_535, 0, 8, 2000, 2]),
            ]),
        ),
        (
            "north_east_down",
            most([
                directions([3782970.0, 902155.0, 5038376.0], [10.0, -20.0, 30.0]),
                directions([0.0, 0.0, -6356752.0], [10.0, -20.0, 30.0]),
                directions([0.0, 0.0, 2e9], [10.0, -20.0, 30.0]),
                directions([5e-324, 1e-9, 0.0], [f64::NAN, 0.0, 0.0]),
            ]),
        ),
        ("geometry", geometry()),
        (
            "factor",
            most([factor(20.0), factor(f64::NAN), factor(0.0)]),
        ),
        ("solve", solve()),
        ("clocks", clocks()),
        (
            "numbers",
            most([2.0, 0.3, 1e-310, -1.0, f64::NAN, f64::INFINITY, 1e300].map(numbers)),
        ),
    ];
    let table = table.map(|(name, bytes)| (name, bytes + handed(name)));
    let stated = stated();
    for (name, bytes) in table {
        println!("{name:<14} {bytes:>7}");
    }
    for (name, bytes) in table {
        let most = *stated.get(name).unwrap_or(&0);
        assert!(
            bytes <= most,
            "{name} used {bytes} bytes of stack, the header says {most}"
        );
    }
}
