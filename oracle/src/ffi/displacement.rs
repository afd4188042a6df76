//! The entry points of the displacement, by its interval, between two times and in the city profile, and with its quality.

use super::columns::{call, Columns};
use drifters_gnss::tdcp::Carrier;
use zaqnuti::sys::{
    zaqnuti_city_displacement, zaqnuti_city_displacement_rated, zaqnuti_displacement,
    zaqnuti_displacement_between, zaqnuti_displacement_rated,
};

/// An epoch of carriers as the library takes it: its columns, of which each may be longer or shorter
/// than the count needs.
pub struct Carriers {
    pub columns: Columns<6>,
    pub svid: Vec<u16>,
    pub band: Vec<u32>,
    pub state: Vec<i32>,
}

impl Carriers {
    /// The columns of some records.
    pub fn of(records: &[Carrier]) -> Self {
        let columns = records.iter().map(|c| {
            let [x, y, z] = c.satellite;
            (c.constellation, [c.adr, x, y, z, c.elevation, c.rate])
        });
        Self {
            columns: Columns::of(columns),
            svid: records.iter().map(|c| c.svid).collect(),
            band: records.iter().map(|c| c.band).collect(),
            state: records.iter().map(|c| c.state).collect(),
        }
    }

    /// Whether each column has what the count needs.
    pub fn whole(&self) -> bool {
        let others = [self.svid.len(), self.band.len(), self.state.len()];
        self.columns.whole() && others.iter().all(|&n| n >= self.columns.count)
    }
}

/// Displacement and counts in the last two and 0, or the number and both untouched.
#[inline]
#[allow(clippy::too_many_arguments)]
pub fn displacement(
    previous: &Carriers,
    current: &Carriers,
    dt: f64,
    receiver: &[f64; 3],
    settings: &[f64; 5],
    rounds: usize,
    delta: &mut [f64; 3],
    counts: &mut [usize; 2],
) -> u8 {
    // SAFETY: each column has its length beside it, the arrays are as long as their types say, and
    // the last two are ours alone.
    unsafe {
        call!(zaqnuti_displacement();
            [previous.columns.constellation], [previous.svid], [previous.band], [previous.state],
            [previous.columns.floats], previous.columns.count,
            [current.columns.constellation], [current.svid], [current.band], [current.state],
            [current.columns.floats], current.columns.count,
            dt, receiver, settings, rounds, delta, counts,)
    }
}

/// As `displacement`, between two times.
#[inline]
#[allow(clippy::too_many_arguments)]
pub fn displacement_between(
    previous: &Carriers,
    current: &Carriers,
    [before, now]: [u64; 2],
    receiver: &[f64; 3],
    settings: &[f64; 5],
    rounds: usize,
    delta: &mut [f64; 3],
    counts: &mut [usize; 2],
) -> u8 {
    // SAFETY: as there.
    unsafe {
        call!(zaqnuti_displacement_between();
            [previous.columns.constellation], [previous.svid], [previous.band], [previous.state],
            [previous.columns.floats], previous.columns.count,
            [current.columns.constellation], [current.svid], [current.band], [current.state],
            [current.columns.floats], current.columns.count,
            before, now, receiver, settings, rounds, delta, counts,)
    }
}

/// As `displacement`, in the city profile.
#[inline]
#[allow(clippy::too_many_arguments)]
pub fn city_displacement(
    previous: &Carriers,
    current: &Carriers,
    (dt, chosen): (f64, u32),
    receiver: &[f64; 3],
    settings: &[f64; 5],
    rounds: usize,
    delta: &mut [f64; 3],
    counts: &mut [usize; 2],
) -> u8 {
    // SAFETY: as there.
    unsafe {
        call!(zaqnuti_city_displacement();
            [previous.columns.constellation], [previous.svid], [previous.band], [previous.state],
            [previous.columns.floats], previous.columns.count,
            [current.columns.constellation], [current.svid], [current.band], [current.state],
            [current.columns.floats], current.columns.count,
            dt, chosen, receiver, settings, rounds, delta, counts,)
    }
}

/// As `displacement`, with its quality; in the city profile where there is a band.
#[inline]
#[allow(clippy::too_many_arguments)]
pub fn displacement_rated(
    previous: &Carriers,
    current: &Carriers,
    (dt, chosen): (f64, Option<u32>),
    receiver: &[f64; 3],
    settings: &[f64; 5],
    rounds: usize,
    delta: &mut [f64; 3],
    quality: &mut [f64; 2],
    counts: &mut [usize; 2],
) -> u8 {
    // SAFETY: as there.
    unsafe {
        match chosen {
            None => call!(zaqnuti_displacement_rated();
                [previous.columns.constellation], [previous.svid], [previous.band], [previous.state],
                [previous.columns.floats], previous.columns.count,
                [current.columns.constellation], [current.svid], [current.band], [current.state],
                [current.columns.floats], current.columns.count,
                dt, receiver, settings, rounds, delta, quality, counts,),
            Some(chosen) => call!(zaqnuti_city_displacement_rated();
                [previous.columns.constellation], [previous.svid], [previous.band], [previous.state],
                [previous.columns.floats], previous.columns.count,
                [current.columns.constellation], [current.svid], [current.band], [current.state],
                [current.columns.floats], current.columns.count,
                dt, chosen, receiver, settings, rounds, delta, quality, counts,),
        }
    }
}
