//! The services, one file and one line of the table each.

mod accuracy;
pub mod between;
mod centre;
mod city;
mod clocks;
pub mod corrections;
pub mod directions;
mod displacement;
mod equations;
pub mod drive;
mod estimator;
pub mod factor;
mod fix;
pub mod line;
pub mod mileage;
mod order;
mod rated;
pub mod rearrange;
mod root;
pub mod round;
mod sight;
mod sigma;
pub mod solve;
mod soundness;
mod standins;
pub mod time;
mod top;
pub mod track;
pub mod trip;
pub mod wire;
pub mod wire_tdcp;

use crate::random::Random;
use crate::tally::Tally;
use crate::vectors::Vectors;

/// What can be asked of one service.
pub struct Service {
    /// The name on the command line and in the table.
    pub name: &'static str,
    /// How many inputs are compared where the command line does not say.
    pub count: u64,
    /// Compares so many inputs.
    pub compare: fn(&mut Tally, &mut Random, u64),
    /// Prints its rows of the table of times.
    pub bench: Option<fn(&mut Random)>,
}

/// What makes the cases of a kind, from the Rust alone.
type Make = fn(&mut Random) -> Vectors;

/// Every kind of stored answers: its number, which no other kind is given, its name, and what makes it.
pub const KINDS: &[(u64, &str, Make)] = &[
    (1, "root", root::vectors),
    (2, "order", order::vectors),
    (3, "standins", standins::vectors),
    (4, "factor", factor::vectors),
    (5, "solve", solve::vectors),
    (7, "clocks", clocks::vectors),
    (8, "centre", centre::vectors),
    (9, "sigma", sigma::vectors),
    (10, "sight", sight::vectors),
    (11, "round", round::vectors),
    (12, "displacement", displacement::vectors),
    (13, "fix", fix::vectors),
    (15, "track", track::vectors),
    (16, "epoch", corrections::stored::epochs),
    (17, "line", line::vectors),
    (18, "query", corrections::stored::query),
    (19, "queries", corrections::stored::queries),
    (20, "time", time::times),
    (21, "since", time::since),
    (22, "between", between::vectors),
    (23, "widen", corrections::stored::widen),
    (27, "trip", trip::vectors),
    (45, "mileage", mileage::vectors),
    (33, "directory", rearrange::directories),
    (34, "signals", rearrange::signals),
    (35, "forget", corrections::forget::vectors),
    (40, "read", wire::read),
    (41, "write", wire::write),
    (42, "records", wire_tdcp::vectors),
    (31, "directions", directions::vectors),
    (28, "drive", drive::vectors),
    (38, "settings", drive::settings_vectors),
    (30, "city", city::vectors),
    (44, "rated", rated::vectors),
];

/// Every service, lowest first.
pub const SERVICES: &[Service] = &[
    root::SERVICE,
    order::SERVICE,
    standins::SERVICE,
    factor::SERVICE,
    solve::SERVICE,
    accuracy::SERVICE,
    clocks::SERVICE,
    centre::SERVICE,
    sigma::SERVICE,
    sight::SERVICE,
    round::SERVICE,
    displacement::SERVICE,
    time::SERVICE,
    directions::SERVICE,
    between::SERVICE,
    trip::SERVICE,
    mileage::SERVICE,
    wire::SERVICE,
    wire_tdcp::SERVICE,
    drive::SERVICE,
    city::SERVICE,
    rated::SERVICE,
    rated::CITY,
    fix::SERVICE,
    top::DISPLACEMENT,
    top::FIX,
    soundness::SERVICE,
    track::SERVICE,
    equations::SERVICE,
    corrections::SERVICE,
    rearrange::SERVICE,
    corrections::forget::SERVICE,
    line::SERVICE,
];
