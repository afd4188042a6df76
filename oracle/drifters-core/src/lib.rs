//! The published drifters-core, as its build script wrote it to OUT_DIR.
//!
//! The first three attributes are those of the published lib.rs, which an included file may not
//! carry.

#![no_std]
#![forbid(unsafe_code)]
#![deny(missing_docs)]
// Our libm brings std into the graph, whose own methods of f64 come before those of `Real`.
#![allow(unused_imports)]

include!(concat!(env!("OUT_DIR"), "/published/lib.rs"));
