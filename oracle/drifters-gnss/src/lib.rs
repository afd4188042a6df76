//! The published drifters-gnss, as its build script wrote it to OUT_DIR.

include!(concat!(env!("OUT_DIR"), "/published/lib.rs"));
