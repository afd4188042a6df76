//! Every change that is made to the published text, in order. Nothing else is changed.

use super::Substitution;

const CORE_LIB: &str = "crates/drifters-core/src/lib.rs";
const MATRIX: &str = "crates/drifters-core/src/math/matrix.rs";
const ROBUST: &str = "crates/drifters-gnss/src/robust.rs";
const WLS: &str = "crates/drifters-gnss/src/wls.rs";
const TDCP: &str = "crates/drifters-gnss/src/tdcp.rs";
const SMOOTH: &str = "crates/drifters-gnss/src/smooth.rs";
const DIFFERENTIAL: &str = "crates/drifters-gnss/src/differential.rs";

const fn sub(
    file: &'static str,
    old: &'static str,
    new: &'static str,
    count: usize,
) -> Substitution {
    Substitution {
        file,
        old,
        new,
        count,
    }
}

/// The stand-ins are imported behind a line that occurs once.
macro_rules! import_behind {
    ($file:expr, $line:literal) => {
        sub($file, $line, concat!($line, "use standins::StandIn;\n"), 1)
    };
}

/// What begins so, and occurs once, is public.
macro_rules! public {
    ($file:expr, $item:literal) => {
        sub($file, $item, concat!("pub ", $item), 1)
    };
}

const fn square(file: &'static str, count: usize) -> Substitution {
    sub(file, ".powi(2)", ".square()", count)
}

const fn hypotenuse(file: &'static str, count: usize) -> Substitution {
    sub(file, ".hypot(", ".hypotenuse(", count)
}

const fn travel(file: &'static str) -> Substitution {
    sub(file, ".sin_cos()", ".travel_sine_cosine()", 1)
}

/// What no file of drifters-gnss may hold once it is substituted: each has a stand-in, or none at all.
pub const ABSENT: &[&str] = &[
    ".powi(",
    ".powf(",
    ".hypot(",
    ".sin(",
    ".cos(",
    ".tan(",
    ".sin_cos(",
    ".atan2(",
    ".exp(",
    ".ln(",
    ".mul_add(",
    ".to_radians(",
    ".max(0.",
    ".max(1e",
    ".max(3.",
    ".min(0.",
];

pub const SUBSTITUTIONS: &[Substitution] = &[
    // An included file may carry no inner comment and no inner attribute.
    sub(CORE_LIB, "//!", "//", 25),
    sub(CORE_LIB, "\n#![", "\n// #![", 3),
    // The stand-ins of docs/SCOPE.md, "The reference"; `sqrt` and `abs` are std's.
    import_behind!(ROBUST, "use drifters_core::math::{Cholesky, Matrix};\n"),
    sub(ROBUST, "z.max(1e-9)", "z.greater(1e-9)", 1),
    sub(
        ROBUST,
        "elevation.max(3.0).to_radians().sin().max(0.05)",
        "elevation.greater(3.0).radians().elevation_sine().greater(0.05)",
        1,
    ),
    import_behind!(WLS, "use drifters_core::math::{Cholesky, Matrix};\n"),
    square(WLS, 4),
    hypotenuse(WLS, 2),
    travel(WLS),
    import_behind!(TDCP, "use drifters_core::math::Vec3;\n"),
    square(TDCP, 3),
    hypotenuse(TDCP, 2),
    travel(TDCP),
    import_behind!(SMOOTH, "use drifters_core::math::Vec3;\n"),
    square(SMOOTH, 3),
    sub(SMOOTH, "z.max(1e-12)", "z.greater(1e-12)", 1),
    import_behind!(DIFFERENTIAL, "use crate::rinex::Base;\n"),
    square(DIFFERENTIAL, 3),
    travel(DIFFERENTIAL),
    // What the comparison reads or makes, and the published text keeps to itself.
    sub(
        MATRIX,
        "    lower: Matrix<N, N>,\n",
        "    /// The lower-triangular factor.\n    pub lower: Matrix<N, N>,\n",
        1,
    ),
    public!(ROBUST, "slot: [usize; 8],\n"),
    public!(ROBUST, "count: usize,\n"),
    public!(WLS, "fn geometry("),
    public!(TDCP, "fn geometry("),
    public!(TDCP, "fn usable(&self)"),
    public!(DIFFERENTIAL, "series: BTreeMap<(u8, u16, u8), Vec<(f64, f64)>>,\n"),
    public!(DIFFERENTIAL, "max_gap: f64,\n}"),
    // The loop of `assign` from a state handed in.
    sub(
        ROBUST,
        "        let mut c = Self {\n            slot: [usize::MAX; 8],\n            count: 0,\n        };\n",
        "        let c = Self {\n            slot: [usize::MAX; 8],\n            count: 0,\n        };\n        c.assign_more(constellations)\n    }\n\n    /// Assign columns to the constellations not seen before.\n    pub fn assign_more(self, constellations: impl Iterator<Item = u8>) -> Self {\n        let mut c = self;\n",
        1,
    ),
    // The rounds of a call, kept where the bound is checked over them.
    sub(
        ROBUST,
        "    let dx = Cholesky::new(&ata)?.solve(&atb);\n",
        "    let factor = Cholesky::new(&ata)?;\n    let dx = factor.solve(&atb);\n    crate::record::note(&ata, &atb, &factor, &dx);\n",
        1,
    ),
    // The passes of a track, kept where its bound is checked over them.
    sub(
        SMOOTH,
        "        let x = thomas(&mut diag, &mut upper, &mut rhs)?;\n",
        "        let kept = crate::passes::before(&diag, &upper, &rhs);\n        let x = thomas(&mut diag, &mut upper, &mut rhs)?;\n        crate::passes::solved(kept, &diag, &x);\n",
        1,
    ),
    sub(
        SMOOTH,
        "    Some(out)\n}\n\n/// Huber weight",
        "    crate::passes::passed();\n    Some(out)\n}\n\n/// Huber weight",
        1,
    ),
];
