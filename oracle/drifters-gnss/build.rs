//! Writes the published drifters-gnss to OUT_DIR.

#[path = "../published/publish.rs"]
mod publish;

fn main() {
    publish::write(
        "drifters-gnss",
        &[
            "differential.rs",
            "rinex.rs",
            "robust.rs",
            "smooth.rs",
            "tdcp.rs",
            "wls.rs",
        ],
        &["lib.rs", "passes.rs", "record.rs"],
    );
}
