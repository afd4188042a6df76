//! Writes the published drifters-core, and the stubs of what is not published, to OUT_DIR.

#[path = "../published/publish.rs"]
mod publish;

fn main() {
    publish::write(
        "drifters-core",
        &[
            "lib.rs",
            "earth.rs",
            "frames.rs",
            "time.rs",
            "math/matrix.rs",
            "math/real.rs",
            "math/vec3.rs",
        ],
        &["local.rs", "types.rs", "math/mod.rs", "math/quat.rs"],
    );
}
