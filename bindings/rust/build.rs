//! Links the static library libzaqnuti.a, from ZAQNUTI_LIB_DIR.

use std::env;
use std::os::unix::process::parent_id;
use std::path::{Path, PathBuf};

fn main() {
    println!("cargo:rerun-if-env-changed=ZAQNUTI_LIB_DIR");
    let folder = match env::var_os("ZAQNUTI_LIB_DIR") {
        Some(folder) => from_where_cargo_runs(Path::new(&folder)),
        None => Path::new(env!("CARGO_MANIFEST_DIR")).join("../../target/staticlib"),
    };
    let archive = folder.join("libzaqnuti.a");
    println!("cargo:rerun-if-changed={}", archive.display());
    assert!(
        archive.is_file(),
        "{} is missing: run `packaging/box library`, or set ZAQNUTI_LIB_DIR to the folder of libzaqnuti.a",
        archive.display()
    );
    println!("cargo:rustc-link-search=native={}", folder.display());
    println!("cargo:rustc-link-lib=static=zaqnuti");
}

/// The folder, counted from the working folder of cargo: a build script's own is the package's.
fn from_where_cargo_runs(folder: &Path) -> PathBuf {
    if folder.is_absolute() {
        return folder.to_path_buf();
    }
    // Run from another folder, the same words name another library.
    println!("cargo:rerun-if-env-changed=PWD");
    let cargo = format!("/proc/{}/cwd", parent_id());
    match Path::new(&cargo).read_link() {
        Ok(at) => at.join(folder),
        Err(e) => {
            panic!("{cargo}: {e}; set ZAQNUTI_LIB_DIR to a folder whose name begins with /")
        }
    }
}
