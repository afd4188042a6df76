//! Links clang's libFuzzer where `oracle fuzz` is built.

use std::env;

fn main() {
    println!("cargo:rerun-if-env-changed=FUZZER_RUNTIME");
    if env::var_os("CARGO_FEATURE_FUZZ").is_some() {
        // fuzz/run asks clang where its runtime is.
        let runtime = env::var("FUZZER_RUNTIME").expect("fuzz/run sets FUZZER_RUNTIME");
        println!("cargo:rustc-link-arg-bins={runtime}");
        println!("cargo:rustc-link-arg-bins=-lstdc++");
    }
}
