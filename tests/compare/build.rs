//! Tells the linker where the static libraries lie.
//!
//! The libraries themselves are named in `compare/library.rs` and `timing/causal.rs`, which only the linking programs include; a
//! search path that does not exist does no harm to the others.

use std::env;
use std::path::{Path, PathBuf};

/// The crates that are linked as static libraries. Each lies in its crate's folder `out`, unless HUNTYGHAI_LIB names one for all.
const CRATES: [&str; 2] = ["huntyghai", "bench_causal_reading"];

fn main() {
    println!("cargo:rerun-if-env-changed=HUNTYGHAI_LIB");
    println!("cargo:rerun-if-changed=build.rs");
    let package = env::var("CARGO_MANIFEST_DIR").expect("cargo names the package's directory");
    let crates = Path::new(&package).join("../../crates");
    for name in CRATES {
        let directory = env::var_os("HUNTYGHAI_LIB").map_or_else(|| crates.join(name).join("out"), PathBuf::from);
        println!("cargo:rustc-link-search=native={}", directory.display());
        let archive = directory.join(format!("lib{name}.a"));
        if archive.exists() {
            println!("cargo:rerun-if-changed={}", archive.display());
        }
    }
}
