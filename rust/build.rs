//! Links the proved static library: from the directory that DACM_LIB_DIR names, or otherwise from the
//! directory in which `make archive` builds it.

use std::env;
use std::path::{Path, PathBuf};
use std::process::exit;

const DIRECTORY_VARIABLE: &str = "DACM_LIB_DIR";

fn main() {
    println!("cargo:rerun-if-env-changed={DIRECTORY_VARIABLE}");
    let directory = archive_directory();
    let archive = directory.join("libdacm.a");
    println!("cargo:rerun-if-changed={}", archive.display());
    if !archive.is_file() {
        eprintln!(
            "There is no libdacm.a in {}. Build it with `make archive` in the directory above this \
             crate, or set {DIRECTORY_VARIABLE} to the directory that has it.",
            directory.display()
        );
        exit(1);
    }
    println!("cargo:rustc-link-search=native={}", directory.display());
    println!("cargo:rustc-link-lib=static=dacm");
    // The tests link their C programs with the same archive.
    println!("cargo:rustc-env=DACM_ARCHIVE={}", archive.display());
    // The benchmark, and nothing else, links a second archive from the same directory. It names the
    // archive itself, so that without it all but the benchmark can be built.
    let timing = directory.join("libtiming.a");
    println!("cargo:rustc-env=DACM_TIMING_ARCHIVE={}", timing.display());
}

/// A directory that is not named in full is taken from this crate's directory. An empty name is none.
fn archive_directory() -> PathBuf {
    let here = env::var_os("CARGO_MANIFEST_DIR").expect("cargo names the package's directory");
    let named = env::var_os(DIRECTORY_VARIABLE).filter(|directory| !directory.is_empty());
    Path::new(&here).join(named.unwrap_or("../target/staticlib".into()))
}
