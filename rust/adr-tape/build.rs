//! Finds the layer's static library, libadr.a.

use std::env;
use std::path::{Path, PathBuf};
use std::process::ExitCode;

fn main() -> ExitCode {
    println!("cargo:rerun-if-env-changed=ADR_LIB_DIR");
    println!("cargo:rerun-if-changed=build.rs");
    let directory = library_directory();
    let library = directory.join("libadr.a");
    // A library that is missing or made anew is looked for again.
    println!("cargo:rerun-if-changed={}", library.display());
    if !library.is_file() {
        eprintln!(
            "libadr.a is not in {}.\nRun 'sh scripts/build adr' in the repository's root, \
             or set ADR_LIB_DIR to the directory that holds libadr.a, from '/' on.",
            directory.display()
        );
        return ExitCode::FAILURE;
    }
    println!("cargo:rustc-link-search=native={}", directory.display());
    println!("cargo:rustc-link-lib=static=adr");
    ExitCode::SUCCESS
}

/// `ADR_LIB_DIR`, or where `sh scripts/build adr` leaves the library.
fn library_directory() -> PathBuf {
    if let Some(given) = env::var_os("ADR_LIB_DIR") {
        return PathBuf::from(given);
    }
    let package = env::var_os("CARGO_MANIFEST_DIR").map_or_else(PathBuf::new, PathBuf::from);
    let root = package.ancestors().nth(2).unwrap_or(Path::new("."));
    root.join("target").join("staticlib")
}
