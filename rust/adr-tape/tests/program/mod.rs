//! Where the program `shelf_sheet` is, for the tests of both packages.

use std::env;
use std::path::{Path, PathBuf};

/// `ADR_BIN_DIR`, or where `sh scripts/build shelf_sheet` leaves the program.
pub fn shelf_sheet() -> PathBuf {
    let root = Path::new(env!("CARGO_MANIFEST_DIR")).join("../..");
    let directory = env::var_os("ADR_BIN_DIR");
    let directory = directory.map_or(root.join("target/bin"), PathBuf::from);
    let program = directory.join("shelf_sheet");
    assert!(
        program.is_file(),
        "{} is missing: run 'sh scripts/build shelf_sheet' in the repository's root, \
         or set ADR_BIN_DIR to the directory that holds shelf_sheet, from '/' on",
        program.display()
    );
    program
}
