//! What the package is to others: its version, and what it depends on.

use std::fs;

/// A file of the repository, by its path from the root.
fn file(path: &str) -> String {
    let path = format!("{}/../../{path}", env!("CARGO_MANIFEST_DIR"));
    fs::read_to_string(&path).unwrap_or_else(|error| panic!("{path}: {error}"))
}

/// The header for C, its pkg-config file and the packages are of one version.
#[test]
fn one_version() {
    let version = env!("CARGO_PKG_VERSION");
    let cargo = format!("version = \"{version}\"");
    let places = [
        ("rust/adr-model/Cargo.toml", cargo.clone()),
        ("rust/adr-tool/Cargo.toml", cargo),
        ("c/adr.pc", format!("Version: {version}")),
        ("c/texts.expected", format!("version {version}")),
        ("c/texts.expected", format!("in numbers {version}")),
    ];
    for (path, line) in places {
        let named = file(path).lines().any(|found| found == line);
        assert!(named, "{path} has no line '{line}'");
    }
}

/// Programs that use the library build nothing else, and not the model.
#[test]
fn no_dependencies() {
    let manifest = file("rust/adr-tape/Cargo.toml");
    let tables = manifest.lines().filter(|line| line.starts_with('['));
    for table in tables.filter(|table| table.contains("dependencies")) {
        assert_eq!(table, "[dev-dependencies]");
    }
}
