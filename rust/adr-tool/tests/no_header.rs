//! Cartridges that hold frames but no header.

mod place;

use place::image::{cells_with, header_addresses, lose_frame, seal_frame};
use place::{bytes, Place};

/// Commands that read, one that adds and one that records.
const COMMANDS: [(&[&str], &str); 7] = [
    (&["list", "a.adr"], "use a copy"),
    (&["check", "a.adr"], "use a copy"),
    (&["dump", "a.adr"], "use a copy"),
    (&["restore", "--into", "out", "a.adr"], "use a copy"),
    (&["restore", "a.adr", "1"], "use a copy"),
    (&["record", "--append", "a.adr", "file"], "use a copy"),
    (
        &["record", "--overwrite", "a.adr", "file"],
        "'adr format --overwrite'",
    ),
];

#[test]
fn frames_without_a_header() {
    let place = Place::new("no-header");
    place.directory("out");
    place.write("file", &bytes(100_000, 1));
    place.adr(&["format", "a.adr"]).succeeded();
    place.adr(&["record", "a.adr", "file"]).succeeded();
    let image = place.read("a.adr");
    let headers = cells_with(&image, b"ADR_SEQ\0");
    assert_eq!(headers.len(), 10);

    let mut invalid = image.clone();
    for header in &headers {
        invalid[*header] = b'X';
        seal_frame(&mut invalid, *header);
    }
    let mut missing = image.clone();
    header_addresses().for_each(|address| lose_frame(&mut missing, address));

    for altered in [invalid, missing] {
        place.write("a.adr", &altered);
        for (words, remedy) in COMMANDS {
            let told = "the cartridge holds frames but no header; nothing was changed: ";
            let refused = place.adr(words).failed();
            let told = format!("a.adr: {told}{remedy}");
            assert!(refused.error.contains(&told), "{}", refused.error);
            assert_eq!(refused.output, b"", "{words:?}");
        }
        assert!(place.read("a.adr") == altered, "the image was changed");
        assert!(place.names("out").is_empty());
    }
}
