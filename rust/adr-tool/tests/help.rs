//! What the help tells beside the options.

mod place;

use place::Place;

/// Bytes that a drive reads in a second, and those of a full cartridge.
const RATE: u64 = 2_097_000;
const FULL: u64 = 19_239 * 24 * 32_768;

#[test]
fn how_long_a_list_takes() {
    let place = Place::new("list-help");
    let help = place.adr(&["list", "--help"]).succeeded();
    let words: Vec<&str> = help.output_text().split_whitespace().collect();
    let help = words.join(" ");
    let minutes = (1_000_000_000.0 / RATE as f64 / 60.0).round();
    let hours = (FULL as f64 / RATE as f64 / 3_600.0).round();
    for told in [
        "A tape has no directory: the whole recording is read",
        "the 2,097,000 bytes a second",
        &format!("{minutes} minutes for each GB"),
        &format!("{hours} hours for a full cartridge"),
    ] {
        assert!(help.contains(told), "{told}: {help}");
    }
}
