//! Maps: where their pictures go, what they show of a damaged cartridge, and
//! how they are scaled.

mod place;

use std::fs;

use place::image::{cells_with, entries, number, seal_frame, CELL, CELLS};
use place::{bytes, Place};

/// Where a byte of a frame's block lies, and one of its AUX.
const IN_A_FRAME: [usize; 2] = [77, 32_768 + 17];
/// The colours of damaged frames and of blocks in a picture.
const DAMAGED: &str = "#bf0084";
const BLOCK: &str = "#2da44e";

/// A place with an image of two jobs over an earlier recording.
fn recorded(name: &str) -> Place {
    let place = Place::new(name);
    place.write("old", &bytes(900_000, 1));
    place.write("file", &bytes(200_000, 2));
    place.write("more", &bytes(100_000, 3));
    for words in [
        &["format", "a.adr"][..],
        &["record", "a.adr", "old"],
        &["record", "--overwrite", "a.adr", "file", "more"],
    ] {
        place.adr(words).succeeded();
    }
    place
}

/// Every file in a place and what is in it.
fn contents(place: &Place) -> Vec<(String, Option<Vec<u8>>)> {
    let names = place.names(".").into_iter();
    let with_content = names.map(|name| {
        let content = fs::read(place.path(&name)).ok();
        (name, content)
    });
    with_content.collect()
}

/// Fails with these words; nothing is changed, replaced or left behind.
#[track_caller]
fn refused_and_unchanged(place: &Place, line: &str, why: &str) {
    let before = contents(place);
    let ran = place.shell(line).failed();
    assert!(ran.error.contains(why), "{line}: {}", ran.error);
    assert!(contents(place) == before, "{line} changed something");
}

#[test]
fn pictures_replace_nothing_unasked() {
    let place = recorded("pictures");
    place.adr(&["format", "b.adr"]).succeeded();
    let mut damaged = place.read("b.adr");
    damaged[0] ^= 1;
    place.write("damaged", &damaged);
    place.directory("d");
    place
        .shell("ln -s b.adr to-image; ln -s p.svg to-file; ln -s none to-none")
        .succeeded();
    for command in ["map a.adr", "demo"] {
        let line = format!("TMPDIR=. $ADR {command} --svg");
        place.write("p.svg", b"of value");
        let exists = "p.svg: exists; use '--overwrite' to replace it";
        refused_and_unchanged(&place, &format!("{line} p.svg"), exists);
        for (file, why) in [
            ("b.adr", "b.adr: is a cartridge image; it is left alone"),
            ("damaged", "damaged: is a cartridge image; it is left alone"),
            ("to-image", "to-image: is a link; it is left alone"),
            ("to-file", "to-file: is a link"),
            ("to-none", "to-none: is a link"),
            ("d", "d: is not a regular file"),
            ("none/p.svg", "none/p.svg: No such file"),
        ] {
            for asked in ["", "--overwrite"] {
                refused_and_unchanged(&place, &format!("{line} {file} {asked}"), why);
            }
        }
        place
            .shell(&format!("{line} p.svg --overwrite"))
            .succeeded();
        assert!(place.read("p.svg").starts_with(b"<svg "));
    }
    // The first of them becomes the picture's file, the second the image.
    for line in ["$ADR map --svg *.adr", "$ADR map --overwrite --svg *.adr"] {
        refused_and_unchanged(&place, line, "a.adr: is a cartridge image");
    }
    fs::hard_link(place.path("a.adr"), place.path("same")).expect("a link");
    let line = "$ADR map a.adr --overwrite --svg same";
    refused_and_unchanged(&place, line, "same: is the cartridge image itself");
}

#[test]
fn pictures_get_their_names_when_whole() {
    let place = recorded("whole-pictures");
    place.write("old.svg", b"of value");
    // A write that fails, as on a full disk.
    let limit = "trap '' XFSZ; ulimit -f 1";
    for words in ["new.svg", "old.svg --overwrite"] {
        let line = format!("{limit}; $ADR map a.adr --svg {words}");
        refused_and_unchanged(&place, &line, ".svg: File too large");
    }
}

#[test]
fn pictures_to_devices_and_pipes() {
    let place = recorded("devices");
    let picture = place.adr(&["map", "a.adr", "--svg", "-"]).succeeded();
    for line in [
        "$ADR map a.adr --svg /dev/stdout | cat",
        "mkfifo pipe; { cat pipe & $ADR map a.adr --svg pipe; wait; rm pipe; }",
    ] {
        let ran = place.shell(line).succeeded();
        assert!(ran.output == picture.output, "{line}");
    }
    let line = "$ADR map a.adr --svg /dev/null";
    assert_eq!(place.shell(line).succeeded().output, b"");
    refused_and_unchanged(&place, "$ADR map a.adr --svg /dev/full", "/dev/full: ");
}

/// The address that an entry of the index names, and where its frame starts.
fn frame(image: &[u8], entry: usize) -> (usize, usize) {
    let address = number(image, entry) >> 32;
    (address, CELLS + number(image, entry + 8) * CELL)
}

/// The characters of a map's first rows, address by address.
fn characters(text: &str) -> Vec<char> {
    let rows = text.lines().filter_map(|line| line.get(15..79));
    rows.flat_map(str::chars).collect()
}

#[test]
fn damaged_frames_are_shown() {
    let place = recorded("shown");
    let image = place.read("a.adr");
    let whole = place.adr(&["map", "a.adr"]).succeeded();
    let whole = characters(whole.output_text());
    for entry in entries(&image) {
        let (address, start) = frame(&image, entry);
        for at in IN_A_FRAME {
            let mut damaged = image.clone();
            damaged[start + at] ^= 1;
            place.write("a.adr", &damaged);
            let check = place.adr(&["check", "a.adr"]).failed();
            let told = format!("at address {address} is damaged\n");
            assert!(check.error.contains(&told), "{}", check.error);

            let map = place.adr(&["map", "a.adr"]).failed();
            let told = format!("damaged at address {address}: 'adr check' tells more\n");
            assert!(map.error.ends_with(&told), "{}", map.error);
            assert_eq!(map.error.lines().count(), 1);
            let text = map.output_text();
            assert!(text.contains("! damaged                  1"), "{text}");
            assert!(text.contains(&format!("  Damaged at address {address}.\n")));
            // Nothing else is drawn otherwise for it.
            let shown = characters(text);
            for (at, (shown, whole)) in shown.iter().zip(&whole).enumerate().take(64) {
                let expected = if at == address { &'!' } else { whole };
                assert_eq!(shown, expected, "{at} of {text}");
            }
        }
    }
}

#[test]
fn damage_in_a_picture() {
    let place = recorded("drawn");
    let image = place.read("a.adr");
    let mut damaged = image.clone();
    for entry in entries(&image) {
        let (address, start) = frame(&image, entry);
        if (12..=20).contains(&address) {
            damaged[start + IN_A_FRAME[0]] ^= 1;
        }
    }
    place.write("a.adr", &damaged);
    let map = place.adr(&["map", "a.adr", "--svg", "a.svg"]).failed();
    let told = "damaged at addresses 12, 13, 14, 15 and 5 more";
    assert!(map.error.contains(told), "{}", map.error);
    let picture = String::from_utf8(place.read("a.svg")).expect("text");
    assert!(picture.contains(&told[1..]), "named in the picture");
    assert!(picture.contains("Reading stopped: an element is missing"));
    let drawn = picture.matches(DAMAGED).count();
    assert_eq!(drawn, 9 + 1, "each of them, and the legend");
    assert!(picture.ends_with("</svg>\n"));
}

#[test]
fn frames_without_a_header() {
    let place = recorded("no-header");
    let mut image = place.read("a.adr");
    for header in cells_with(&image, b"ADR_SEQ\0") {
        image[header] = b'a';
        seal_frame(&mut image, header);
    }
    place.write("a.adr", &image);
    let map = place.adr(&["map", "a.adr"]).failed();
    let told = "the cartridge holds frames but no header";
    assert!(map.error.contains(told), "{}", map.error);
    assert!(map.output_text().contains(&told[1..]));
}

#[test]
fn scaled_maps() {
    let place = Place::new("scaled");
    // Too many frames for a row to have only 64 of them.
    place
        .shell("$ADR format a.adr && head -c 60000000 /dev/zero | $ADR record a.adr -")
        .succeeded();
    let mut image = place.read("a.adr");
    let (address, start) = frame(&image, entries(&image)[15]);
    assert_eq!(address, 20, "behind the header's copies and ten blocks");
    image[start] ^= 1;
    place.write("a.adr", &image);

    let map = place.adr(&["map", "a.adr"]).failed();
    let text = map.output_text();
    assert!(text.contains("a character stands for 2 frames"));
    let rule = "A character shows !, else x, else E, else the kind most of its frames are.";
    assert!(text.contains(rule), "{text}");
    assert!(text
        .lines()
        .all(|line| line.len() <= 80 || line.contains("(refusal")));
    assert!(text.contains("DDHHH#####!####"), "{text}");

    let map = place.adr(&["map", "a.adr", "--svg", "-"]).failed();
    let picture = map.output_text();
    let note = ">A square stands for 2 frames and is divided in proportion to what they are, ";
    assert!(picture.contains(note));
    let half = |column: usize, colour: &str| {
        let (left, size) = (96 + column, "width=\"5\" height=\"10\"");
        format!("<rect x=\"{left}\" y=\"64\" {size} fill=\"{colour}\"/>\n")
    };
    let divided = [half(10 * 12, DAMAGED), half(10 * 12 + 5, BLOCK)].concat();
    assert!(picture.contains(&divided), "half of each");
}
