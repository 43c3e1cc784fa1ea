//! The tool on images that are damaged, cut off or not images, and after
//! recordings that did not come to their end.

mod place;

use std::fs::OpenOptions;
use std::process::Stdio;

use place::image::{
    cells_with, crc, entries, index_of, newer_root, number, seal_description, seal_index,
    seal_roots, set_number, CELL, CELLS, DESCRIPTION, PAGE, ROOTS,
};
use place::{bytes, feed, Place};

/// Commands that have nothing but an image to work on.
const ON_AN_IMAGE: [&[&str]; 8] = [
    &["list", "a.adr"],
    &["restore", "a.adr", "1"],
    &["check", "a.adr"],
    &["map", "a.adr"],
    &["sheet", "a.adr"],
    &["dump", "a.adr"],
    &["record", "--overwrite", "a.adr", "file"],
    &["record", "--append", "a.adr", "file"],
];

fn recorded(name: &str) -> Place {
    Place::recorded(name, 200_000, 300_000)
}

/// Every command fails with a message, and the image stays as it is.
#[track_caller]
fn refused_and_unchanged(place: &Place, image: &[u8], why: &str) {
    place.write("a.adr", image);
    for words in ON_AN_IMAGE {
        let ran = place.adr(words).failed();
        assert!(ran.error.contains(why), "{words:?}: {}", ran.error);
        assert!(place.read("a.adr") == image, "{words:?} changed the image");
    }
}

#[test]
fn no_image() {
    let place = Place::new("none");
    place.write("file", b"x");
    for words in ON_AN_IMAGE {
        let ran = place.adr(words).failed();
        assert!(ran.error.contains("no such image; 'adr format'"));
        assert!(!place.path("a.adr").exists());
    }
    std::fs::create_dir(place.path("a.adr")).expect("a directory");
    for words in ON_AN_IMAGE {
        place.adr(words).failed();
    }
    place.adr(&["format", "--overwrite", "a.adr"]).failed();
}

#[test]
fn foreign_files() {
    let place = Place::new("foreign");
    place.write("file", b"x");
    for foreign in [
        b"".to_vec(),
        b"ADR".to_vec(),
        b"%PDF-1.4 and so on".to_vec(),
        bytes(100_000, 3),
        vec![0; 100_000],
    ] {
        refused_and_unchanged(&place, &foreign, "not a cartridge image");
        let format = place.adr(&["format", "--overwrite", "a.adr"]);
        if foreign.is_empty() {
            format.succeeded();
        } else {
            assert!(format.failed().error.contains("left alone"));
            assert_eq!(place.read("a.adr"), foreign);
        }
    }
}

#[test]
fn cut_off_images() {
    let place = recorded("cut");
    let image = place.read("a.adr");
    for length in [
        8,
        100,
        PAGE,
        ROOTS[1],
        CELLS - 1,
        CELLS,
        CELLS + CELL,
        image.len() - CELL,
        image.len() - 1,
    ] {
        refused_and_unchanged(&place, &image[..length], "truncated");
    }
}

#[test]
fn damaged_heads_roots_and_indexes() {
    let place = recorded("damaged");
    let image = place.read("a.adr");
    for at in [8, 12, 16, 20, 2_000, PAGE - 1] {
        let mut damaged = image.clone();
        damaged[at] ^= 1;
        refused_and_unchanged(&place, &damaged, "the image is damaged");
    }
    let mut damaged = image.clone();
    damaged[ROOTS[0] + 9] ^= 1;
    damaged[ROOTS[1] + 4_000] ^= 1;
    refused_and_unchanged(&place, &damaged, "both of its roots");
    for at in [0, 8, 12, 16, 24, 500] {
        let mut damaged = image.clone();
        damaged[index_of(&image) + at] ^= 1;
        refused_and_unchanged(&place, &damaged, "its index");
    }
}

#[test]
fn indexes_that_lead_out_of_the_file() {
    let place = recorded("leads-out");
    let image = place.read("a.adr");
    let mut same = image.clone();
    seal_index(&mut same);
    assert!(same == image, "the checksums are those of the tool");
    let cells = number(&image, newer_root(&image) + 16) as u64;
    let all = entries(&image);
    for entry in [all[0], all[11], all[all.len() - 1]] {
        for cell in [cells, cells + 1, u64::MAX / CELL as u64, u64::MAX] {
            let mut altered = image.clone();
            set_number(&mut altered, entry + 8, cell);
            seal_index(&mut altered);
            refused_and_unchanged(&place, &altered, "its index leads out of the file");
        }
    }
}

/// An index cell that leads back to itself.
#[test]
fn indexes_without_an_end() {
    let place = recorded("no-end");
    let mut image = place.read("a.adr");
    let (root, index) = (newer_root(&image), index_of(&image));
    let cell = number(&image, root + 24) as u64;
    set_number(&mut image, index, cell);
    for root in ROOTS {
        set_number(&mut image, root + 32, 2_000);
    }
    let twice = image[index..index + CELL].repeat(2);
    seal_roots(&mut image, crc(&twice));
    refused_and_unchanged(&place, &image, "its index is not what was written");
}

/// What is kept in memory does not grow with the length of the file.
#[test]
fn long_files() {
    let place = recorded("long");
    place.shell("truncate -s 8T a.adr").succeeded();
    for words in [
        "list a.adr",
        "check a.adr",
        "map a.adr",
        "restore a.adr 1 -o old",
        "record --overwrite a.adr new",
        "restore a.adr 1 -o again",
    ] {
        place
            .shell(&format!("ulimit -v 200000; $ADR {words}"))
            .succeeded();
    }
    assert_eq!(place.read("old"), place.read("file"));
    assert_eq!(place.read("again"), place.read("new"));
}

/// A name that the tool would not record.
#[test]
fn names_from_a_tape() {
    let place = recorded("tape-names");
    place.directory("out");
    let image = place.read("a.adr");
    let start = cells_with(&image, DESCRIPTION)[0];
    assert_eq!(image[start + 24..start + 30], *b"\0\x04file");
    for name in [&b"../x"[..], b"a/bc", b"..", b".", b"", b"/tmp", b"a\0bc"] {
        let mut altered = image.clone();
        altered[start + 25] = u8::try_from(name.len()).expect("a short name");
        altered[start + 26..start + 26 + name.len()].copy_from_slice(name);
        seal_description(&mut altered, start);
        place.write("a.adr", &altered);
        let refused = place.adr(&["restore", "--into", "out", "a.adr"]).failed();
        assert!(refused.error.contains("lead out"), "{}", refused.error);
        let restored = place.adr(&["restore", "a.adr", "1"]).succeeded();
        assert_eq!(restored.output, place.read("file"));
    }
    assert!(place.names("out").is_empty());
    assert!(!place.path("x").exists());
}

/// Jobs that another program recorded.
#[test]
fn foreign_jobs() {
    let place = recorded("foreign-jobs");
    place.directory("out");
    place.adr(&["format", "--overwrite", "a.adr"]).succeeded();
    place.adr(&["record", "a.adr", "file", "new"]).succeeded();
    let mut image = place.read("a.adr");
    let starts = cells_with(&image, DESCRIPTION);
    let start = starts.into_iter().find(|start| image[start + 26] == b'f');
    let start = start.expect("the job of 'file'");
    image[start] = b'a';
    seal_description(&mut image, start);
    place.write("a.adr", &image);
    let list = place.adr(&["list", "a.adr"]).succeeded();
    assert!(list
        .output_text()
        .contains("1  (not recorded by this tool)"));
    let told = "job 1 was not recorded by this tool";
    let restored = place.adr(&["restore", "--into", "out", "a.adr"]).failed();
    assert!(restored.error.contains(told), "{}", restored.error);
    assert!(restored.error.contains("1 job was not restored"));
    assert_eq!(place.names("out"), ["new"]);
    assert_eq!(place.read("out/new"), place.read("new"));
    let restored = place.adr(&["restore", "a.adr", "1"]).failed();
    assert!(restored.error.contains(told), "{}", restored.error);
}

/// A file that is not whole never has the job's name.
#[test]
fn killed_while_restoring() {
    let place = recorded("killed-restoring");
    place.directory("out");
    let line = "ulimit -f 100; $ADR restore --into out a.adr";
    // A write that fails, as on a full disk.
    let failed = place.shell(&format!("trap '' XFSZ; {line}")).failed();
    assert!(failed.error.starts_with("adr: out/file: "));
    assert!(!failed.error.contains("job 1"), "{}", failed.error);
    assert!(place.names("out").is_empty());
    // A process that is ended in the middle of a write.
    let ended = place.shell(&format!("ulimit -c 0; {line}"));
    assert_ne!(ended.status, Some(0));
    let names = place.names("out");
    assert_eq!(names.len(), 1, "{names:?}");
    assert!(names[0].starts_with("file.") && names[0].ends_with(".part"));
    place
        .adr(&["restore", "--into", "out", "a.adr"])
        .succeeded();
    assert_eq!(place.read("out/file"), place.read("file"));
}

/// Both roots lead to the same content.
#[test]
fn one_damaged_root() {
    let place = recorded("root");
    place
        .adr(&["record", "--overwrite", "a.adr", "new"])
        .succeeded();
    let image = place.read("a.adr");
    for root in ROOTS {
        let mut damaged = image.clone();
        damaged[root + 8] ^= 1;
        place.write("a.adr", &damaged);
        let check = place.adr(&["check", "a.adr"]).failed();
        assert!(check.error.contains("one of the image's two roots"));
        let restored = place.adr(&["restore", "a.adr", "1"]).succeeded();
        assert_eq!(restored.output, place.read("new"));
        place
            .adr(&["record", "--overwrite", "a.adr", "file"])
            .succeeded();
        place.adr(&["check", "a.adr"]).succeeded();
    }
}

#[test]
fn damaged_frames() {
    let place = recorded("frames");
    let image = place.read("a.adr");
    let cells = (image.len() - CELLS) / CELL;
    let (mut harmless, mut found) = (0, 0);
    let index = (index_of(&image) - CELLS) / CELL;
    for cell in (0..cells).filter(|cell| *cell != index) {
        let mut damaged = image.clone();
        damaged[CELLS + cell * CELL + 77] ^= 0x40;
        place.write("a.adr", &damaged);
        // A frame that the recording wrote twice is in no cell any more.
        let check = place.adr(&["check", "a.adr"]);
        if check.status == Some(0) {
            harmless += 1;
            continue;
        }
        let check = check.failed();
        assert!(check.error.contains("is damaged"), "{}", check.error);
        found += 1;
        let restored = place.adr(&["restore", "a.adr", "1", "-o", "out"]);
        if restored.status == Some(0) {
            // A copy of the header; there are others.
            assert_eq!(place.read("out"), place.read("file"));
            std::fs::remove_file(place.path("out")).expect("it");
        } else {
            let restored = restored.failed();
            let told = restored.error.contains("damaged at address");
            assert!(told, "{}", restored.error);
            assert!(!place.path("out").exists());
        }
        assert!(place.read("a.adr") == damaged);
    }
    assert!(found >= 19 && harmless <= 10, "{found} {harmless}");
}

#[test]
fn damaged_headers() {
    let place = recorded("headers");
    let image = place.read("a.adr");
    let headers = cells_with(&image, b"ADR_SEQ\0");
    assert_eq!(headers.len(), 10);
    let mut damaged = image.clone();
    for header in &headers {
        damaged[header + 20_000] ^= 1;
    }
    refused_and_unchanged(&place, &damaged, "damaged at address");
    refused_and_unchanged(&place, &damaged, "no other copy reads");
    // With one copy left everything can be read, but nothing recorded.
    damaged[headers[7] + 20_000] ^= 1;
    place.write("a.adr", &damaged);
    let restored = place.adr(&["restore", "a.adr", "1"]).succeeded();
    assert_eq!(restored.output, place.read("file"));
    let record = place.adr(&["record", "--overwrite", "a.adr", "new"]);
    assert!(record.failed().error.contains("restore what it holds"));
    assert!(place.read("a.adr") == damaged);
}

#[test]
fn killed_while_recording() {
    let place = recorded("killed");
    let before = place.read("a.adr").len();
    for amount in [0, 40_000, 3_000_000, 20_000_000] {
        let mut child = place
            .command(&["record", "--overwrite", "a.adr", "-"])
            .stdin(Stdio::piped())
            .spawn()
            .expect("the tool");
        feed(&mut child, amount);
        child.kill().expect("it runs");
        let status = child.wait().expect("it ended");
        assert!(!status.success());
        old_content_stands(&place);
    }
    assert!(place.read("a.adr").len() > before);
    place
        .adr(&["record", "--overwrite", "a.adr", "new"])
        .succeeded();
    let restored = place.adr(&["restore", "a.adr", "1"]).succeeded();
    assert_eq!(restored.output, place.read("new"));
    place.adr(&["check", "a.adr"]).succeeded();
}

#[track_caller]
fn old_content_stands(place: &Place) {
    let restored = place.adr(&["restore", "a.adr", "1"]).succeeded();
    assert_eq!(restored.output, place.read("file"));
    place.adr(&["check", "a.adr"]).succeeded();
}

#[test]
fn no_room_left() {
    let place = recorded("room-left");
    let length = place.read("a.adr").len();
    // Blocks of 512 bytes: a limit below what the new recording needs.
    for more in [0, 36_864, 200_000, 400_000] {
        let limit = (length + more) / 512;
        let line = "$ADR record --overwrite a.adr new";
        // A write that fails, as on a full disk.
        let failed = place
            .shell(&format!("trap '' XFSZ; ulimit -f {limit}; {line}"))
            .failed();
        assert!(failed.error.contains("a.adr: "), "{}", failed.error);
        assert!(failed.error.contains("holds what it held before"));
        assert_eq!(place.read("a.adr").len(), length);
        old_content_stands(&place);
        // A process that is ended in the middle of a write.
        let ended = place.shell(&format!("ulimit -c 0; ulimit -f {limit}; {line}"));
        assert_ne!(ended.status, Some(0));
        old_content_stands(&place);
        place
            .shell(&format!("truncate -s {length} a.adr"))
            .succeeded();
    }
    place
        .adr(&["record", "--overwrite", "a.adr", "new"])
        .succeeded();
    place.adr(&["check", "a.adr"]).succeeded();
}

#[test]
fn input_that_fails() {
    let place = recorded("input");
    let image = place.read("a.adr");
    std::fs::create_dir(place.path("directory")).expect("a directory");
    for words in [
        &["record", "--overwrite", "a.adr", "new", "directory"][..],
        &["record", "--overwrite", "a.adr", "missing"],
    ] {
        place.adr(words).failed();
        assert!(place.read("a.adr") == image);
    }
    // Standard input that is a directory cannot be read.
    place
        .shell("$ADR record --overwrite a.adr new - < directory")
        .failed();
    old_content_stands(&place);
    assert_eq!(place.read("a.adr").len(), image.len());
}

/// A power cut leaves some of the pages written since the last time the file
/// was brought to disk, in any order. A root is written after all else was
/// brought there, and the second root after the first was. What the old
/// content alone used is given back after that: by holes in the first round,
/// by a shorter file in the second.
#[test]
fn power_cut() {
    let place = recorded("power");
    let mut random = adr_model::random::Random::new(1);
    for (old, new) in [("file", "new"), ("new", "file")] {
        let before = place.read("a.adr");
        place
            .adr(&["record", "--overwrite", "a.adr", new])
            .succeeded();
        let after = place.read("a.adr");
        power_cuts(&place, (old, new), &before, &after, &mut random);
        place.write("a.adr", &after);
    }
}

fn power_cuts(
    place: &Place,
    (old, new): (&str, &str),
    before: &[u8],
    after: &[u8],
    random: &mut adr_model::random::Random,
) {
    let (old, new) = (place.read(old), place.read(new));
    let restored = |image: &[u8]| {
        place.write("a.adr", image);
        place.adr(&["restore", "a.adr", "1"]).succeeded().output
    };
    let pages = 3..before.len().max(after.len()) / PAGE;
    let differs = |page: &usize| part(before, *page) != part(after, *page);
    let (given_back, written): (Vec<usize>, Vec<usize>) = pages
        .filter(differs)
        .partition(|page| part(after, *page).is_none_or(|content| content == [0; PAGE]));
    assert!(written.len() > 50 && given_back.len() > 50);

    let mut image = before.to_vec();
    for _ in 0..40 {
        image.clear();
        image.extend(before);
        for page in written.iter().filter(|_| random.chance(500)) {
            put(&mut image, *page, page_of(after, *page));
        }
        assert_eq!(restored(&image), old);
        place.adr(&["check", "a.adr"]).succeeded();
    }
    for page in &written {
        put(&mut image, *page, page_of(after, *page));
    }
    assert_eq!(restored(&image), old);
    let first = ROOTS
        .into_iter()
        .min_by_key(|root| number(before, root + 8));
    let second = ROOTS
        .into_iter()
        .max_by_key(|root| number(before, root + 8));
    for (root, earlier) in [(first, &old), (second, &new)] {
        let root = root.expect("a root");
        for torn in (0..=PAGE).step_by(128) {
            let mut image = image.clone();
            image[root..root + torn].copy_from_slice(&after[root..root + torn]);
            let restored = restored(&image);
            assert!(restored == *earlier || restored == new, "{root} {torn}");
        }
        put(&mut image, root / PAGE, page_of(after, root / PAGE));
        assert_eq!(restored(&image), new);
    }
    for part in given_back.chunks(given_back.len() / 4) {
        for page in part {
            put(&mut image, *page, &[0; PAGE]);
        }
        assert_eq!(restored(&image), new);
        place.adr(&["check", "a.adr"]).succeeded();
    }
    image.truncate(after.len());
    assert!(image == after);
}

fn page_of(image: &[u8], page: usize) -> &[u8] {
    &image[page * PAGE..(page + 1) * PAGE]
}

fn part(image: &[u8], page: usize) -> Option<&[u8]> {
    image.get(page * PAGE..(page + 1) * PAGE)
}

fn put(image: &mut Vec<u8>, page: usize, content: &[u8]) {
    let end = (page + 1) * PAGE;
    if image.len() < end {
        image.resize(end, 0);
    }
    image[page * PAGE..end].copy_from_slice(content);
}

#[test]
fn images_that_may_not_be_written() {
    let place = recorded("readonly");
    let image = place.path("a.adr");
    let mut permissions = std::fs::metadata(&image).expect("it").permissions();
    permissions.set_readonly(true);
    std::fs::set_permissions(&image, permissions).expect("its owner");
    old_content_stands(&place);
    // The system's administrator may write to it all the same.
    if OpenOptions::new().write(true).open(&image).is_err() {
        place
            .adr(&["record", "--overwrite", "a.adr", "new"])
            .failed();
        old_content_stands(&place);
    }
}
