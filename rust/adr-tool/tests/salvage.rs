//! Salvage of damaged cartridges.

mod place;

use std::io::Write;
use std::process::Stdio;

use adr_model::random::Random;
use place::image::{
    cells_with, entries, frame_at, index_of, newer_root, number, remove_labels, seal_description,
    CELL, CELLS, FRAME, PAGE, ROOTS,
};
use place::{bytes, Place, Ran};

/// Where a frame tells its type, its number and the filemarks before it.
const TYPE: usize = 32_768 + 16;
const NUMBER: usize = 32_768 + 44;
const FILEMARKS: usize = 32_768 + 192;
/// The address of the first element.
const FIRST: usize = 10;

/// The jobs: 'a' is elements 0 to 3, 'b' 4 to 9, 'c' 10 to 12, 'd' 13 to 17;
/// the end of data has number 18.
const JOBS: [(&str, usize); 4] = [("a", 100), ("b", 70_000), ("c", 0), ("d", 40_000)];
const SALVAGE: [&str; 4] = ["salvage", "a.adr", "--into", "out"];

/// A place with an image of four jobs.
fn recorded(name: &str) -> Place {
    let place = Place::new(name);
    for (seed, (name, length)) in JOBS.into_iter().enumerate() {
        place.write(name, &bytes(length, seed as u64));
    }
    place.directory("out");
    place.adr(&["format", "a.adr"]).succeeded();
    place
        .adr(&["record", "a.adr", "a", "b", "c", "d"])
        .succeeded();
    place
}

/// Damages the frame of an element.
fn lose(image: &mut [u8], element: usize) {
    let start = frame_at(image, FIRST + element);
    image[start + 1_000] ^= 1;
}

/// Leaves no index.
fn damage_index(image: &mut [u8]) {
    let index = index_of(image);
    image[index + 500] ^= 1;
}

/// Leaves no root.
fn damage_roots(image: &mut [u8]) {
    for root in ROOTS {
        image[root + 100] ^= 1;
    }
}

/// Salvages an image, which stays as it is, and gives the names of the jobs
/// that came of it; each is as it was recorded.
#[track_caller]
fn salvaged(place: &Place, image: &[u8]) -> (Ran, String) {
    place.write("a.adr", image);
    std::fs::remove_dir_all(place.path("out")).expect("it");
    place.directory("out");
    let ran = place.adr(&SALVAGE);
    assert!(place.read("a.adr") == image, "the image was changed");
    let names = place.names("out");
    for name in &names {
        assert!(
            place.read(&format!("out/{name}")) == place.read(name),
            "{name} is not as it was recorded: {}",
            ran.error
        );
    }
    (ran, names.concat())
}

#[test]
fn whole_cartridge() {
    let place = recorded("salvage-whole");
    let image = place.read("a.adr");
    let (ran, names) = salvaged(&place, &image);
    let ran = ran.succeeded();
    assert_eq!((names.as_str(), ran.error.as_str()), ("abcd", ""));
    assert!(ran
        .output_text()
        .contains("4 jobs were restored, 110.1 kB; nothing"));
    let time = |name| std::fs::metadata(place.path(name)).and_then(|it| it.modified());
    let seconds = |name| {
        let since = time(name).map(|time| time.duration_since(std::time::UNIX_EPOCH));
        since.expect("a time").expect("after 1970").as_secs()
    };
    assert_eq!(seconds("out/b"), seconds("b"));
    place.adr(&["format", "--overwrite", "a.adr"]).succeeded();
    let empty = place.adr(&SALVAGE).succeeded();
    assert!(empty.output_text().contains("holds no recording"));
}

#[test]
fn lost_elements() {
    let place = recorded("salvage-elements");
    let image = place.read("a.adr");
    for (lost, names, told) in [
        (
            &[6][..],
            "acd",
            &["job 2, 'b': not restored: element 6 is missing (32,768 of its 70,000 bytes)"][..],
        ),
        // A filemark.
        (
            &[9],
            "abcd",
            &["job 2, 'b': the filemark at its end is missing"],
        ),
        // The first block of a job.
        (
            &[4],
            "acd",
            &["job 2: not restored: element 4 is missing (none of its 70,000 bytes)"],
        ),
        // The last block.
        (
            &[8],
            "acd",
            &["job 2, 'b': not restored: element 8 is missing (none of its 70,000 bytes)"],
        ),
        (&[18], "abcd", &["the end of data is missing"]),
        // A whole job, two of them, and the last.
        (
            &[4, 5, 6, 7, 8, 9],
            "acd",
            &["job 2: nothing of it is left: elements 4 to 9 are missing"],
        ),
        (
            &[4, 5, 6, 7, 8, 9, 10, 11, 12],
            "ad",
            &["jobs 2 to 3: nothing of them is left: elements 4 to 12 are missing"],
        ),
        (
            &[13, 14, 15, 16, 17],
            "abc",
            &["job 4: nothing of it is left: elements 13 to 17 are missing"],
        ),
        (
            &[13, 14, 15, 16, 17, 18],
            "abc",
            &["whether there were more jobs than 3 is not known"],
        ),
        // What stands beside a filemark, too.
        (
            &[3, 4],
            "acd",
            &[
                "job 1, 'a': the filemark",
                "job 2: not restored: element 4 is",
            ],
        ),
        (
            &[8, 9, 10],
            "ad",
            &[
                "job 2, 'b': not restored: element 8 is missing",
                "job 2, 'b': the filemark",
                "job 3: not restored: element 10 is missing (none of its 0 bytes)",
            ],
        ),
        (
            &[15, 16, 17, 18],
            "abc",
            &["elements 15 to 16 are missing (7,232 of its 40,000 bytes)"],
        ),
        // Nothing of a job but its filemark, and but a block of data.
        (
            &[3, 4, 5, 6, 7, 8],
            "acd",
            &["job 2: not restored: elements before 8 are missing, how many"],
        ),
        (
            &[3, 4, 5, 7, 8, 9, 10],
            "ad",
            &[
                "job 2: not restored: elements 7 to 8 are missing (at most 32,768 bytes); \
               elements before 6 are missing, how many is not known",
            ],
        ),
    ] {
        let mut damaged = image.clone();
        for element in lost {
            lose(&mut damaged, *element);
        }
        let (ran, restored) = salvaged(&place, &damaged);
        let ran = ran.failed();
        assert_eq!(restored, names, "without {lost:?}: {}", ran.error);
        for told in told {
            assert!(ran.error.contains(told), "without {lost:?}: {}", ran.error);
        }
        let lines = ran.error.lines().count();
        assert!(lines > told.len() && ran.output.is_empty(), "{}", ran.error);
        // The layer reads no further than the first of them.
        place.adr(&["check", "a.adr"]).failed();
    }
}

#[test]
fn lost_headers() {
    let place = recorded("salvage-headers");
    let mut image = place.read("a.adr");
    let mut headers = cells_with(&image, b"ADR_SEQ\0");
    let kept = headers.pop().expect("ten copies");
    for header in headers {
        image[header + 100] ^= 1;
    }
    let (ran, names) = salvaged(&place, &image);
    assert_eq!(
        (names.as_str(), ran.succeeded().error.as_str()),
        ("abcd", "")
    );
    image[kept + 100] ^= 1;
    let (ran, names) = salvaged(&place, &image);
    let ran = ran.failed();
    assert_eq!(names, "abcd");
    assert!(
        ran.error.contains("no header of a closed recording"),
        "{}",
        ran.error
    );
}

/// Copies of the header that nothing but the others contradict.
#[test]
fn altered_headers() {
    let place = recorded("salvage-altered");
    let mut image = place.read("a.adr");
    remove_labels(&mut image);
    damage_index(&mut image);
    for header in cells_with(&image, b"ADR_SEQ\0") {
        let mut altered = image.clone();
        altered[header + 23] ^= 1;
        let (ran, names) = salvaged(&place, &altered);
        ran.succeeded();
        assert_eq!(names, "abcd");
    }
}

/// Without an index, by the labels of the cells or by the jobs' checksums.
#[test]
fn lost_index() {
    let place = recorded("salvage-index");
    let labelled = place.read("a.adr");
    let mut unlabelled = labelled.clone();
    remove_labels(&mut unlabelled);
    let (ran, _) = salvaged(&place, &unlabelled);
    ran.succeeded();
    let damage_head = |image: &mut [u8]| image[3] ^= 1;
    for image in [&labelled, &unlabelled] {
        for damages in [
            &[damage_index as fn(&mut [u8])][..],
            &[damage_roots],
            &[damage_head],
            &[damage_index, damage_roots, damage_head],
        ] {
            let mut damaged = image.clone();
            for damage in damages {
                damage(&mut damaged);
            }
            let (ran, names) = salvaged(&place, &damaged);
            let ran = ran.succeeded();
            assert_eq!(names, "abcd");
            assert!(ran.error.contains("every cell was looked at instead"));
        }
    }
}

#[test]
fn lost_index_and_elements() {
    let place = recorded("salvage-both");
    let labelled = place.read("a.adr");
    let mut unlabelled = labelled.clone();
    remove_labels(&mut unlabelled);
    for (image, element, told) in [
        (
            &labelled,
            6,
            "job 2, 'b': not restored: element 6 is missing",
        ),
        (
            &unlabelled,
            6,
            "job 2, 'b': not restored: its checksum does not hold",
        ),
        (
            &unlabelled,
            4,
            "job 2: not restored: its first block is not what was recorded",
        ),
        (
            &unlabelled,
            8,
            "job 2, 'b': not restored: its last block is missing",
        ),
    ] {
        let mut damaged = image.clone();
        lose(&mut damaged, element);
        damage_index(&mut damaged);
        let (ran, names) = salvaged(&place, &damaged);
        let ran = ran.failed();
        assert_eq!(names, "acd");
        assert!(ran.error.contains(told), "{}", ran.error);
    }
    // A count of filemarks that no recording reaches.
    let mut damaged = unlabelled.clone();
    let start = frame_at(&damaged, FIRST + 6);
    damaged[start + FILEMARKS] ^= 1;
    let end = frame_at(&damaged, FIRST + 18);
    damaged[end..end + CELL].fill(0);
    damage_index(&mut damaged);
    let (ran, names) = salvaged(&place, &damaged);
    let ran = ran.failed();
    assert_eq!(names, "acd");
    assert!(ran.error.contains("element 6 is missing"), "{}", ran.error);
    assert!(!ran.error.contains("nothing of them"), "{}", ran.error);
    // A label that is damaged alone costs nothing.
    let mut damaged = labelled.clone();
    let start = frame_at(&damaged, FIRST + 6);
    damaged[start + FRAME + 9] ^= 1;
    damage_index(&mut damaged);
    let (ran, names) = salvaged(&place, &damaged);
    ran.succeeded();
    assert_eq!(names, "abcd");
}

#[test]
fn truncated() {
    let place = recorded("salvage-truncated");
    let image = place.read("a.adr");
    let behind = |element| frame_at(&image, FIRST + element) + CELL;
    for (length, expected) in [
        (behind(18), "abcd"),
        (behind(16), "abcd"),
        // The frame without its label.
        (behind(16) - CELL + FRAME, "abcd"),
        (behind(16) - CELL + FRAME - 1, "abc"),
        (behind(11), "abc"),
        (behind(10), "ab"),
        (behind(7), "a"),
        (behind(1), ""),
    ] {
        let (ran, names) = salvaged(&place, &image[..length]);
        assert_eq!(names, expected, "{length}: {}", ran.error);
        if length < behind(18) {
            let ran = ran.failed();
            assert!(
                ran.error.contains("the end of data is missing"),
                "{}",
                ran.error
            );
        }
    }
    for length in [0, 7, PAGE, CELLS, CELLS + 1] {
        let (ran, names) = salvaged(&place, &image[..length]);
        assert!(ran.failed().error.contains("no frame of a recording"));
        assert_eq!(names, "");
    }
    let (ran, _) = salvaged(&place, &bytes(300_000, 1));
    assert!(ran.failed().error.contains("no frame of a recording"));
}

/// Free cells hold frames of an earlier recording and of one that did not
/// come to its end.
#[test]
fn other_recordings() {
    let place = recorded("salvage-others");
    place.write("old", &bytes(900_000, 9));
    for files in [&["old"][..], &["a", "b", "c", "d"]] {
        let words = [&["record", "--overwrite", "a.adr"], files].concat();
        place.adr(&words).succeeded();
    }
    let whole = place.read("a.adr");
    unfinished(&place, &["-"]);
    let image = place.read("a.adr");
    assert!(image.len() > whole.len());
    for damages in [&[damage_index as fn(&mut [u8])][..], &[]] {
        let mut damaged = image.clone();
        for damage in damages {
            damage(&mut damaged);
        }
        let (ran, names) = salvaged(&place, &damaged);
        assert_eq!(names, "abcd", "{}", ran.error);
        ran.succeeded();
    }
    // Without a root, frames of a later recording may have been in force.
    let mut damaged = image.clone();
    damage_roots(&mut damaged);
    let (ran, names) = salvaged(&place, &damaged);
    assert_eq!(names, "abcd");
    assert!(ran.failed().error.contains("frames of a later recording"));
}

/// Frames that an unfinished recording left behind those of the next one,
/// which has the same write pass.
#[test]
fn unfinished_recording_before() {
    let place = recorded("salvage-unfinished");
    place.write("e", &bytes(300_000, 5));
    unfinished(&place, &["a", "b", "c", "d", "e", "-"]);
    let left = place.read("a.adr");
    place
        .adr(&["record", "--overwrite", "a.adr", "a", "b", "c", "d"])
        .succeeded();
    let mut image = place.read("a.adr");
    let used = number(&image, newer_root(&image) + 16);
    image.truncate(CELLS + used * CELL);
    image.extend_from_slice(&left[image.len()..]);
    damage_roots(&mut image);
    let mut endless = image.clone();
    lose(&mut endless, 18);
    let (ran, names) = salvaged(&place, &endless);
    assert_eq!(names, "abcd", "{}", ran.error);
    assert!(!ran.error.contains("job 5"), "{}", ran.error);
    remove_labels(&mut image);
    let (ran, names) = salvaged(&place, &image);
    assert_eq!(names, "abcd", "{}", ran.error);
    ran.succeeded();
}

/// Neither time nor memory grows with the length of a file whose root tells
/// how much of it is used.
#[test]
fn long_files() {
    let place = recorded("salvage-long");
    let mut image = place.read("a.adr");
    damage_index(&mut image);
    place.write("a.adr", &image);
    place.shell("truncate -s 8T a.adr").succeeded();
    place
        .shell("ulimit -v 200000; $ADR salvage a.adr --into out")
        .succeeded();
    assert_eq!(place.names("out"), ["a", "b", "c", "d"]);
}

/// Kills a recording that is fed more than the others take.
fn unfinished(place: &Place, files: &[&str]) {
    let mut child = place
        .command(&[&["record", "--overwrite", "a.adr"], files].concat())
        .stdin(Stdio::piped())
        .spawn()
        .expect("the tool");
    let input = child.stdin.as_mut().expect("a pipe");
    input.write_all(&bytes(6_000_000, 8)).expect("it reads");
    child.kill().expect("it runs");
    child.wait().expect("it ended");
}

/// Two frames of one number: the one at the higher address serves as well.
#[test]
fn frames_written_twice() {
    let place = recorded("salvage-twice");
    place.write("e", &bytes(1_500_000, 5));
    let mut tried = 0;
    let mut seeds = 1..40;
    while let Some(seed) = seeds.next().filter(|_| tried < 3) {
        let seed = format!("--faults={seed}");
        let words = [
            "record",
            "--overwrite",
            "a.adr",
            "a",
            "b",
            "c",
            "d",
            "e",
            &seed,
        ];
        place.adr(&words).succeeded();
        let image = place.read("a.adr");
        let (ran, names) = salvaged(&place, &image);
        ran.succeeded();
        assert_eq!(names, "abcde");
        let Some((lower, higher)) = same_number(&image) else {
            continue;
        };
        tried += 1;
        for start in [lower, higher] {
            let mut damaged = image.clone();
            damaged[start + 1_000] ^= 1;
            let (ran, names) = salvaged(&place, &damaged);
            ran.succeeded();
            assert_eq!(names, "abcde");
            // Nothing but a job's checksum tells which is the one.
            remove_labels(&mut damaged);
            damage_index(&mut damaged);
            let (_, names) = salvaged(&place, &damaged);
            assert_eq!(names, "abcde");
        }
        place.write("a.adr", &image);
    }
    assert_eq!(tried, 3);
}

/// Where two data frames of one recording start that bear the same number,
/// the one at the lower address first.
fn same_number(image: &[u8]) -> Option<(usize, usize)> {
    let reads = |entry: &usize| image[entry + 7] & 1 == 1;
    let frames = entries(image).into_iter().filter(reads);
    let frames = frames.map(|entry| CELLS + number(image, entry + 8) * CELL);
    let frames: Vec<usize> = frames.collect();
    let told = |start: usize| &image[start + TYPE..start + NUMBER + 4];
    let is_data = |start: &&usize| told(**start).starts_with(&[0x80]);
    frames.iter().filter(is_data).find_map(|lower| {
        let behind = frames.iter().skip_while(|start| *start != lower).skip(1);
        let mut alike = behind.filter(|higher| told(*lower) == told(**higher));
        Some((*lower, *alike.next()?))
    })
}

#[test]
fn names() {
    let place = recorded("salvage-names");
    let image = place.read("a.adr");
    // What exists is left alone, and the others are restored.
    place.write("out/b", b"mine");
    place.shell("ln -s ../c out/d").succeeded();
    let ran = place.adr(&SALVAGE).failed();
    for name in ["b", "d"] {
        let told = format!("'{name}': not restored: out/{name}: exists; use '--overwrite'");
        assert!(ran.error.contains(&told), "{}", ran.error);
    }
    assert_eq!(place.names("out"), ["a", "b", "c", "d"]);
    assert_eq!(place.read("out/b"), b"mine");
    place
        .adr(&[&SALVAGE[..], &["--overwrite"]].concat())
        .succeeded();
    for (name, _) in JOBS {
        assert_eq!(place.read(&format!("out/{name}")), place.read(name));
    }
    assert_eq!(place.read("c"), b"", "a link was followed");
    // A name that the tool would not record.
    let mut starts = cells_with(&image, b"ADRJOB ").into_iter();
    let start = starts.find(|start| image[start + 26] == b'b');
    let start = start.expect("the job of 'b'");
    let mut altered = image.clone();
    altered[start + 26] = b'/';
    seal_description(&mut altered, start);
    let (ran, names) = salvaged(&place, &altered);
    let ran = ran.failed();
    assert!(ran.error.contains("would lead out of the directory"));
    assert_eq!(names, "acd");
    // A job of another program.
    let mut altered = image.clone();
    let end = frame_at(&altered, FIRST + 8);
    for start in [start, end] {
        altered[start] = b'a';
        seal_description(&mut altered, start);
    }
    let (ran, names) = salvaged(&place, &altered);
    let ran = ran.failed();
    assert!(ran
        .error
        .contains("job 2: not restored: it was not recorded by"));
    assert_eq!(names, "acd");
}

#[test]
fn jobs_of_one_name() {
    let place = recorded("salvage-one-name");
    place.directory("other");
    place.write("other/b", b"another");
    place
        .adr(&["record", "--overwrite", "a.adr", "b", "a", "other/b"])
        .succeeded();
    let ran = place.adr(&SALVAGE).succeeded();
    assert!(ran
        .error
        .contains("job 3, 'b': an earlier job has that name"));
    assert_eq!(place.names("out"), ["a", "b", "b.job-3"]);
    assert_eq!(place.read("out/b"), place.read("b"));
    assert_eq!(place.read("out/b.job-3"), b"another");
}

#[test]
fn command_lines() {
    let place = recorded("salvage-lines");
    let help = place.adr(&["salvage", "--help"]).succeeded();
    assert!(help.output_text().starts_with("usage: adr salvage"));
    assert!(help.output_text().contains("outside what is proved"));
    assert!(help.output_text().lines().all(|line| line.len() <= 80));
    let whole = place.adr(&["--help"]).succeeded();
    assert!(whole.output_text().contains("\n  salvage "));
    for words in [
        &["salvage", "a.adr"][..],
        &["salvage", "--into", "out"],
        &["salvage", "a.adr", "b.adr", "--into", "out"],
        &["salvage", "a.adr", "--into", "out", "--faults", "1"],
    ] {
        let ran = place.adr(words);
        assert_eq!(ran.status, Some(2), "{words:?}: {}", ran.error);
    }
    for (image, directory) in [("a.adr", "missing"), ("a.adr", "a"), ("missing", "out")] {
        place.adr(&["salvage", image, "--into", directory]).failed();
    }
    assert!(place.names("out").is_empty());
}

/// Whatever is damaged: no job comes back other than as it was recorded, and
/// none is missing without a word.
#[test]
fn random_damage() {
    let place = recorded("salvage-random");
    let labelled = place.read("a.adr");
    let mut unlabelled = labelled.clone();
    remove_labels(&mut unlabelled);
    let mut random = Random::new(15);
    let mut whole = 0;
    for _ in 0..200 {
        let mut image = match random.chance(700) {
            true => labelled.clone(),
            false => unlabelled.clone(),
        };
        for _ in 0..random.between(1, 6) {
            damage(&mut image, &mut random);
        }
        let (ran, names) = salvaged(&place, &image);
        match ran.status {
            Some(0) => assert_eq!(names, "abcd", "{}", ran.error),
            _ => drop(ran.failed()),
        }
        whole += u32::from(names == "abcd");
    }
    assert!((20..180).contains(&whole), "{whole}");
}

/// Damages an image somewhere.
fn damage(image: &mut Vec<u8>, random: &mut Random) {
    let length = u32::try_from(image.len()).expect("a short image");
    let at = random.below(length) as usize;
    let cells = length.saturating_sub(CELLS as u32) / CELL as u32;
    let mut cell = || CELLS + random.below(cells) as usize * CELL;
    let (one, other) = (cell(), cell());
    let end = (at + random.below(60_000) as usize).min(image.len());
    match random.below(8) {
        0 => image[at..end].fill(0),
        1 => image.copy_within(one..one + CELL, other),
        2 => damage_roots(image),
        3 => image[random.between(0, 3 * PAGE as u32) as usize] ^= 1,
        4 if random.chance(300) => image.truncate(at.max(CELLS + CELL)),
        5 => image[one + 32_768 + random.below(512) as usize] ^= 1,
        _ => image[at] ^= 1 << random.below(8),
    }
}
