//! The tool, run as people run it.

mod place;

use std::fs;
use std::io::Write;
use std::os::unix::fs::PermissionsExt;
use std::process::{Command, Stdio};
use std::time::{Duration, UNIX_EPOCH};

use place::{bytes, Place};

/// One byte more than a job's name may have.
const LONG: &str = match std::str::from_utf8(&[b'n'; 256]) {
    Ok(name) => name,
    Err(_) => "",
};

/// Seeds of faults that are tried; a build without optimisation is slow.
const SEEDS: usize = if cfg!(debug_assertions) { 12 } else { 24 };

#[test]
fn help_and_version() {
    let place = Place::new("help");
    let whole = place.adr(&["--help"]).succeeded();
    assert!(whole.output_text().starts_with("usage: adr COMMAND"));
    for command in [
        "format", "record", "list", "restore", "check", "map", "demo", "sheet", "dump",
    ] {
        assert!(whole.output_text().contains(&format!("\n  {command} ")));
        for words in [[command, "--help"], ["help", command]] {
            let ran = place.adr(&words).succeeded();
            let usage = format!("usage: adr {command}");
            assert!(ran.output_text().starts_with(&usage), "{words:?}");
            assert!(ran.output_text().lines().all(|line| line.len() <= 80));
        }
    }
    let version = place.adr(&["--version"]).succeeded();
    let expected = format!("adr {}\n", env!("CARGO_PKG_VERSION"));
    assert_eq!(version.output_text(), expected);
}

#[test]
fn wrong_command_lines() {
    let place = Place::new("usage");
    place.write("file", b"x");
    for words in [
        &[][..],
        &["rewind"],
        &["--unknown"],
        &["help", "rewind"],
        &["format"],
        &["format", "-"],
        &["format", "a.adr", "b.adr"],
        &["format", "a.adr", "--segtrk", "many"],
        &["format", "a.adr", "--segtrk"],
        &["format", "a.adr", "--segtrk", "3000", "--trks", "1"],
        &["format", "a.adr", "--segtrk", "65536", "--trks", "65536"],
        &["format", "a.adr", "--centre", "--segtrk", "99"],
        &["format", "a.adr", "--trks", "99999999999999999999"],
        &["record", "a.adr"],
        &["record", "a.adr", "-", "-"],
        &["record", "a.adr", "file", "--name", "x"],
        &["record", "a.adr", "file", "--faults", "x"],
        &["record", "a.adr", "file", "--faults", "1", "--faults", "2"],
        &["record", "a.adr", "-", "--name", ""],
        &["record", "a.adr", "-", "--name", ".."],
        &["record", "a.adr", "-", "--name", "a/b"],
        &["record", "a.adr", "-", "--name", LONG],
        &["list"],
        &["list", "a.adr", "b.adr"],
        &["list", "a.adr", "--into", "x"],
        &["restore", "a.adr"],
        &["restore", "a.adr", "0"],
        &["restore", "a.adr", "1", "2", "-o", "x"],
        &["restore", "a.adr", "1", "--into", "x", "-o", "y"],
        &["restore", "a.adr", "1", "--output", "x", "-o", "y"],
        &["restore", "a.adr", "1", "-o", "x", "-o", "y"],
        &["check"],
        &["map"],
        &["sheet"],
        &["sheet", "a.adr", "b.adr"],
        &["sheet", "a.adr", "--output", "x"],
        &["dump"],
        &["dump", "a.adr", "1"],
        &["dump", "a.adr", "--faults", "x"],
        &["demo", "a.adr"],
        &["demo", "--keep=yes"],
    ] {
        let ran = place.adr(words);
        assert_eq!(ran.status, Some(2), "{words:?}: {}", ran.error);
        assert!(ran.error.starts_with("adr: "), "{words:?}: {}", ran.error);
        assert!(ran.error.contains("--help'"), "{words:?}: {}", ran.error);
        assert!(ran.output.is_empty());
    }
    assert!(!place.path("a.adr").exists());
    place.adr(&["format", "a.adr"]).succeeded();
    for option in [
        "--depth=0",
        "--depth=256",
        "--window=0",
        "--window=65",
        "--window=320",
    ] {
        let ran = place.adr(&["record", "a.adr", "file", option]);
        assert_eq!(ran.status, Some(2), "{option}: {}", ran.error);
    }
}

#[test]
fn every_command_on_a_cartridge() {
    let place = Place::new("whole");
    let files = [
        ("empty", 0),
        ("one", 1),
        ("block", 32_768),
        ("more", 32_769),
        ("much.tar", 1_000_000),
    ];
    for (seed, (name, length)) in files.into_iter().enumerate() {
        place.write(name, &bytes(length, seed as u64));
    }
    place.adr(&["format", "a.adr"]).succeeded();
    assert_eq!(place.adr(&["list", "a.adr"]).succeeded().output, b"");
    place.adr(&["check", "a.adr"]).succeeded();
    let map = place.adr(&["map", "a.adr"]).succeeded();
    assert!(map.output_text().contains("holds no recording"));

    let names = files.map(|(name, _)| name);
    let words = [&["record", "a.adr"][..], &names].concat();
    let recorded = place.adr(&words).succeeded();
    let told = "adr: a.adr: capacity at most 15.1 GB: 1.6 MB used, at most 15.1 GB free\n\
                adr: a.adr: 51 frames sent of at most 51, \
                for 50 elements and the end of data with 0 write errors\n\
                adr: a.adr: 20 header frames sent of at most 20, with 0 write errors\n";
    assert_eq!(
        (recorded.output_text(), recorded.error.as_str()),
        ("", told)
    );

    let list = place.adr(&["list", "a.adr"]).succeeded();
    assert_eq!(list.output_text().lines().count(), files.len());
    for (line, (name, _)) in list.output_text().lines().zip(files) {
        assert!(line.ends_with(name), "{line}");
    }
    assert!(list.output_text().contains("      1,000,000  "));

    fs::create_dir(place.path("out")).expect("a directory");
    place
        .adr(&["restore", "a.adr", "--into", "out"])
        .succeeded();
    for (number, (name, _)) in files.into_iter().enumerate() {
        let recorded = place.read(name);
        assert_eq!(place.read(&format!("out/{name}")), recorded);
        let number = (number + 1).to_string();
        let ran = place.adr(&["restore", "a.adr", &number]).succeeded();
        assert_eq!(ran.output, recorded);
        assert_eq!(ran.error, "");
    }
    let check = place.adr(&["check", "a.adr"]).succeeded();
    assert!(check.output_text().contains("5 jobs, 1.0 MB"));

    let map = place.adr(&["map", "a.adr"]).succeeded();
    assert!(map.output_text().lines().all(|line| line.len() <= 80));
    assert!(map.output_text().contains("DDDDDHHHHH##|###|###|####|"));
    assert!(map.output_text().contains("|E..."));
    place.adr(&["map", "a.adr", "--svg", "a.svg"]).succeeded();
    let picture = place.read("a.svg");
    assert!(picture.starts_with(b"<svg ") && picture.ends_with(b"</svg>\n"));
    let piped = place.adr(&["map", "a.adr", "--svg", "-"]).succeeded();
    assert_eq!(piped.output, picture);
}

#[test]
fn checksums_are_those_of_sha256sum() {
    let place = Place::new("checksums");
    place.write("parts", &bytes(100_000, 9));
    place.adr(&["format", "a.adr"]).succeeded();
    place.adr(&["record", "a.adr", "parts"]).succeeded();
    let list = place.adr(&["list", "--checksums", "a.adr"]).succeeded();
    let Ok(known) = Command::new("sha256sum").arg(place.path("parts")).output() else {
        return;
    };
    let known = String::from_utf8_lossy(&known.stdout).into_owned();
    let known = known.split_whitespace().next().unwrap_or("none");
    assert!(list.output_text().contains(known));
}

#[test]
fn a_pipe_with_tar() {
    let place = Place::new("tar");
    fs::create_dir_all(place.path("parts/alto")).expect("a directory");
    fs::create_dir(place.path("out")).expect("a directory");
    place.write("parts/alto/kyrie", &bytes(300_000, 1));
    place.write("parts/score", &bytes(40_000, 2));
    place
        .shell("$ADR format a.adr && tar c parts | $ADR record a.adr - --name parts.tar")
        .succeeded();
    place
        .shell("$ADR restore a.adr 1 | tar x -C out && diff -r parts out/parts")
        .succeeded();
    let list = place.adr(&["list", "a.adr"]).succeeded();
    assert!(list.output_text().ends_with("  parts.tar\n"));
    // Whoever reads the output may go away: no message, but a failure.
    let ran = place
        .shell("{ $ADR restore a.adr 1; echo $? > status; } | head -c 10 | wc -c")
        .succeeded();
    assert_eq!((ran.output_text().trim(), ran.error.as_str()), ("10", ""));
    assert_eq!(place.read("status"), b"1\n");
}

#[test]
fn content_is_not_replaced_unasked() {
    let place = Place::new("overwrite");
    place.write("old", &bytes(500_000, 1));
    place.write("new", &bytes(50_000, 2));
    place.adr(&["format", "a.adr"]).succeeded();
    place.adr(&["record", "a.adr", "old"]).succeeded();
    let before = place.read("a.adr");
    for words in [
        &["record", "a.adr", "new"][..],
        &["format", "a.adr"],
        &["record", "a.adr", "--overwrite", "old", "missing"],
        &["record", "a.adr", "--overwrite", "."],
    ] {
        place.adr(words).failed();
        assert_eq!(place.read("a.adr"), before);
    }
    let refused = place.adr(&["record", "a.adr", "new"]).failed();
    assert!(refused.error.contains("--overwrite"));
    let directory = place.adr(&["record", "a.adr", "--overwrite", "."]).failed();
    assert!(directory.error.contains("tar c"));

    place
        .adr(&["record", "--overwrite", "a.adr", "new"])
        .succeeded();
    let restored = place.adr(&["restore", "a.adr", "1"]).succeeded();
    assert_eq!(restored.output, place.read("new"));
    let map = place.adr(&["map", "a.adr"]).succeeded();
    assert!(map.output_text().contains("E~~~~"));
    let missing = place.adr(&["restore", "a.adr", "2"]).failed();
    assert!(missing.error.contains("no job 2"));

    place.adr(&["format", "--overwrite", "a.adr"]).succeeded();
    assert_eq!(place.adr(&["list", "a.adr"]).succeeded().output, b"");
}

#[test]
fn room_is_used_again() {
    let place = Place::new("room");
    place.write("file", &bytes(1_000_000, 3));
    place.adr(&["format", "a.adr"]).succeeded();
    let mut lengths = Vec::new();
    for _ in 0..6 {
        place
            .adr(&["record", "--overwrite", "a.adr", "file"])
            .succeeded();
        lengths.push(place.read("a.adr").len());
    }
    assert_eq!(lengths[5], lengths[1], "{lengths:?}");
    assert!(lengths[1] <= 2 * lengths[0], "{lengths:?}");
    place.adr(&["check", "a.adr"]).succeeded();
}

#[test]
fn faults() {
    let place = Place::new("faults");
    place.write("one", &bytes(900_000, 1));
    place.write("two", &bytes(400_000, 2));
    place.adr(&["format", "a.adr"]).succeeded();
    let mut bad_spots = 0;
    for seed in 0..SEEDS {
        let seed = seed.to_string();
        let (one, two) = if seed.len() == 1 {
            ("one", "two")
        } else {
            ("two", "one")
        };
        let faults = ["--faults", seed.as_str()];
        let words = [&["record", "--overwrite", "a.adr", one, two][..], &faults].concat();
        place.adr(&words).succeeded();
        for (number, name) in [("1", one), ("2", two)] {
            for faults in [&faults[..], &[]] {
                let words = [&["restore", "a.adr", number][..], faults].concat();
                assert_eq!(place.adr(&words).succeeded().output, place.read(name));
            }
        }
        place.adr(&["check", "a.adr"]).succeeded();
        place
            .adr(&[&["check", "a.adr"][..], &faults].concat())
            .succeeded();
        let map = place.adr(&["map", "a.adr"]).succeeded();
        assert!(!map.output_text().contains("Reading stopped"));
        let (_, count) = map
            .output_text()
            .split_once("x bad spot")
            .expect("a legend");
        let count = count.split_whitespace().next().map(str::parse::<usize>);
        bad_spots += count.expect("a count").expect("a number");
    }
    assert!(bad_spots > SEEDS, "{bad_spots}");
}

#[test]
fn small_buffers_and_small_windows() {
    let place = Place::new("sizes");
    place.write("file", &bytes(300_000, 5));
    place.adr(&["format", "a.adr", "--centre"]).succeeded();
    for (depth, window) in [
        ("1", "1"),
        ("1", "64"),
        ("255", "1"),
        ("255", "64"),
        ("7", "3"),
    ] {
        let sizes = ["--depth", depth, "--window", window, "--faults", "3"];
        let words = [&["record", "--overwrite", "a.adr", "file"][..], &sizes].concat();
        place.adr(&words).succeeded();
        let restored = place.adr(&["restore", "a.adr", "1"]).succeeded();
        assert_eq!(restored.output, place.read("file"));
    }
}

#[test]
fn the_gap_is_crossed_and_the_tape_ends() {
    let place = Place::new("gap");
    place
        .adr(&["format", "a.adr", "--segtrk", "3100", "--trks", "1"])
        .succeeded();
    // 3,000 blocks with those of the job's own; 3,080 user frames.
    place
        .shell("head -c 98000000 /dev/zero | $ADR record a.adr -")
        .succeeded();
    let check = place.adr(&["check", "a.adr"]).succeeded();
    assert!(check.output_text().contains("1 job, 98.0 MB"));
    let map = place.adr(&["map", "a.adr"]).succeeded();
    assert!(map.output_text().lines().all(|line| line.len() <= 80));
    assert!(map
        .output_text()
        .contains("a character stands for 2 frames"));
    let before = fs::metadata(place.path("a.adr")).expect("an image").len();

    let full = place
        .shell("head -c 101000000 /dev/zero | $ADR record --overwrite a.adr -")
        .failed();
    assert!(full.error.contains("the tape is full"), "{}", full.error);
    assert!(full.error.contains("holds what it held before"));
    let after = fs::metadata(place.path("a.adr")).expect("an image").len();
    assert_eq!(before, after);
    let check = place.adr(&["check", "a.adr"]).succeeded();
    assert!(check.output_text().contains("1 job, 98.0 MB"));
}

/// Names of any bytes are restored, and give a terminal no orders.
#[test]
fn names_of_any_bytes() {
    let place = Place::new("names");
    place.directory("out");
    place.adr(&["format", "a.adr"]).succeeded();
    let longest = &LONG[1..];
    for (name, shown) in [
        ("a\\033[2Jb", "a?[2Jb"),
        ("\\377", "\u{FFFD}"),
        (longest, longest),
    ] {
        let line = "$ADR record --overwrite a.adr -";
        place
            .shell(&format!("printf x | {line} --name=\"$(printf '{name}')\""))
            .succeeded();
        let list = place.adr(&["list", "a.adr"]).succeeded();
        assert!(list.output_text().ends_with(&format!("  {shown}\n")));
        let into = ["restore", "--into", "out", "a.adr"];
        place.adr(&into).succeeded();
        let exists = place.adr(&into).failed();
        let told = format!("adr: out/{shown}: exists; use '--overwrite' to replace it\n");
        assert!(exists.error.starts_with(&told), "{}", exists.error);
    }
    assert_eq!(place.names("out").len(), 3);
}

#[test]
fn jobs_with_one_name() {
    let place = Place::new("same");
    for directory in ["p", "q", "out", "two"] {
        place.directory(directory);
    }
    place.write("p/same", b"first");
    place.write("q/same", b"second");
    place.write("other", b"third");
    place.adr(&["format", "a.adr"]).succeeded();
    place
        .adr(&["record", "a.adr", "p/same", "q/same", "other"])
        .succeeded();
    for option in ["--quiet", "--overwrite"] {
        let refused = place.adr(&["restore", "--into", "out", "a.adr", option]);
        let refused = refused.failed();
        let told = "job 2, 'same': job 1 has that name too: restore it by number with '--output";
        assert!(refused.error.contains(told), "{}", refused.error);
        assert_eq!(place.names("out"), ["other", "same"]);
        assert_eq!(place.read("out/same"), b"first");
        fs::remove_file(place.path("out/other")).expect("it");
        if option == "--quiet" {
            fs::remove_file(place.path("out/same")).expect("it");
        }
    }
    place
        .adr(&["restore", "--into", "two", "a.adr", "2"])
        .succeeded();
    assert_eq!(place.read("two/same"), b"second");
}

#[test]
fn restored_files_have_their_time() {
    let place = Place::new("time");
    let time = UNIX_EPOCH + Duration::from_secs(981_173_100);
    place.write("file", b"x");
    let file = fs::File::options()
        .write(true)
        .open(place.path("file"))
        .expect("it");
    file.set_modified(time).expect("its owner");
    place.adr(&["format", "a.adr"]).succeeded();
    place.adr(&["record", "a.adr", "file"]).succeeded();
    place
        .adr(&["restore", "a.adr", "1", "-o", "out"])
        .succeeded();
    let restored = fs::metadata(place.path("out")).expect("it");
    assert_eq!(restored.modified().ok(), Some(time));
}

#[test]
fn missing_directories() {
    let place = Place::new("missing");
    place.write("file", b"x");
    place.adr(&["format", "a.adr"]).succeeded();
    place.adr(&["record", "a.adr", "file"]).succeeded();
    let into = place.adr(&["restore", "--into", "none", "a.adr"]).failed();
    let told = "adr: none: no such directory; make it with 'mkdir none'\n";
    assert_eq!(into.error, told);
    let into = place.adr(&["restore", "--into", "file", "a.adr"]).failed();
    assert_eq!(into.error, "adr: file: not a directory\n");
    let output = place.adr(&["restore", "a.adr", "1", "-o", "none/a"]);
    let told = "adr: none/a: No such file or directory\n";
    assert_eq!(output.failed().error, told);
}

#[test]
fn replaced_images_keep_their_mode() {
    let place = Place::new("mode");
    for (name, option) in [("empty", "--centre"), ("image", "--overwrite")] {
        let path = place.path(name);
        place.write(name, b"");
        if name == "image" {
            place.adr(&["format", name]).succeeded();
        }
        fs::set_permissions(&path, fs::Permissions::from_mode(0o620)).expect("its owner");
        place.adr(&["format", name, option]).succeeded();
        let mode = fs::metadata(&path).expect("it").permissions().mode();
        assert_eq!(mode & 0o777, 0o620, "{name}");
        place.adr(&["check", name]).succeeded();
    }
    // A link to nothing is not replaced, and what it leads to is not made.
    std::os::unix::fs::symlink("nothing", place.path("link")).expect("a link");
    place.adr(&["format", "link"]).failed();
    assert_eq!(place.names("."), ["empty", "image", "link"]);
}

#[test]
fn files_are_not_replaced_unasked() {
    let place = Place::new("files");
    fs::create_dir(place.path("out")).expect("a directory");
    place.write("parts", b"new");
    place.write("outside", b"old");
    std::os::unix::fs::symlink("../outside", place.path("out/parts")).expect("a link");
    place.adr(&["format", "a.adr"]).succeeded();
    place.adr(&["record", "a.adr", "parts"]).succeeded();
    place.adr(&["restore", "--into", "out", "a.adr"]).failed();
    place
        .adr(&["restore", "a.adr", "1", "-o", "outside"])
        .failed();
    assert_eq!(place.read("outside"), b"old");
    // The link is replaced, not followed.
    place
        .adr(&["restore", "--into", "out", "--overwrite", "a.adr"])
        .succeeded();
    assert_eq!(place.read("outside"), b"old");
    assert_eq!(place.read("out/parts"), b"new");
    place
        .adr(&["restore", "a.adr", "1", "-o", "outside", "--overwrite"])
        .succeeded();
    assert_eq!(place.read("outside"), b"new");
    let null = place.adr(&["restore", "a.adr", "1", "-o", "/dev/null"]);
    null.succeeded();
    let full = place.adr(&["restore", "a.adr", "1", "-o", "/dev/full"]);
    full.failed();
    let output = place.shell("$ADR list a.adr > /dev/full").failed();
    assert!(output.error.contains("standard output"));
}

#[test]
fn the_image_is_nothing_else_too() {
    let place = Place::new("itself");
    place.adr(&["format", "a.adr"]).succeeded();
    place
        .shell("printf x | $ADR record a.adr - --name a.adr")
        .succeeded();
    let image = place.read("a.adr");
    for words in [
        &["record", "--overwrite", "a.adr", "a.adr"][..],
        &["restore", "a.adr", "1", "--overwrite", "-o", "a.adr"],
        &["restore", "a.adr", "--overwrite", "--into", "."],
        &["map", "a.adr", "--svg", "./a.adr"],
    ] {
        let refused = place.adr(words).failed();
        assert!(refused.error.contains("itself"), "{}", refused.error);
        assert_eq!(place.read("a.adr"), image);
    }
}

#[test]
fn named_pipes() {
    let place = Place::new("fifo");
    place.write("file", &bytes(100_000, 4));
    place
        .shell("mkfifo pipe && $ADR format a.adr && { cat file > pipe & $ADR record a.adr pipe; }")
        .succeeded();
    let restored = place.adr(&["restore", "a.adr", "1"]).succeeded();
    assert_eq!(restored.output, place.read("file"));
}

#[test]
fn demo() {
    let place = Place::new("demo");
    let first = place.shell("TMPDIR=. $ADR demo --svg demo.svg").succeeded();
    let again = place.shell("TMPDIR=. $ADR demo").succeeded();
    assert_eq!(first.output_text(), again.output_text());
    assert!(first.output_text().contains("write error at"));
    assert!(first.output_text().contains("all as recorded"));
    // A file of 1,500,000 bytes behind one of 700,000.
    let line = "\n    2         25         48\n";
    assert!(first.output_text().contains(line));
    assert!(first.output_text().lines().all(|line| line.len() <= 100));
    let shown = concat!(env!("CARGO_MANIFEST_DIR"), "/../../docs/demo-map.svg");
    let shown = fs::read(shown).expect("the picture in the documents");
    let made = "run 'sh scripts/demo --overwrite --svg docs/demo-map.svg'";
    assert!(place.read("demo.svg") == shown, "{made}");
    let piped = place.shell("TMPDIR=. $ADR demo --svg -").succeeded();
    let both = [first.output.as_slice(), &shown].concat();
    assert!(piped.output == both, "the text, then the picture");
    assert_eq!(place.names("."), ["demo.svg"], "the picture alone");
    for seed in 0..SEEDS {
        place
            .shell(&format!("TMPDIR=. $ADR demo --faults {seed}"))
            .succeeded();
    }
    let kept = place.shell("TMPDIR=. $ADR demo --keep").succeeded();
    let image = kept.output_text().lines().last().unwrap_or("").to_string();
    let image = image.rsplit(' ').next().unwrap_or("").to_string();
    place.adr(&["check", &image]).succeeded();
}

#[test]
fn two_at_once() {
    let place = Place::new("lock");
    place.write("file", b"x");
    place.adr(&["format", "a.adr"]).succeeded();
    let mut first = place
        .command(&["record", "a.adr", "-"])
        .stdin(Stdio::piped())
        .spawn()
        .expect("the tool");
    // More than a pipe holds: the tool reads, so it has the image.
    let input = first.stdin.as_mut().expect("a pipe");
    input.write_all(&bytes(1_000_000, 1)).expect("it reads");
    for words in [
        &["format", "--overwrite", "a.adr"][..],
        &["record", "--overwrite", "a.adr", "file"],
        &["list", "a.adr"],
    ] {
        let refused = place.adr(words).failed();
        assert!(refused.error.contains("in use"), "{}", refused.error);
    }
    drop(first.stdin.take());
    assert!(first.wait().is_ok_and(|status| status.success()));
    assert_eq!(
        place
            .adr(&["list", "a.adr"])
            .succeeded()
            .output_text()
            .lines()
            .count(),
        1
    );
}
