//! Recordings whose files or whose image change meanwhile, that there is no
//! room for, or that have nothing to record.

mod place;

use std::fs::{self, File, FileTimes};
use std::os::unix::fs::{MetadataExt, PermissionsExt};
use std::process::{Child, Stdio};
use std::time::{Duration, UNIX_EPOCH};

use place::image::{cells_with, seal_description, set_number, DESCRIPTION};
use place::{bytes, feed, wait_beside, Place, Ran};

/// Where a job's first block tells the length, and what the first version of
/// it did not tell.
const LENGTH: usize = 16;
const NEW_FIELDS: std::ops::Range<usize> = 288..294;

fn recorded(name: &str) -> Place {
    Place::recorded(name, 200_000, 300_000)
}

/// A recording over the image that was given some bytes, more than a pipe
/// holds, and waits for others.
fn waiting(place: &Place) -> Child {
    let words = ["record", "--overwrite", "a.adr", "-"];
    let mut command = place.command(&words);
    command.stdin(Stdio::piped()).stderr(Stdio::piped());
    let mut child = command.spawn().expect("the tool");
    feed(&mut child, 1_000_000);
    child
}

/// What a child comes to when its input ends.
fn ended(mut child: Child) -> Ran {
    drop(child.stdin.take());
    Ran::of(child.wait_with_output().expect("it ended"))
}

fn length(place: &Place, name: &str) -> u64 {
    fs::metadata(place.path(name)).expect("a file").len()
}

/// Changes the first block of the only job.
fn with_description(image: &[u8], change: impl FnOnce(&mut [u8])) -> Vec<u8> {
    let mut image = image.to_vec();
    let start = cells_with(&image, DESCRIPTION)[0];
    change(&mut image[start..]);
    seal_description(&mut image, start);
    image
}

#[test]
fn a_file_that_shrinks() {
    let place = Place::new("shrinks");
    // So long that it is not read before it shrinks.
    let long = 8_000_000_000;
    let file = File::create(place.path("shrinking")).expect("room for a file");
    file.set_len(long).expect("a file system with holes");
    place.write("other", &bytes(100_000, 1));
    place.adr(&["format", "a.adr"]).succeeded();
    let words = ["record", "a.adr", "shrinking", "other"];
    let mut command = place.command(&words);
    let mut child = command.stderr(Stdio::piped()).spawn().expect("the tool");
    wait_beside(&mut child, || length(&place, "a.adr") >= 1_000_000);
    file.set_len(0).expect("less room");
    let record = ended(child).failed();
    let told = "adr: shrinking: shrank from 8,000,000,000 to ";
    assert!(record.error.contains(told), "{}", record.error);
    assert!(record.error.contains("recorded and in force, but 1 file"));
    // The other job is whole.
    let restored = place.adr(&["restore", "a.adr", "2"]).succeeded();
    assert_eq!(restored.output, place.read("other"));
    let list = place.adr(&["list", "a.adr"]).succeeded();
    let marked = "  shrinking (shrank from 8,000,000,000 to ";
    assert!(list.output_text().contains(marked));
    assert_eq!(list.output_text().matches("while it was").count(), 1);
}

/// A job whose first block tells another length than its last.
#[test]
fn torn_jobs() {
    let place = recorded("torn");
    place.directory("out");
    let image = place.read("a.adr");
    for (before, how) in [
        (200_001, "shrank from 200,001 to 200,000 bytes"),
        (199_999, "grew from 199,999 to 200,000 bytes"),
    ] {
        let torn = with_description(&image, |block| set_number(block, LENGTH, before));
        place.write("a.adr", &torn);
        let list = place.adr(&["list", "a.adr"]).succeeded();
        let marked = format!("  file ({how} while it was recorded)\n");
        assert!(list.output_text().ends_with(&marked));
        let told = format!("adr: a.adr: job 1 is torn: its file {how} while it was recorded\n");
        let check = place.adr(&["check", "a.adr"]).failed();
        assert!(check.error.starts_with(&told), "{}", check.error);
        // What was recorded is restored all the same.
        for words in [
            &["restore", "a.adr", "1"][..],
            &["restore", "a.adr", "1", "-o", "out/file", "--overwrite"],
            &["restore", "a.adr", "--into", "out", "--overwrite"],
        ] {
            let restored = place.adr(words).failed();
            assert!(restored.error.starts_with(&told), "{}", restored.error);
            if words.len() == 3 {
                assert_eq!(restored.output, place.read("file"));
            } else {
                assert_eq!(place.read("out/file"), place.read("file"));
                fs::remove_file(place.path("out/file")).expect("it");
            }
        }
    }
    // A pipe has no length before its end.
    let piped = with_description(&image, |block| set_number(block, LENGTH, u64::MAX));
    place.write("a.adr", &piped);
    place.adr(&["check", "a.adr"]).succeeded();
}

#[test]
fn modes_and_times() {
    let place = Place::new("modes");
    place.adr(&["format", "a.adr"]).succeeded();
    place.write("file", b"x");
    let before_1970 = UNIX_EPOCH - Duration::new(304_530_710, 876_543_211);
    let after_1970 = UNIX_EPOCH + Duration::new(981_173_100, 123_456_789);
    for (mode, umask, restored_mode, time, date) in [
        (0o600, "022", 0o600, before_1970, "1960-05-08 08:08"),
        (0o640, "022", 0o640, after_1970, "2001-02-03 04:05"),
        (0o666, "077", 0o600, before_1970, "1960-05-08 08:08"),
        (0o400, "000", 0o400, after_1970, "2001-02-03 04:05"),
        (0o7755, "002", 0o755, after_1970, "2001-02-03 04:05"),
    ] {
        let file = File::options().append(true).open(place.path("file"));
        let file = file.expect("its owner");
        let times = FileTimes::new().set_modified(time);
        file.set_times(times).expect("its owner");
        let permissions = fs::Permissions::from_mode(mode);
        file.set_permissions(permissions).expect("its owner");
        let record = ["record", "--overwrite", "a.adr", "file"];
        place.adr(&record).succeeded();
        let list = place.adr(&["list", "a.adr"]).succeeded();
        let row = format!("  {date}  file\n");
        assert!(list.output_text().ends_with(&row));
        place
            .shell(&format!("umask {umask}; $ADR restore a.adr 1 -o out"))
            .succeeded();
        let out = fs::metadata(place.path("out")).expect("it");
        let mode_now = out.permissions().mode() & 0o7777;
        assert_eq!(mode_now, restored_mode, "{mode:o} under {umask}");
        assert_eq!(out.modified().ok(), Some(time));
        fs::remove_file(place.path("out")).expect("it");
        let permissions = fs::Permissions::from_mode(0o600);
        file.set_permissions(permissions).expect("its owner");
    }
}

/// Jobs as the tool recorded them that kept no mode, and those of a pipe.
#[test]
fn jobs_without_a_mode() {
    let place = recorded("no-mode");
    let first_version = with_description(&place.read("a.adr"), |block| {
        block[7] = b'1';
        block[NEW_FIELDS].fill(0);
    });
    place.write("a.adr", &first_version);
    place.adr(&["format", "b.adr"]).succeeded();
    place.shell("$ADR record b.adr - < file").succeeded();
    for image in ["a.adr", "b.adr"] {
        place.adr(&["check", image]).succeeded();
        place
            .shell(&format!("umask 027; $ADR restore {image} 1 -o out"))
            .succeeded();
        assert_eq!(place.read("out"), place.read("file"));
        let out = fs::metadata(place.path("out")).expect("it");
        assert_eq!(out.permissions().mode() & 0o7777, 0o640, "{image}");
        if image == "a.adr" {
            let file = fs::metadata(place.path("file")).expect("it");
            assert_eq!(out.mtime(), file.mtime());
        }
        fs::remove_file(place.path("out")).expect("it");
    }
}

#[test]
fn nothing_to_read() {
    let place = recorded("empty");
    let image = place.read("a.adr");
    for line in [
        "$ADR record --overwrite a.adr - < /dev/null",
        "$ADR record --overwrite a.adr - <&-",
        "false | $ADR record --overwrite a.adr -",
        "$ADR record --overwrite a.adr /dev/null",
        "$ADR record --overwrite a.adr new - < /dev/null",
    ] {
        let refused = place.shell(line).failed();
        assert!(refused.error.contains("there is nothing to read"));
        assert!(refused.error.contains("'--allow-empty'"));
        assert!(refused.error.contains("holds what it held before"));
        assert!(place.read("a.adr") == image, "{line}");
    }
    place.adr(&["format", "b.adr"]).succeeded();
    let empty = place.read("b.adr");
    place.shell("$ADR record b.adr - <&-").failed();
    assert!(place.read("b.adr") == empty);
    // A file may be empty, and a stream if that is asked for.
    place.write("nothing", b"");
    place
        .shell("$ADR record --overwrite --allow-empty a.adr - nothing <&-")
        .succeeded();
    let check = place.adr(&["check", "a.adr"]).succeeded();
    assert!(check.output_text().contains("2 jobs, 0 bytes"));
}

#[test]
fn images_that_lose_their_name() {
    for (what, line) in [
        ("renamed", "mv a.adr kept"),
        ("removed", "ln a.adr kept && rm a.adr"),
        ("replaced", "mv a.adr kept && cp file a.adr"),
        ("formatted", "mv a.adr kept && $ADR format a.adr"),
    ] {
        let place = recorded(what);
        let child = waiting(&place);
        place.shell(line).succeeded();
        let record = ended(child).failed();
        let told = "a.adr: the image was removed, renamed or replaced meanwhile; nothing was";
        assert!(record.error.contains(told), "{}", record.error);
        let restored = place.adr(&["restore", "kept", "1"]).succeeded();
        assert_eq!(restored.output, place.read("file"));
    }
}

#[test]
fn room() {
    let place = Place::new("room-told");
    place
        .adr(&["format", "a.adr", "--segtrk", "3001", "--trks", "1"])
        .succeeded();
    let list = place.adr(&["list", "a.adr"]).succeeded();
    let told = "adr: a.adr: capacity at most 97.6 MB: 0 bytes used, at most 97.6 MB free\n";
    assert_eq!((list.output_text(), list.error.as_str()), ("", told));
    let quiet = place.adr(&["list", "--quiet", "a.adr"]).succeeded();
    assert_eq!(quiet.error, "");
    let image = place.read("a.adr");

    // 2,981 user frames; the end of data and what is around the data of each
    // of two jobs take 7.
    let full = (2_981 - 7) * 32_768;
    for (name, length) in [
        ("small", 1),
        ("rest", full - 32_768),
        ("more", full - 32_767),
    ] {
        let file = File::create(place.path(name)).expect("room for a file");
        file.set_len(length).expect("a file system with holes");
    }
    for words in [
        &["record", "a.adr", "small", "more"][..],
        &["record", "a.adr", "small", "more", "rest"],
    ] {
        let refused = place.adr(words).failed();
        assert!(refused.error.contains("the cartridge has at most 2,980"));
        assert!(refused.error.contains("it would be full in 'more'"));
        assert!(refused.error.contains("nothing was changed"));
        assert!(place.read("a.adr") == image);
    }
    let line = "script -qec \"$ADR record a.adr small rest\" /dev/null";
    let record = place.shell(line).succeeded();
    let told = "adr: a.adr: capacity at most 97.6 MB: 97.6 MB used, at most 0 bytes free";
    assert!(record.output_text().contains(told));
    let list = place.adr(&["list", "a.adr"]).succeeded();
    assert_eq!(list.output_text().lines().count(), 2);
    assert_eq!(list.error.trim_end(), told);
}

#[test]
fn names_that_come_again() {
    let place = recorded("again");
    place.directory("p");
    place.write("p/file", b"another");
    let files = ["file", "new", "p/file"];
    let words = [&["record", "--overwrite", "--quiet", "a.adr"][..], &files].concat();
    let record = place.adr(&words).succeeded();
    let told = "adr: job 3, 'file': job 1 has that name too, \
                and 'restore --into' will pass over job 3\n";
    assert_eq!(record.error, told);
}
