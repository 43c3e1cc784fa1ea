//! Recordings that are interrupted, and the room that an image takes.

mod place;

use std::fs::{self, File};
use std::os::unix::fs::MetadataExt;
use std::os::unix::process::ExitStatusExt;
use std::process::{Child, Command, Output, Stdio};

use place::image::{entries, CELL, CELLS, PAGE, ROOTS};
use place::{feed, wait_beside, Place, ADR};

const SIGNALS: [(&str, i32); 3] = [("HUP", 1), ("INT", 2), ("TERM", 15)];

/// Bytes that a file system may need beside a file's own.
const SLACK: u64 = 65_536;

fn recorded(name: &str) -> Place {
    Place::recorded(name, 2_000_000, 1_900_000)
}

/// Bytes that the image takes on disk.
fn taken(place: &Place) -> u64 {
    let metadata = fs::metadata(place.path("a.adr")).expect("an image");
    metadata.blocks() * 512
}

/// Bytes that the image takes for its frames and an index of one cell.
fn needed(place: &Place) -> u64 {
    let cells = entries(&place.read("a.adr")).len() + 1;
    (CELLS + cells * CELL) as u64
}

#[track_caller]
fn nothing_more_is_taken(place: &Place) {
    let (taken, needed) = (taken(place), needed(place));
    assert!(taken <= needed + SLACK, "{taken} for {needed}");
}

#[track_caller]
fn holds(place: &Place, name: &str) {
    let restored = place.adr(&["restore", "a.adr", "1"]).succeeded();
    assert_eq!(restored.output, place.read(name));
    place.adr(&["check", "a.adr"]).succeeded();
}

/// A recording that waits for more than these bytes.
fn waiting(place: &Place, amount: usize) -> Child {
    let words = ["record", "--overwrite", "a.adr", "-"];
    let mut command = place.command(&words);
    command.stdin(Stdio::piped()).stderr(Stdio::piped());
    let mut child = command.spawn().expect("the tool");
    feed(&mut child, amount);
    child
}

fn send(signal: &str, child: &Child) {
    let id = child.id().to_string();
    let sent = Command::new("kill").args(["-s", signal, &id]).status();
    assert!(sent.is_ok_and(|status| status.success()));
}

#[track_caller]
fn ended_by(number: i32, output: &Output) {
    assert_eq!(output.status.signal(), Some(number));
    let told = "adr: interrupted; nothing was recorded, the cartridge holds what it held before\n";
    assert_eq!(String::from_utf8_lossy(&output.stderr), told);
}

#[test]
fn waiting_for_input() {
    let place = recorded("interrupted");
    // The old content lies behind free cells, which are written to first.
    let words = ["record", "--overwrite", "a.adr", "new"];
    place.adr(&words).succeeded();
    let image = place.read("a.adr");
    for (signal, number) in SIGNALS {
        let mut child = waiting(&place, 5_000_000);
        let input = child.stdin.take();
        send(signal, &child);
        let output = child.wait_with_output().expect("it ended");
        drop(input);
        ended_by(number, &output);
        assert!(place.read("a.adr") == image, "{signal}");
        nothing_more_is_taken(&place);
        holds(&place, "new");
    }
}

#[test]
fn in_a_long_file() {
    let place = recorded("long-file");
    let image = place.read("a.adr");
    let file = File::create(place.path("long")).expect("room for a file");
    file.set_len(8_000_000_000)
        .expect("a file system with holes");
    let words = ["record", "--overwrite", "a.adr", "long"];
    let mut command = place.command(&words);
    let mut child = command.stderr(Stdio::piped()).spawn().expect("the tool");
    wait_beside(&mut child, || taken(&place) >= 10_000_000);
    send("INT", &child);
    ended_by(2, &child.wait_with_output().expect("it ended"));
    assert!(place.read("a.adr") == image);
    nothing_more_is_taken(&place);
}

/// Files are removed that were not whole.
#[test]
fn files_under_way() {
    let place = Place::new("under-way");
    place.directory("out");
    place.adr(&["format", "a.adr"]).succeeded();
    place
        .shell("head -c 300000000 /dev/zero | $ADR record a.adr -")
        .succeeded();
    for words in [
        &["restore", "--into", "out", "a.adr"][..],
        &["restore", "--output", "out/file", "a.adr", "1"],
        &["salvage", "--into", "out", "a.adr"],
    ] {
        let mut command = place.command(words);
        let mut child = command.stderr(Stdio::piped()).spawn().expect("the tool");
        wait_beside(&mut child, || !place.names("out").is_empty());
        send("INT", &child);
        let output = child.wait_with_output().expect("it ended");
        assert_eq!(output.status.signal(), Some(2));
        assert_eq!(output.stderr, b"adr: interrupted\n");
        assert!(place.names("out").is_empty(), "{words:?}");
    }
}

/// As `nohup` and a shell's background have it.
#[test]
fn ignored_signals_stay_ignored() {
    let place = recorded("ignored");
    let mut command = Command::new("sh");
    command.args(["-c", "trap '' HUP INT; exec \"$0\" \"$@\"", ADR]);
    command.args(["record", "--overwrite", "a.adr", "-"]);
    command.current_dir(place.path(".")).stdin(Stdio::piped());
    let mut child = command.spawn().expect("a shell");
    feed(&mut child, 1_000_000);
    send("HUP", &child);
    send("INT", &child);
    feed(&mut child, 1_000_000);
    drop(child.stdin.take());
    assert!(child.wait().is_ok_and(|status| status.success()));
    place.adr(&["check", "a.adr"]).succeeded();
}

/// The room of the old content, and that of a killed recording.
#[test]
fn room_is_given_back() {
    let place = recorded("given-back");
    for name in ["new", "file", "file", "new"] {
        let words = ["record", "--overwrite", "a.adr", name];
        place.adr(&words).succeeded();
        nothing_more_is_taken(&place);
        holds(&place, name);
    }
    let length = place.read("a.adr").len();
    let mut child = waiting(&place, 20_000_000);
    child.kill().expect("it runs");
    child.wait().expect("it ended");
    assert!(taken(&place) > needed(&place) + 10_000_000);
    holds(&place, "new");
    // The next recording finds room to give back, even if it fails itself.
    place
        .shell("$ADR record --overwrite a.adr - < /dev/null")
        .failed();
    assert_eq!(place.read("a.adr").len(), length);
    nothing_more_is_taken(&place);
    holds(&place, "new");
}

/// Where only one root leads to the new content, nothing is given back that
/// the other one leads to.
#[test]
fn one_root_behind() {
    let place = recorded("behind");
    let before = place.read("a.adr");
    place
        .adr(&["record", "--overwrite", "a.adr", "new"])
        .succeeded();
    // As before the second root was written: its cells are there still.
    let mut image = place.read("a.adr");
    image[CELLS..before.len()].copy_from_slice(&before[CELLS..]);
    let second = ROOTS[usize::from(before[ROOTS[1] + 15] > before[ROOTS[0] + 15])];
    image[second..second + PAGE].copy_from_slice(&before[second..second + PAGE]);
    place.write("a.adr", &image);
    holds(&place, "new");
    place
        .shell("$ADR record --overwrite a.adr - < /dev/null")
        .failed();
    assert!(place.read("a.adr") == image);
    place
        .adr(&["record", "--overwrite", "a.adr", "file"])
        .succeeded();
    nothing_more_is_taken(&place);
    holds(&place, "file");
}
