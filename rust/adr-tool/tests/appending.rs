//! Jobs that are added behind others.

mod place;

use std::fs::File;
use std::os::unix::process::ExitStatusExt;
use std::process::{Child, Command, Stdio};

use adr_model::frame::{fill_frame, Kind, Label};
use adr_model::{Address, SequenceNumber};
use place::image::{
    change_headers, end_of_data, entries, frame_at, header_addresses, index_of, move_frame, number,
    remove_labels, seal_frame, tell_end, EOD, FRAME, ROOTS,
};
use place::{bytes, feed, Place, Ran};

/// The AUX of a frame stands behind its block.
const AUX: usize = 32_768;
/// Where a header tells LAST.
const LAST: std::ops::Range<usize> = 28..32;
/// Jobs by day; the first is recorded, the others are added.
const DAYS: [(&str, usize); 4] = [("mon", 70_000), ("tue", 0), ("wed", 1), ("thu", 40_000)];
/// Drives that are tried until the end of data reads on where a write failed.
const SEEDS: u64 = 400;

/// A place with the files of each day, and a cartridge with the first.
fn monday(name: &str) -> Place {
    let place = Place::new(name);
    for (seed, (name, length)) in DAYS.into_iter().enumerate() {
        place.write(name, &bytes(length, seed as u64));
    }
    place.directory("out");
    place.adr(&["format", "a.adr"]).succeeded();
    place.adr(&["record", "a.adr", "mon"]).succeeded();
    place
}

fn append(place: &Place, words: &[&str]) -> Ran {
    place.adr(&[&["record", "--append", "a.adr"][..], words].concat())
}

/// Every command finds these jobs, in this order, as they were recorded.
#[track_caller]
fn holds(place: &Place, names: &[&str]) {
    let list = place.adr(&["list", "--quiet", "a.adr"]).succeeded();
    let rows: Vec<&str> = list.output_text().lines().collect();
    assert_eq!(rows.len(), names.len(), "{rows:?}");
    for (job, (row, name)) in (1..).zip(rows.iter().zip(names)) {
        assert!(row.starts_with(&format!("{job:>4}  ")), "{row}");
        assert!(row.ends_with(&format!("  {name}")), "{row}");
        let word = job.to_string();
        let restored = place.adr(&["restore", "a.adr", &word]).succeeded();
        assert!(restored.output == place.read(name), "job {job}");
    }
    let check = place.adr(&["check", "a.adr"]).succeeded();
    let jobs = if names.len() == 1 { "1 job" } else { "jobs" };
    assert!(check.output_text().contains(jobs), "{check:?}");
    clear(place);
    let words = ["restore", "--into", "out", "a.adr"];
    place.adr(&words).succeeded();
    restored_are(place, names);
    salvaged(place).succeeded();
    restored_are(place, names);
    let map = place.adr(&["map", "a.adr"]).succeeded();
    assert_eq!(legend(&map, "E end of data"), 1);
    assert_eq!(legend(&map, "| filemark"), names.len());
}

/// Salvages the cartridge into an empty directory.
fn salvaged(place: &Place) -> Ran {
    clear(place);
    place.adr(&["salvage", "--into", "out", "a.adr"])
}

fn clear(place: &Place) {
    std::fs::remove_dir_all(place.path("out")).expect("it");
    place.directory("out");
}

/// The directory holds files of these names, as they were.
#[track_caller]
fn restored_are(place: &Place, names: &[&str]) {
    place.has_copies("out", names);
}

/// How many of a kind a map has.
fn legend(map: &Ran, kind: &str) -> usize {
    let text = map.output_text();
    let behind = text.split_once(kind).expect("a kind of the legend").1;
    let word = behind.split_whitespace().next().expect("a number");
    word.replace(',', "").parse().expect("a number")
}

/// The image with every copy of the header damaged.
fn damage_headers(image: &[u8]) -> Vec<u8> {
    let mut damaged = image.to_vec();
    for address in header_addresses() {
        damaged[frame_at(image, address) + 100] ^= 1;
    }
    damaged
}

/// Puts EOD in the place of the filemark, as a program leaves a cartridge that
/// does not close its last job; this one has so many frames and one job. Gives
/// the address, which the headers are yet to tell.
fn take_filemark(image: &mut [u8], frames: u32) -> usize {
    let end = end_of_data(image) - 1;
    let label = Label {
        kind: Kind::Eod,
        pass: 1,
        last: Address(frames - 1),
        number: SequenceNumber(end as u32 - 10),
        filemarks: 0,
        latest_marker: None,
    };
    let start = frame_at(image, end);
    let mut frame = [0; FRAME];
    fill_frame(&mut frame, &label, None);
    image[start..start + FRAME].copy_from_slice(&frame);
    seal_frame(image, start);
    end
}

/// Makes a file that takes so many frames for its data.
fn write_frames(place: &Place, name: &str, frames: u64) {
    let file = File::create(place.path(name)).expect("room for a file");
    file.set_len(frames * 32_768).expect("holes");
}

/// Fails with these words, and the image stays as it is.
#[track_caller]
fn refused_and_unchanged(place: &Place, words: &[&str], why: &str) {
    let image = place.read("a.adr");
    let ran = append(place, words).failed();
    assert!(ran.error.contains(why), "{}", ran.error);
    assert!(place.read("a.adr") == image, "the image was changed");
}

/// The addresses where an end of data reads.
fn ends(image: &[u8]) -> Vec<usize> {
    let reads = |entry: &usize| image[entry + 7] & 1 == 1;
    let all = entries(image).into_iter().filter(reads);
    let at = all.map(|entry| number(image, entry) >> 32);
    let is_end = |address: &usize| {
        let aux = frame_at(image, *address) + AUX;
        image[aux + 16..aux + 18] == [1, 0]
    };
    at.filter(is_end).collect()
}

#[test]
fn three_times() {
    let place = monday("append-thrice");
    holds(&place, &["mon"]);
    let mut names = vec!["mon"];
    for (name, _) in &DAYS[1..] {
        let end = end_of_data(&place.read("a.adr"));
        let added = append(&place, &[name]).succeeded();
        assert!(added.error.starts_with("adr: a.adr: capacity at most"));
        names.push(name);
        holds(&place, &names);
        let image = place.read("a.adr");
        assert!(end_of_data(&image) > end);
        // Where the end stood, a job begins.
        assert!(image[frame_at(&image, end)..].starts_with(b"ADRJOB 2"));
        assert_eq!(ends(&image), [end_of_data(&image)]);
    }
    // A new recording replaces them all.
    let words = ["record", "--overwrite", "a.adr", "thu"];
    place.adr(&words).succeeded();
    holds(&place, &["thu"]);
}

#[test]
fn several_at_once() {
    let place = monday("append-several");
    append(&place, &["--quiet", "tue", "wed"]).succeeded();
    holds(&place, &["mon", "tue", "wed"]);
    place
        .shell("$ADR record --append a.adr --name thu - < thu")
        .succeeded();
    holds(&place, &["mon", "tue", "wed", "thu"]);
}

#[test]
fn names_that_are_there_already() {
    let place = monday("append-again");
    place.directory("p");
    place.write("p/mon", b"another");
    let told = |job| {
        format!(
            "adr: job {job}, 'mon': job 1 has that name too, \
             and 'restore --into' will pass over job {job}\n"
        )
    };
    let added = append(&place, &["--quiet", "tue", "p/mon", "mon"]).succeeded();
    assert_eq!(added.error, [told(3), told(4)].concat());
    let restored = place.adr(&["restore", "a.adr", "3"]).succeeded();
    assert_eq!(restored.output, b"another");
}

#[test]
fn wrong_command_lines() {
    let place = monday("append-words");
    let image = place.read("a.adr");
    for (words, why) in [
        (&["--overwrite", "tue"][..], "give --append or --overwrite"),
        (&[], "name the files to record"),
        (&["--depth", "0", "tue"], "give 1 to 255 frames"),
        (&["--window", "65", "tue"], "1 to 64 blocks"),
    ] {
        let ran = append(&place, words);
        assert_eq!(ran.status, Some(2), "{words:?}: {}", ran.error);
        assert!(ran.error.contains(why), "{}", ran.error);
        assert!(place.read("a.adr") == image, "{words:?}");
    }
    // Without it, what is there is in the way, as ever.
    let refused = place.adr(&["record", "a.adr", "tue"]).failed();
    assert!(refused
        .error
        .contains("holds a recording, and a new one replaces it"));
    assert!(refused.error.contains("'--append' records behind it"));
}

#[test]
fn nothing_to_add() {
    let place = monday("append-nothing");
    let image = place.read("a.adr");
    let refused = place
        .shell("$ADR record --append a.adr - < /dev/null")
        .failed();
    assert!(refused.error.contains("there is nothing to read"));
    assert!(refused.error.contains("holds what it held before"));
    assert!(place.read("a.adr") == image);
    refused_and_unchanged(&place, &["none"], "none: No such file");
    holds(&place, &["mon"]);
}

#[test]
fn nothing_to_add_to() {
    let place = monday("append-empty");
    place.adr(&["format", "--overwrite", "a.adr"]).succeeded();
    let why = "the cartridge holds no recording to add to: record without '--append'";
    refused_and_unchanged(&place, &["tue"], why);
}

#[test]
fn recordings_that_were_not_closed() {
    let place = monday("append-open");
    let mut image = place.read("a.adr");
    change_headers(&mut image, |header| header[EOD].fill(0));
    place.write("a.adr", &image);
    let why = "the last recording was not closed, and nothing can be added behind it; \
               nothing was changed: restore what can be read, and use another cartridge";
    refused_and_unchanged(&place, &["tue"], why);
    // What is there can be read all the same.
    let restored = place.adr(&["restore", "a.adr", "1"]).succeeded();
    assert!(restored.output == place.read("mon"));
}

/// A header of a cartridge with another number of frames is none of this one.
#[test]
fn headers_of_another_geometry() {
    let place = monday("append-geometry");
    let mut image = place.read("a.adr");
    change_headers(&mut image, |header| header[LAST][3] ^= 1);
    place.write("a.adr", &image);
    let why = "the cartridge holds frames but no header; nothing was changed: use a copy";
    refused_and_unchanged(&place, &["tue"], why);
}

/// EOD reads one address behind the one that the header tells.
#[test]
fn ends_elsewhere() {
    let place = monday("append-elsewhere");
    let mut image = place.read("a.adr");
    let end = end_of_data(&image);
    move_frame(&mut image, end, end + 1);
    place.write("a.adr", &image);
    let why = "the header does not name the end that was read to";
    refused_and_unchanged(&place, &["tue"], why);
    let ran = append(&place, &["tue"]).failed();
    let told = "(refusal 13); nothing can be added here: restore what can be read, \
                and use another cartridge, or record afresh with '--overwrite'; \
                nothing was recorded, the cartridge holds what it held before\n";
    assert!(ran.error.ends_with(told), "{}", ran.error);
    // Both can be done.
    let restored = place.adr(&["restore", "a.adr", "1"]).succeeded();
    assert!(restored.output == place.read("mon"));
    let words = ["record", "--overwrite", "a.adr", "tue"];
    place.adr(&words).succeeded();
    holds(&place, &["tue"]);
}

#[test]
fn damage_before_the_end() {
    let place = monday("append-damage");
    let image = place.read("a.adr");
    for (address, why) in [
        (11, "reading stopped: an element is missing"),
        (7, "the image is damaged at address 7, among the copies"),
        (end_of_data(&image), "reading stopped: no header copy"),
    ] {
        let mut damaged = image.clone();
        damaged[frame_at(&image, address) + 100] ^= 1;
        place.write("a.adr", &damaged);
        refused_and_unchanged(&place, &["tue"], why);
        if address >= 10 {
            let told = "; nothing was recorded, the cartridge holds what it held before";
            refused_and_unchanged(&place, &["tue"], told);
        }
        // Sizes that no recording has are told before the tape is read.
        assert_eq!(append(&place, &["--depth", "0", "tue"]).status, Some(2));
    }
}

#[test]
fn a_job_without_a_filemark() {
    let place = monday("append-unclosed");
    let mut image = place.read("a.adr");
    let end = take_filemark(&mut image, 19_239 * 24);
    tell_end(&mut image, end);
    place.write("a.adr", &image);
    let list = place.adr(&["list", "a.adr"]).failed();
    assert!(list.error.contains("job 1 has no filemark at its end"));

    let added = append(&place, &["--quiet", "tue"]).succeeded();
    let told = "adr: a.adr: job 1 has no filemark at its end: \
                one is recorded before the new jobs\n";
    assert_eq!(added.error, told);
    holds(&place, &["mon", "tue"]);
}

/// The filemark that a last job lacks takes one of the frames that are free.
#[test]
fn no_room_for_the_filemark() {
    let place = monday("append-filemark");
    let small = ["--segtrk", "3001", "--trks", "1"];
    let words = [&["format", "--overwrite", "a.adr"], &small[..]].concat();
    place.adr(&words).succeeded();
    place.adr(&["record", "a.adr", "mon"]).succeeded();
    let mut image = place.read("a.adr");
    let filemark = take_filemark(&mut image, 3_001);
    // Behind a long stretch that does not read, with 21 frames free. The end
    // that was there before is where the first new frames go.
    let end = 2_990 - 21;
    move_frame(&mut image, filemark + 1, end + 1);
    move_frame(&mut image, filemark, end);
    tell_end(&mut image, end);
    place.write("a.adr", &image);
    write_frames(&place, "more", 18);
    write_frames(&place, "rest", 17);
    let why = "adr: a.adr: the files and a filemark for the last job take 22 frames, \
               and the cartridge has at most 21 free (688.1 kB): \
               it would be full in 'more'; nothing was changed";
    refused_and_unchanged(&place, &["more"], why);
    append(&place, &["--quiet", "rest"]).succeeded();
    is_full(&place, 2);
    holds(&place, &["mon", "rest"]);
}

/// The cartridge holds so many jobs and has no room for another.
#[track_caller]
fn is_full(place: &Place, jobs: usize) {
    let list = place.adr(&["list", "a.adr"]).succeeded();
    assert_eq!(list.output_text().lines().count(), jobs);
    assert!(
        list.error.ends_with("at most 0 bytes free\n"),
        "{}",
        list.error
    );
}

#[test]
fn full_cartridges() {
    let place = Place::new("append-full");
    place
        .adr(&["format", "a.adr", "--segtrk", "3001", "--trks", "1"])
        .succeeded();
    // 2,981 user frames; the end of data takes one, and what is around the
    // data of a job three.
    let first = 2_981 - 1 - 3 - 20;
    for (name, frames) in [("mon", first), ("rest", 17), ("more", 18), ("no", 0)] {
        write_frames(&place, name, frames);
    }
    place
        .adr(&["record", "--quiet", "a.adr", "mon"])
        .succeeded();
    let why = "the files take 21 frames, and the cartridge has at most 20 free (655.3 kB): \
               it would be full in 'more'; nothing was changed";
    refused_and_unchanged(&place, &["more"], why);
    // The length of a pipe is not known before.
    let image = place.read("a.adr");
    let refused = place
        .shell("$ADR record --append --tail 0 a.adr - < more")
        .failed();
    assert!(refused
        .error
        .contains("recording stopped: the tape is full"));
    assert!(refused.error.contains("holds what it held before"));
    assert!(place.read("a.adr") == image);
    place
        .shell("$ADR record --quiet --append a.adr --name rest - < rest")
        .succeeded();
    is_full(&place, 2);
    let why = "has at most 0 free (0 bytes): it would be full in 'no'";
    refused_and_unchanged(&place, &["no"], why);
}

/// An addition that was given some bytes, more than a pipe and the window
/// hold, and waits for others.
fn waiting(place: &Place) -> Child {
    let mut command = place.command(&["record", "--append", "a.adr", "-"]);
    command.stdin(Stdio::piped()).stderr(Stdio::piped());
    let mut child = command.spawn().expect("the tool");
    feed(&mut child, 5_000_000);
    child
}

#[test]
fn interrupted() {
    let place = monday("append-interrupted");
    append(&place, &["tue"]).succeeded();
    let image = place.read("a.adr");
    let mut child = waiting(&place);
    let input = child.stdin.take();
    let id = child.id().to_string();
    let sent = Command::new("kill").args(["-s", "INT", &id]).status();
    assert!(sent.is_ok_and(|status| status.success()));
    let output = child.wait_with_output().expect("it ended");
    drop(input);
    assert_eq!(output.status.signal(), Some(2));
    let told = "adr: interrupted; nothing was recorded, the cartridge holds what it held before\n";
    assert_eq!(String::from_utf8_lossy(&output.stderr), told);
    assert!(place.read("a.adr") == image);
    holds(&place, &["mon", "tue"]);
}

/// What a killed addition left in free cells is in nobody's way.
#[test]
fn killed() {
    let place = monday("append-killed");
    append(&place, &["tue"]).succeeded();
    let image = place.read("a.adr");
    let mut child = waiting(&place);
    child.kill().expect("it runs");
    child.wait().expect("it ended");
    let left = place.read("a.adr");
    assert!(left.len() > image.len() + 2_000_000, "it had written");
    holds(&place, &["mon", "tue"]);
    // Even where no index tells what is in force.
    for damaged in [index_of(&left) + 500, ROOTS[0] + 100, ROOTS[1] + 100] {
        let mut lost = left.clone();
        for at in [index_of(&left) + 500, damaged] {
            lost[at] ^= 3;
        }
        place.write("a.adr", &lost);
        salvaged(&place).succeeded();
        restored_are(&place, &["mon", "tue"]);
    }
    place.write("a.adr", &left);
    append(&place, &["wed"]).succeeded();
    holds(&place, &["mon", "tue", "wed"]);
}

#[test]
fn on_faulty_drives() {
    let place = monday("append-faults");
    for seed in 0..12 {
        place.adr(&["format", "--overwrite", "a.adr"]).succeeded();
        let mut names = Vec::new();
        for (turn, (name, _)) in DAYS.into_iter().enumerate() {
            let faults = (seed * 100 + turn).to_string();
            let how = if turn == 0 { "--overwrite" } else { "--append" };
            let words = ["record", "--faults", &faults, how, "a.adr", name];
            place.adr(&words).succeeded();
            names.push(name);
        }
        holds(&place, &names);
    }
}

/// A cartridge on which the end of data reads on where it stood before
/// something was added, for the write there failed, and that end's address.
fn with_an_earlier_end(name: &str) -> (Place, usize) {
    let place = monday(name);
    let before = place.read("a.adr");
    let end = end_of_data(&before);
    for seed in 0..SEEDS {
        append(&place, &["--quiet", "--faults", &seed.to_string(), "thu"]).succeeded();
        let image = place.read("a.adr");
        if ends(&image).contains(&end) && end_of_data(&image) != end {
            return (place, end);
        }
        place.write("a.adr", &before);
    }
    panic!("no drive failed there");
}

/// An end that was one before is none any more, whatever else is lost.
#[test]
fn earlier_ends() {
    let (place, earlier) = with_an_earlier_end("append-earlier");
    holds(&place, &["mon", "thu"]);
    append(&place, &["wed"]).succeeded();
    holds(&place, &["mon", "thu", "wed"]);
    let image = place.read("a.adr");
    let end = end_of_data(&image);
    assert_eq!(ends(&image).first(), Some(&earlier));
    let row = |map: &Ran| -> Vec<char> {
        let rows = map.output_text().lines();
        let rows = rows.filter_map(|line| line.get(15..79));
        rows.flat_map(str::chars).collect()
    };
    let whole = row(&place.adr(&["map", "a.adr"]).succeeded());
    assert_eq!((whole[earlier], whole[end]), ('x', 'E'));

    // A block of Monday's: the map shows what stands behind it all the same.
    let mut damaged = image.clone();
    damaged[frame_at(&image, 12) + 100] ^= 1;
    place.write("a.adr", &damaged);
    let map = row(&place.adr(&["map", "a.adr"]).failed());
    assert_eq!((map[12], map[earlier], map[end]), ('!', 'x', 'E'));
    for (at, (shown, whole)) in map.iter().zip(&whole).enumerate().take(64) {
        assert!(shown == whole || at == 12, "{at}: {map:?}");
    }

    // The end of data: nothing of the jobs is lost, whatever tells of it.
    damaged = image.clone();
    damaged[frame_at(&image, end) + 100] ^= 1;
    let without_headers = damage_headers(&damaged);
    let mut without_index = damaged.clone();
    without_index[index_of(&image) + 500] ^= 1;
    for lost in [damaged, without_index, without_headers] {
        place.write("a.adr", &lost);
        let ran = salvaged(&place).failed();
        let told = "the end of data is missing: whether there were more jobs than 3";
        assert!(ran.error.contains(told), "{}", ran.error);
        restored_are(&place, &["mon", "thu", "wed"]);
    }
    // Of several ends the last is taken, where no header is left and where
    // nothing tells the addresses.
    place.write("a.adr", &damage_headers(&image));
    let ran = salvaged(&place).failed();
    assert!(!ran.error.contains("the end of data"), "{}", ran.error);
    restored_are(&place, &["mon", "thu", "wed"]);
    let mut without_labels = image.clone();
    remove_labels(&mut without_labels);
    without_labels[index_of(&image) + 500] ^= 1;
    place.write("a.adr", &without_labels);
    salvaged(&place).succeeded();
    restored_are(&place, &["mon", "thu", "wed"]);
}
