//! Jobs that are restored by number or by name, several at once.

mod place;

use std::fs;

use place::image::{cells_with, seal_description, seal_frame, DESCRIPTION};
use place::{bytes, Place, Ran};

/// Bytes of each job, which go into one frame.
const LENGTH: usize = 20_000;

/// A place with a cartridge of four jobs, the first and the last of one name.
fn recorded(name: &str) -> Place {
    let place = Place::new(name);
    for directory in ["first", "again", "out"] {
        place.directory(directory);
    }
    let files = ["first/kyrie", "first/7", "first/gloria", "again/kyrie"];
    for (seed, file) in files.into_iter().enumerate() {
        place.write(file, &content(seed + 1));
    }
    place.adr(&["format", "a.adr"]).succeeded();
    place
        .adr(&[&["record", "a.adr"][..], &files].concat())
        .succeeded();
    place
}

/// The bytes of a job.
fn content(job: usize) -> Vec<u8> {
    bytes(LENGTH, job as u64)
}

/// The bytes of several, one behind the other.
fn contents(jobs: &[usize]) -> Vec<u8> {
    jobs.iter().flat_map(|job| content(*job)).collect()
}

/// Where the frame starts that holds a job's bytes.
fn frame_of(image: &[u8], job: usize) -> usize {
    let cells = cells_with(image, &content(job));
    assert_eq!(cells.len(), 1);
    cells[0]
}

fn restore(place: &Place, words: &[&str]) -> Ran {
    place.adr(&[&["restore", "a.adr"][..], words].concat())
}

#[track_caller]
fn told(ran: &Ran, messages: &[&str]) {
    let lines: Vec<&str> = ran.error.lines().collect();
    assert_eq!(lines.len(), messages.len(), "{}", ran.error);
    for (line, message) in lines.iter().zip(messages) {
        assert!(line.contains(message), "{line}: {message}");
    }
}

#[test]
fn to_standard_output() {
    let place = recorded("several-output");
    for (words, jobs) in [
        (&["1", "2"][..], &[1, 2][..]),
        (&["gloria"], &[3]),
        (&["gloria", "2"], &[2, 3]),
        (&["4", "1", "4", "01"], &[1, 4]),
        (&["3", "2", "-o-"], &[2, 3]),
        (&["3", "gloria"], &[3]),
        (&["kyrie", "4"], &[1, 4]),
    ] {
        let ran = restore(&place, words).succeeded();
        assert!(ran.output == contents(jobs), "{words:?}");
        assert_eq!(ran.error, "", "{words:?}");
    }
}

#[test]
fn to_files() {
    let place = recorded("several-files");
    restore(&place, &["4", "gloria", "--into", "out"]).succeeded();
    assert_eq!(place.names("out"), ["gloria", "kyrie"]);
    assert!(place.read("out/gloria") == content(3));
    assert!(place.read("out/kyrie") == content(4));
    for (words, job) in [
        (&["gloria", "-oone"][..], 3),
        (&["4", "--overwrite", "-oone"], 4),
        (&["2", "--overwrite", "-o", "one"], 2),
        (&["1", "--overwrite", "-o=one"], 1),
    ] {
        restore(&place, words).succeeded();
        assert!(place.read("one") == content(job), "{words:?}");
    }
}

#[test]
fn words_that_ask_for_nothing() {
    let place = recorded("several-missing");
    let ran = restore(&place, &["7", "9", "credo", "3"]).failed();
    assert!(ran.output == content(3));
    let seven = "there is no job 7; the cartridge holds 4 jobs, and job 2 has that name: ask for 2";
    let nine = "there is no job 9; the cartridge holds 4 jobs";
    let credo = "there is no job named 'credo'";
    told(
        &ran,
        &[seven, nine, credo, "a.adr: 3 jobs were not restored"],
    );
    told(&restore(&place, &["credo"]).failed(), &[credo]);
    for words in [
        &["0"][..],
        &["99999999999999999999"],
        &[""],
        &["1", "2", "-ox"],
    ] {
        let ran = restore(&place, words);
        assert_eq!(ran.status, Some(2), "{words:?}: {}", ran.error);
    }
    assert!(!place.path("x").exists());
}

/// A name stands for the first job that has it.
#[test]
fn names_that_come_twice() {
    let place = recorded("several-twice");
    let twice = "job 4, 'kyrie': job 1 has that name too: restore it by number";
    let ran = restore(&place, &["kyrie"]).succeeded();
    assert!(ran.output == content(1));
    told(&ran, &[twice]);
    told(&restore(&place, &["kyrie", "-oone"]).succeeded(), &[twice]);
    assert!(place.read("one") == content(1));
    let ran = restore(&place, &["3", "kyrie"]).succeeded();
    assert!(ran.output == contents(&[1, 3]));
    told(&ran, &[twice]);
    told(
        &restore(&place, &["--into", "out", "kyrie"]).succeeded(),
        &[twice],
    );
    let ran = restore(&place, &["--into", "out", "--overwrite"]).failed();
    told(&ran, &[twice, "1 job was not restored"]);
}

#[test]
fn files_that_exist_are_passed_over() {
    let place = recorded("several-exist");
    place.write("out/kyrie", b"mine");
    fs::create_dir(place.path("out/gloria")).expect("a directory");
    let kyrie = "adr: out/kyrie: exists; use '--overwrite' to replace it";
    let gloria = "adr: out/gloria: exists; use '--overwrite' to replace it";
    let ran = restore(&place, &["--into", "out"]).failed();
    told(
        &ran,
        &[kyrie, gloria, kyrie, "a.adr: 3 jobs were not restored"],
    );
    assert_eq!(place.names("out"), ["7", "gloria", "kyrie"]);
    assert_eq!(place.read("out/kyrie"), b"mine");
    // A directory is not replaced at all.
    let ran = restore(&place, &["--into", "out", "--overwrite", "3", "4"]).failed();
    told(
        &ran,
        &["adr: out/gloria: ", "a.adr: 1 job was not restored"],
    );
    assert_eq!(place.names("out"), ["7", "gloria", "kyrie"]);
    assert!(place.read("out/kyrie") == content(4));
}

#[test]
fn jobs_that_are_not_whole_are_passed_over() {
    let place = recorded("several-broken");
    let mut image = place.read("a.adr");
    let frame = frame_of(&image, 1);
    image[frame] ^= 1;
    seal_frame(&mut image, frame);
    place.write("a.adr", &image);
    let broken = "a.adr: job 1 is not whole: its checksum does not hold";
    let ran = restore(&place, &["--into", "out"]).failed();
    told(&ran, &[broken, "a.adr: 1 job was not restored"]);
    assert_eq!(place.names("out"), ["7", "gloria", "kyrie"]);
    assert!(place.read("out/kyrie") == content(4));
    // Bytes on standard output cannot be taken back: nothing follows them.
    let ran = restore(&place, &["2", "1", "3"]).failed();
    told(&ran, &[broken]);
    assert_eq!(ran.output.len(), LENGTH);
    restore(&place, &["2", "3"]).succeeded();
}

/// Names that lead out of the directory, and jobs of another program.
#[test]
fn jobs_without_a_file_are_passed_over() {
    let place = recorded("several-strange");
    let mut image = place.read("a.adr");
    for start in cells_with(&image, DESCRIPTION) {
        match image[start + 26] {
            b'7' => image[start + 26] = b'.',
            b'g' => image[start] = b'a',
            _ => continue,
        }
        seal_description(&mut image, start);
    }
    place.write("a.adr", &image);
    let foreign = "a.adr: job 3 was not recorded by this tool";
    let ran = restore(&place, &["--into", "out", "2", "3", "4"]).failed();
    told(
        &ran,
        &["'.' would lead out", foreign, "2 jobs were not restored"],
    );
    assert_eq!(place.names("out"), ["kyrie"]);
    let ran = restore(&place, &["3", "1"]).failed();
    assert!(ran.output == content(1));
    told(&ran, &[foreign, "1 job was not restored"]);
}

/// What stands behind the last job asked for is not read.
#[test]
fn numbers_end_the_reading() {
    let place = recorded("several-early");
    let mut image = place.read("a.adr");
    let frame = frame_of(&image, 3);
    image[frame] ^= 1;
    place.write("a.adr", &image);
    let ran = restore(&place, &["2", "1"]).succeeded();
    assert!(ran.output == contents(&[1, 2]));
    for words in [&["1", "3"][..], &["kyrie"], &["--into", "out"]] {
        let ran = restore(&place, words).failed();
        assert!(ran.error.contains("reading stopped"), "{}", ran.error);
    }
    assert_eq!(place.names("out"), ["7", "kyrie"]);
}
