//! Tapes that are full before all is recorded: what is on them, what is told,
//! and the commands that record the rest.

mod place;

use std::ffi::OsStr;
use std::fs;
use std::ops::Range;
use std::os::unix::ffi::OsStrExt;

use place::image::{end_of_data, frame_at, BEHIND_GROUP};
use place::{bytes, Place, Ran, ADR};

const BLOCK: usize = 32_768;
/// The first user frame.
const FIRST: usize = 10;
/// Where a job's name stands in its row.
const NAME: usize = 41;
/// The files of the worked example, and their blocks: they would fit but for bad
/// spots.
const WEEK: [(&str, usize); 4] = [
    ("monday", 900),
    ("tuesday", 900),
    ("wednesday", 1_100),
    ("thursday", 20),
];
/// Drives that are tried until each thing was seen, from one on that does not
/// take long.
const SEEDS: Range<u64> = 96..400;

/// The jobs that a cartridge lists, from their names on.
#[track_caller]
fn listed(list: &Ran) -> Vec<String> {
    let text = list.output_text();
    text.lines().map(|line| line[NAME..].to_string()).collect()
}

#[test]
fn tails() {
    let place = Place::nearly_full("full-usage", BEHIND_GROUP + 1, 30);
    let image = place.read("a.adr");
    place.write("tue", b"tuesday");
    for tail in ["256", "4294967296", "-1", "x", ""] {
        let tail = format!("--tail={tail}");
        for how in ["--append", "--overwrite"] {
            let refused = place.adr(&["record", how, &tail, "a.adr", "tue"]);
            assert_eq!(refused.status, Some(2), "{tail}");
            assert!(refused.error.contains("--tail: "), "{}", refused.error);
        }
    }
    assert!(place.read("a.adr") == image);
    for tail in ["0", "8", "255"] {
        let words = ["record", "--overwrite", "--tail", tail, "a.adr", "tue"];
        place.adr(&words).succeeded();
        let restored = place.adr(&["restore", "a.adr", "1"]).succeeded();
        assert_eq!(restored.output, b"tuesday");
    }
}

/// What is kept for the end of data is not free for files of known length.
#[test]
fn room() {
    let place = Place::nearly_full("full-room", BEHIND_GROUP + 20, 5);
    // 2,985 to 2,989, and 3,000 to 3,011 with a tail of 8.
    let told = "adr: a.adr: capacity at most 98.0 MB: 97.4 MB used, at most 557.0 kB free\n";
    assert_eq!(place.adr(&["list", "a.adr"]).succeeded().error, told);
    for (tail, blocks) in [("8", 14), ("0", 21), ("1", 21), ("19", 3), ("30", 2)] {
        let image = place.read("a.adr");
        place.write("more", &bytes(BLOCK * (blocks + 1), 2));
        let append = ["record", "--append", "--tail", tail, "a.adr"];
        let refused = place.adr(&[&append[..], &["more"]].concat()).failed();
        let why = "it would be full in 'more'; nothing was changed";
        assert!(refused.error.contains(why), "{}", refused.error);
        let shorter = refused.error.contains("a shorter '--tail' leaves room");
        assert_eq!(shorter, blocks < 21, "{}", refused.error);
        assert!(place.read("a.adr") == image);
        place.write("fits", &bytes(BLOCK * blocks, 3));
        let append = [&append[..], &["fits"]].concat();
        place.adr(&append).succeeded();
        place.adr(&["check", "a.adr"]).succeeded();
        place.write("a.adr", &image);
    }
}

/// A pipe that is too long, between files whose names a shell would take for
/// something else.
#[test]
fn a_pipe_that_is_too_long() {
    let place = Place::nearly_full("full-pipe", BEHIND_GROUP + 1, 30);
    let odd = OsStr::from_bytes(b"it's $HOME;\n\xFF\x1b[2J `x` \"*\"");
    fs::write(place.path("-r"), bytes(50_000, 2)).expect("room for a file");
    let odd_path = place.path("").join(odd);
    fs::write(&odd_path, bytes(60_000, 3)).expect("room for a file");
    let whole = bytes(40 * BLOCK - 100, 4);
    place.write("stream", &whole);
    let mut command = place.command(&["record", "--append", "--quiet", "--name=tue's"]);
    command.args(["--window=16", "--faults=4", "a.adr", "--", "-r", "-"]);
    let stream = fs::File::open(place.path("stream")).expect("a file");
    let command = command.arg(odd).arg("mon").stdin(stream);
    let recorded = Ran::of(command.output().expect("the tool")).failed();
    let error = &recorded.error;
    for told in [
        "adr: a.adr: the tape is full, and was closed behind what it could take; \
         job 2 is whole on it\n",
        "adr: a.adr: job 3, 'standard input': cut off behind at most ",
        "adr: a.adr: not on it: 'it's $HOME;",
        " and 1 file behind it\n",
        "adr: standard input can be read only once: give it again, from its beginning",
        "adr: a.adr: not everything was recorded: ",
    ] {
        assert!(error.contains(told), "{told}: {error}");
    }
    assert!(!error.contains('\x1b') && !recorded.output.contains(&0x1b));

    is_cut(&place, 3, "tue's");
    place.write("rest.sh", &recorded.output);
    place.shell("sh rest.sh < stream").succeeded();
    let list = place.adr(&["list", "--quiet", "a-2.adr"]).succeeded();
    assert_eq!(listed(&list).len(), 3);
    let first = place.adr(&["restore", "a-2.adr", "tue's"]).succeeded();
    assert!(first.output == whole);
    place.directory("out");
    let into = ["restore", "a-2.adr", "--into", "out"];
    place.adr(&into).succeeded();
    let restored = fs::read(place.path("out").join(odd)).expect("a file");
    assert!(restored == fs::read(&odd_path).expect("a file"));
    assert!(place.read("out/mon") == place.read("mon"));
    // What was whole is not recorded again.
    assert_eq!(place.names("out").len(), 3);
}

/// Every command tells that this last job of `a.adr` is cut off, and none takes
/// it for whole; the jobs before it are as they were.
#[track_caller]
fn is_cut(place: &Place, job: usize, name: &str) {
    let number = job.to_string();
    let list = place.adr(&["list", "--quiet", "a.adr"]).failed();
    let rows = listed(&list);
    assert_eq!(rows.len(), job);
    let cut = format!("{name} (cut off behind ");
    assert!(rows[job - 1].starts_with(&cut), "{rows:?}");
    assert!(rows[..job - 1].iter().all(|row| !row.contains("cut off")));
    let told = format!("adr: a.adr: the tape was full in job {job}: it and what was to follow");
    assert!(list.error.starts_with(&told), "{}", list.error);

    let why = format!("adr: a.adr: job {job} is not whole: cut off behind ");
    let check = place.adr(&["check", "a.adr"]).failed();
    assert!(check.error.contains(&why), "{}", check.error);
    assert!(check.error.ends_with("1 thing is wrong\n"));
    let output = place.adr(&["restore", "a.adr", &number]).failed();
    assert!(output.error.contains(&why), "{}", output.error);
    for (command, told) in [
        ("restore", why),
        (
            "salvage",
            format!("job {job}, '{name}': not restored: cut off "),
        ),
    ] {
        place.directory("cut");
        let into = place.adr(&[command, "a.adr", "--into", "cut"]).failed();
        assert!(into.error.contains(&told), "{}", into.error);
        assert_eq!(place.names("cut").len(), job - 1);
        for name in place.names("cut") {
            let restored = place.read(&format!("cut/{name}"));
            assert!(restored == place.read(&name), "{name}");
        }
        fs::remove_dir_all(place.path("cut")).expect("it");
    }
    place.adr(&["map", "a.adr"]).succeeded();
}

/// What is added behind a job that was cut off is whole, and it is not.
#[test]
fn adding_to_a_full_tape() {
    let place = Place::nearly_full("full-add", BEHIND_GROUP + 20, 5);
    let image = place.read("a.adr");
    let stream = bytes(30 * BLOCK, 2);
    place.write("stream", &stream);
    let recorded = place
        .shell("$ADR record --append --quiet a.adr - < stream")
        .failed();
    let told = "no new job is whole on it\n";
    assert!(recorded.error.contains(told), "{}", recorded.error);
    // 16 blocks, behind the one that describes the job, up to 3,011.
    let told = "job 2, 'standard input': cut off behind at most 524,288 bytes: ";
    assert!(recorded.error.contains(told), "{}", recorded.error);
    is_cut(&place, 2, "stdin");
    assert_eq!(end_of_data(&place.read("a.adr")), BEHIND_GROUP + 12);
    // Its bytes are given as far as they go.
    let output = place.adr(&["restore", "a.adr", "2"]).failed().output;
    assert!(output == stream[..16 * BLOCK]);

    // The filemark, and a job of two blocks, in the tail.
    place.write("tue", &bytes(2 * BLOCK, 3));
    let refused = place.adr(&["record", "--append", "a.adr", "tue"]).failed();
    assert!(refused.error.contains("a shorter '--tail' leaves room"));
    let words = ["record", "--append", "--tail", "0", "a.adr", "tue"];
    let added = place.adr(&words).succeeded();
    let told = "job 2 has no filemark at its end: one is recorded before the new jobs";
    assert!(added.error.contains(told), "{}", added.error);
    let list = place.adr(&["list", "--quiet", "a.adr"]).failed();
    let rows = ["mon", "stdin (its last block is missing)", "tue"];
    assert_eq!(listed(&list), rows);
    let restored = place.adr(&["restore", "a.adr", "tue"]).succeeded();
    assert!(restored.output == place.read("tue"));
    place.directory("out");
    for command in ["restore", "salvage"] {
        let words = [command, "--overwrite", "--into", "out", "a.adr"];
        place.adr(&words).failed();
        assert_eq!(place.names("out"), ["mon", "tue"]);
    }

    // With nothing kept the image holds what it held before.
    place.write("a.adr", &image);
    let refused = place
        .shell("$ADR record --append --tail 0 a.adr - < stream")
        .failed();
    assert!(refused.error.contains("the tape is full"));
    assert!(refused.error.contains("holds what it held before"));
    assert_eq!(refused.output, b"");
    assert!(place.read("a.adr") == image);
}

/// A job that lacks nothing but its filemark is recorded again, and is not lost
/// here.
#[test]
fn only_a_filemark_is_missing() {
    let place = Place::nearly_full("full-filemark", BEHIND_GROUP + 1, 5);
    place.write("stream", &bytes(3 * BLOCK - 1, 2));
    let line = "$ADR record --append --name stream a.adr - < stream > rest.sh";
    let recorded = place.shell(line).failed();
    let told = "job 2, 'standard input': cut off behind at most ";
    assert!(recorded.error.contains(told), "{}", recorded.error);
    for command in ["list", "check"] {
        let ran = place.adr(&[command, "a.adr"]).failed();
        let told = "job 2 has no filemark at its end: 'adr salvage' restores it";
        assert!(ran.error.contains(told), "{}", ran.error);
    }
    let list = place.adr(&["list", "--quiet", "a.adr"]).failed();
    assert_eq!(listed(&list), ["mon", "stream (its filemark is missing)"]);
    // Another job is restored, and its own bytes are all there.
    for word in ["1", "mon"] {
        let other = place.adr(&["restore", "a.adr", word]).succeeded();
        assert!(other.output == place.read("mon"));
        assert_eq!(other.error, "");
    }
    let told = "adr: a.adr: job 2 is not whole: its filemark is missing, \
                and 'adr salvage' restores it\n";
    for word in ["2", "stream"] {
        let own = place.adr(&["restore", "a.adr", word]).failed();
        assert!(own.output == place.read("stream"));
        assert_eq!(own.error, told);
    }
    place.directory("out");
    let into = ["restore", "a.adr", "--into", "out"];
    let into = place.adr(&into).failed();
    assert_eq!(
        into.error,
        format!("{told}adr: a.adr: 1 job was not restored\n")
    );
    assert_eq!(place.names("out"), ["mon"]);
    assert!(place.read("out/mon") == place.read("mon"));
    let salvage = ["salvage", "a.adr", "--into", "out", "--overwrite"];
    place.adr(&salvage).succeeded();
    assert!(place.read("out/stream") == place.read("stream"));
    place.shell("sh rest.sh < stream").succeeded();
    let again = place.adr(&["restore", "a-2.adr", "1"]).succeeded();
    assert!(again.output == place.read("stream"));
}

/// A cartridge of 3,001 frames with the job `mon`, and a job that has no room on
/// it: a stream that gives more.
fn whole_tape(name: &str) -> Place {
    let place = Place::new(name);
    place.write("mon", &bytes(40_000, 1));
    place.write("tue", &bytes(70_000, 2));
    for name in ["a.adr", "b.adr"] {
        let format = ["format", name, "--segtrk", "3001", "--trks", "1"];
        place.adr(&format).succeeded();
    }
    place.adr(&["record", "a.adr", "mon"]).succeeded();
    place
}

const TOO_LONG: &str = "head -c 98000000 /dev/zero | ";
const LARGER: &str = "adr: 'standard input' had the tape from its beginning: \
                      it needs a larger cartridge, or one with fewer bad spots\n";

/// A job that no cartridge of this size has room for: it does not replace others,
/// and the commands record what follows it; here there is no standard output for
/// them.
#[test]
fn longer_than_a_tape() {
    let place = whole_tape("full-long");
    let image = place.read("a.adr");
    let line = format!("{TOO_LONG} $ADR record --overwrite a.adr - tue mon >&-");
    let recorded = place.shell(&line).failed();
    let commands =
        format!("\n{ADR} format --segtrk 3001 --trks 1 a-2.adr\n{ADR} record a-2.adr tue mon\n");
    for told in [
        "adr: a.adr: the tape is full, and no new job is whole on it: \
         nothing was recorded, the cartridge holds what it held before\n",
        "adr: a.adr: not on it: 'standard input' and 2 files behind it\n",
        LARGER,
        &commands,
        "adr: a.adr: nothing was recorded: the two commands on standard error \
         record what follows 'standard input' on another cartridge, and not 'standard input'\n",
    ] {
        assert!(recorded.error.contains(told), "{told}: {}", recorded.error);
    }
    for untrue in ["cut off", "record the rest", "capacity", "only once"] {
        assert!(!recorded.error.contains(untrue), "{}", recorded.error);
    }
    assert!(place.read("a.adr") == image);
    place.shell(&commands).succeeded();
    let list = place.adr(&["list", "--quiet", "a-2.adr"]).succeeded();
    assert_eq!(listed(&list), ["tue", "mon"]);
}

/// The same on an empty cartridge, where nothing is replaced, and alone.
#[test]
fn longer_than_an_empty_tape() {
    let place = whole_tape("full-empty");
    let line = format!("{TOO_LONG} $ADR record b.adr -");
    let recorded = place.shell(&line).failed();
    for told in [
        "adr: b.adr: the tape is full, and was closed behind what it could take; \
         no new job is whole on it\n",
        "job 1, 'standard input': cut off behind at most 97,615,872 bytes: the tape was full\n",
        LARGER,
        "adr: b.adr: capacity at most 97.6 MB: 97.6 MB used, at most 0 bytes free\n",
    ] {
        assert!(recorded.error.contains(told), "{told}: {}", recorded.error);
    }
    let last = "adr: b.adr: not everything was recorded\n";
    assert!(recorded.error.ends_with(last), "{}", recorded.error);
    assert_eq!(recorded.output, b"");
    let list = place.adr(&["list", "--quiet", "b.adr"]).failed();
    assert_eq!(listed(&list).len(), 1);
}

/// With a whole new job on it a full tape replaces what was there. What is on it
/// and the commands are told before the room.
#[test]
fn a_whole_job_replaces_others() {
    let place = whole_tape("full-replaced");
    let line = format!("{TOO_LONG} $ADR record --overwrite a.adr tue - mon 2>&1");
    let recorded = place.shell(&line);
    assert_eq!(recorded.status, Some(1));
    let told = recorded.output_text();
    let places = [
        "; job 1 is whole on it\n",
        "adr: standard input can be read only once",
        "/adr record a-2.adr - mon\n",
        "adr: a.adr: capacity at most 97.6 MB: ",
        "adr: a.adr: not everything was recorded: the two commands on standard output ",
    ];
    let places = places.map(|part| told.find(part));
    assert!(places.iter().all(Option::is_some), "{told}");
    assert!(places.is_sorted(), "{told}");
    let list = place.adr(&["list", "--quiet", "a.adr"]).failed();
    let rows = listed(&list);
    assert!(rows.len() == 2 && rows[0] == "tue", "{rows:?}");
}

/// A pipe that was read before is not recorded as an empty job, not even where
/// empty ones were allowed.
#[test]
fn a_cut_pipe_is_no_empty_job() {
    let place = Place::nearly_full("full-empty-pipe", BEHIND_GROUP + 1, 30);
    place.write("stream", &bytes(40 * BLOCK, 2));
    let line =
        "cat stream | $ADR record --append --allow-empty a.adr - > rest.sh; cat rest.sh | sh";
    let recorded = place.shell(line).failed();
    let told = "adr: standard input: there is nothing to read";
    assert!(recorded.error.contains(told), "{}", recorded.error);
    let rest = String::from_utf8(place.read("rest.sh")).expect("text");
    assert!(rest.ends_with("/adr record a-2.adr -\n"), "{rest}");
    let list = place.adr(&["list", "--quiet", "a-2.adr"]).succeeded();
    assert_eq!(list.output, b"");
}

/// What a shell opened is not there for a later command.
#[test]
fn descriptors_are_read_once() {
    let place = Place::nearly_full("full-descriptors", BEHIND_GROUP + 1, 30);
    place.write("stream", &bytes(40 * BLOCK, 2));
    place.write("tue", &bytes(70_000, 3));
    let (given, feed) = ("< tue 3< mon", "{ cat stream > pipe & }");
    let files = "pipe /dev/stdin /dev/fd/3 /proc/self/fd/3 mon";
    let line = format!("mkfifo pipe; {feed}; $ADR record --append a.adr {files} {given} > rest.sh");
    let recorded = place.shell(&line).failed();
    for name in ["pipe", "/dev/stdin", "/dev/fd/3", "/proc/self/fd/3"] {
        let told = format!("adr: {name} can be read only once: give it again");
        assert!(recorded.error.contains(&told), "{}", recorded.error);
    }
    assert!(!recorded.error.contains("adr: mon can be"));
    let again = place.shell(&format!("{feed}; sh rest.sh {given}"));
    again.succeeded();
    let list = place.adr(&["list", "--quiet", "a-2.adr"]).succeeded();
    assert_eq!(listed(&list), ["pipe", "stdin", "3", "3", "mon"]);
    for (job, file) in [("1", "stream"), ("2", "tue"), ("3", "mon"), ("4", "mon")] {
        let restored = place.adr(&["restore", "a-2.adr", job]).succeeded();
        assert!(restored.output == place.read(file), "job {job}");
    }
}

/// A file that changed is not told as whole. Those of the kernel tell a length
/// that is not theirs.
#[test]
fn files_that_change_on_a_full_tape() {
    let place = Place::nearly_full("full-changed", BEHIND_GROUP + 1, 30);
    place.write("stream", &bytes(40 * BLOCK, 2));
    let line = "cat stream | $ADR record --append --quiet a.adr mon /proc/version mon - > rest.sh";
    let recorded = place.shell(line).failed();
    for told in [
        "; jobs 2 to 4 are on it, whole but for those whose files changed while being read: 3\n",
        "while it was recorded, as job 3\n",
        "adr: a.adr: 1 file changed while being read: \
         record again when nothing writes to the files\n",
    ] {
        assert!(recorded.error.contains(told), "{told}: {}", recorded.error);
    }
}

/// Nor does it replace others alone.
#[test]
fn a_file_that_changed_replaces_nothing() {
    let place = whole_tape("full-torn");
    let image = place.read("a.adr");
    let line = format!("{TOO_LONG} $ADR record --overwrite a.adr /proc/version - mon");
    let recorded = place.shell(&line).failed();
    for told in [
        "no new job is whole on it: nothing was recorded, the cartridge holds",
        "not on it: '/proc/version' and 2 files behind it\n",
        "1 file changed while being read: record again when nothing writes to the files\n",
        "nothing was recorded: the two commands on standard output record the rest",
    ] {
        assert!(recorded.error.contains(told), "{told}: {}", recorded.error);
    }
    assert!(!recorded.error.contains("larger"), "{}", recorded.error);
    let commands = recorded.output_text();
    let record = "/adr record a-2.adr /proc/version - mon\n";
    assert!(commands.ends_with(record), "{commands}");
    assert!(place.read("a.adr") == image);
}

/// The commands of the worked example in docs/TOOL.md.
#[test]
fn the_worked_example() {
    let document = concat!(env!("CARGO_MANIFEST_DIR"), "/../../docs/TOOL.md");
    let document = fs::read_to_string(document).expect("the document");
    let (_, section) = document.split_once("\n## Full tapes\n").expect("it");
    let (_, example) = section.split_once("```sh\n").expect("an example");
    let (example, _) = example.split_once("```").expect("its end");
    let (printed, typed): (Vec<&str>, Vec<&str>) =
        example.lines().partition(|line| line.starts_with("# "));
    let place = Place::new("full-example");
    for (name, blocks) in WEEK {
        place.write(&format!("{name}.tar"), &vec![7; blocks * BLOCK]);
    }
    let with_tool = |line: &str| line.replacen("adr", "$ADR", 1);
    let [format, record] = typed[..] else {
        panic!("{typed:?}");
    };
    place.shell(&with_tool(format)).succeeded();
    let recorded = place.shell(&with_tool(record)).failed();
    let commands = recorded.output_text().replace(ADR, "adr");
    let commands: Vec<String> = commands.lines().map(|line| format!("# {line}")).collect();
    assert_eq!(commands, printed);
    place.write("rest.sh", &recorded.output);
    place.shell("sh rest.sh").succeeded();
    let list = place.adr(&["list", "--quiet", "week-2.adr"]).succeeded();
    assert_eq!(listed(&list), ["wednesday.tar", "thursday.tar"]);
}

/// What was seen on drives with faults.
#[derive(Debug, Default)]
struct Seen {
    whole: bool,
    cut: bool,
    /// The tape was full between two jobs, and nothing tells it.
    between: bool,
    /// An element that was given up reads.
    behind: bool,
    /// The end of data found no place either.
    unclosed: bool,
}

impl Seen {
    fn all(&self) -> bool {
        self.whole && self.cut && self.between && self.behind && self.unclosed
    }
}

/// Files that would fit but for bad spots: whatever a drive does, what is on
/// both tapes is what was to be recorded, or nothing was changed.
#[test]
fn bad_spots() {
    let place = Place::nearly_full("full-faults", BEHIND_GROUP + 1, 32);
    let image = place.read("a.adr");
    let files = ["tue", "wed", "thu", "fri"];
    for (seed, name) in (2..).zip(files) {
        place.write(name, &bytes(seed as usize * 30_000, seed));
    }
    let mut seen = Seen::default();
    for seed in SEEDS {
        if seen.all() {
            return;
        }
        place.write("a.adr", &image);
        let seed = seed.to_string();
        let words = ["record", "--append", "--faults", &seed, "a.adr"];
        let recorded = place.adr(&[&words[..], &files].concat());
        if recorded.status == Some(0) {
            seen.whole = true;
            continue;
        }
        let recorded = recorded.failed();
        if recorded.output.is_empty() {
            let told = "recording stopped: the tape is full";
            assert!(recorded.error.contains(told), "{}", recorded.error);
            assert!(recorded.error.contains("holds what it held before"));
            assert!(place.read("a.adr") == image, "seed {seed}");
            seen.unclosed = true;
            continue;
        }
        go_on(&place, &recorded, &files, &mut seen);
    }
    panic!("{seen:?}");
}

/// The map shows the end of data behind an element that was given up also where
/// a reading does not come so far.
#[track_caller]
fn shows_the_end(place: &Place) {
    let image = place.read("a.adr");
    let mut damaged = image.clone();
    let first = frame_at(&image, FIRST);
    damaged[first] ^= 1;
    place.write("a.adr", &damaged);
    let map = place.adr(&["map", "a.adr"]).failed();
    let mut legend = map.output_text().lines().map(str::split_whitespace);
    let ends = legend.find_map(|words| {
        let words: Vec<&str> = words.collect();
        words
            .ends_with(&["E", "end", "of", "data", "1"])
            .then_some(())
    });
    assert!(ends.is_some(), "{}", map.output_text());
    place.write("a.adr", &image);
}

/// Runs the printed commands, and restores from both tapes.
fn go_on(place: &Place, recorded: &Ran, files: &[&str], seen: &mut Seen) {
    let list = place.adr(&["list", "--quiet", "a.adr"]);
    let is_cut = list.status == Some(1);
    let is_behind = list.error.contains("was given up behind job ");
    seen.cut |= is_cut;
    seen.behind |= is_behind;
    seen.between |= !is_cut && !is_behind;
    assert_eq!(list.error.is_empty(), !is_cut && !is_behind);
    if is_behind {
        let check = place.adr(&["check", "a.adr"]).succeeded();
        assert_eq!(check.error, list.error);
        let map = place.adr(&["map", "a.adr"]).succeeded();
        let told = "The tape was full: the last element was given up and still reads.";
        assert!(map.output_text().contains(told));
        shows_the_end(place);
    }

    place.write("rest.sh", &recorded.output);
    place.shell("sh rest.sh").succeeded();
    place.directory("out");
    place.adr(&["salvage", "a.adr", "--into", "out"]);
    let salvaged = place.names("out");
    place.adr(&["restore", "a.adr", "--into", "out", "--overwrite"]);
    let first = place.names("out");
    // Salvage also has a job that lacks nothing but its filemark.
    assert_eq!(salvaged, first);
    let into = ["restore", "a-2.adr", "--into", "out", "--overwrite"];
    place.adr(&into).succeeded();
    let mut all = [&["mon"], files].concat();
    all.sort_unstable();
    assert_eq!(place.names("out"), all);
    for name in all {
        let restored = place.read(&format!("out/{name}"));
        assert!(restored == place.read(name), "{name}");
    }
    // The first tape has the first of them, whole.
    let in_turn = [&["mon"], files].concat();
    assert!(in_turn[..first.len()]
        .iter()
        .all(|name| first.contains(&name.to_string())));
    for name in ["a-2.adr", "rest.sh"] {
        fs::remove_file(place.path(name)).expect("it");
    }
    fs::remove_dir_all(place.path("out")).expect("it");
}
