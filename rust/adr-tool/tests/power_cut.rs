//! Sessions in which the mains go, behind each of their frames.

mod place;

use place::image::frame_at;
use place::{bytes, Place, Ran};

const BLOCK: usize = 32_768;
/// The frames that a job takes beside its data, the last of them its filemark.
const AROUND: usize = 3;
/// Copies of the header at the opening of a session, and as many at its close.
const COPIES: usize = 10;
/// The frame of the end of data.
const END: usize = 1;

/// Files by name and length; the first is recorded, the others are added.
const MONDAY: (&str, usize) = ("mon", 3);
const OTHERS: [(&str, usize); 2] = [("tue", 40_000), ("wed", 5)];

const NOT_CLOSED: &str = "the last session was not closed, as when the mains go: \
                          the newest header names no end of data";
const NEXT: &str = "nothing can be added to it: restore the jobs that are whole, then \
                    record on another cartridge, or afresh on this one with '--overwrite'\n";
const NO_END: &str = "no end of data is found (refusal 12)";
const OLD_END: &str = "a reading ends where it did before";
const OWN_END: &str = "a reading ends at the end of data that it wrote";

/// A place with the files, and an empty cartridge.
fn empty(name: &str) -> Place {
    let place = Place::new(name);
    for (seed, (name, length)) in (0..).zip([&[MONDAY][..], &OTHERS].concat()) {
        place.write(name, &bytes(length, seed));
    }
    place.directory("out");
    let words = ["format", "a.adr", "--segtrk", "3001", "--trks", "1"];
    place.adr(&words).succeeded();
    place
}

/// The same with the first file on the cartridge.
fn monday(name: &str) -> Place {
    let place = empty(name);
    place
        .adr(&["record", "--quiet", "a.adr", MONDAY.0])
        .succeeded();
    place
}

/// Records the other files and lets the mains go.
fn cut(place: &Place, options: &[&str], frames: usize) -> Ran {
    let frames = frames.to_string();
    let words = ["record", "--quiet", "--cut-after", &frames];
    let names = OTHERS.map(|(name, _)| name);
    place.adr(&[&words[..], options, &["a.adr"], &names].concat())
}

fn elements_of(length: usize) -> usize {
    length.div_ceil(BLOCK) + AROUND
}

/// How far a session got.
#[derive(Clone, Copy, Debug, PartialEq, Eq)]
enum Stage {
    /// No header was written.
    Nothing,
    /// An opening header is the newest, and so many of its elements are on tape.
    Open(usize),
    /// The end of data too.
    Ended,
    /// A closing header is the newest.
    Closed,
}

fn all_elements() -> usize {
    OTHERS.map(|(_, length)| elements_of(length)).iter().sum()
}

fn all_frames() -> usize {
    2 * COPIES + all_elements() + END
}

fn stage(frames: usize) -> Stage {
    let end = COPIES + all_elements() + END;
    match frames {
        0 => Stage::Nothing,
        _ if frames < end => Stage::Open(frames.saturating_sub(COPIES)),
        _ if frames == end => Stage::Ended,
        _ => Stage::Closed,
    }
}

/// What is to be found of a session that added to the first file, or was a new
/// recording.
struct Expected {
    /// The jobs that are whole, and the one behind them if there is a part of it.
    whole: Vec<&'static str>,
    part: Option<(&'static str, String)>,
    /// What is told behind that it was not closed.
    told: Option<String>,
}

impl Expected {
    fn of(stage: Stage, adds: bool) -> Expected {
        let before = if adds { &[MONDAY.0][..] } else { &[] };
        let elements = match stage {
            Stage::Nothing => 0,
            Stage::Open(elements) => elements,
            Stage::Ended | Stage::Closed => all_elements(),
        };
        let (mut whole, mut part, mut left) = (before.to_vec(), None, elements);
        for (name, length) in OTHERS {
            let needed = elements_of(length);
            if left >= needed {
                whole.push(name);
            } else if left > 0 {
                part = Some((name, part_of(length, left)));
            }
            left = left.saturating_sub(needed);
        }
        let own = whole.len() - before.len();
        let told = told(stage, adds, elements, own, part.is_some());
        Expected { whole, part, told }
    }

    /// What `list` has behind the time of each job.
    fn rows(&self) -> Vec<String> {
        let whole = self.whole.iter().map(|name| name.to_string());
        let part = self
            .part
            .iter()
            .map(|(name, why)| format!("{name} ({why})"));
        whole.chain(part).collect()
    }
}

/// Why a job is not whole of which so many elements are on tape.
fn part_of(length: usize, elements: usize) -> String {
    if elements == elements_of(length) - 1 {
        return String::from("its filemark is missing");
    }
    let on_tape = ((elements - 1) * BLOCK).min(length);
    let grouped = |number: usize| match number {
        0..1_000 => number.to_string(),
        _ => format!("{},{:03}", number / 1_000, number % 1_000),
    };
    let (on_tape, length) = (grouped(on_tape), grouped(length));
    format!("cut off behind {on_tape} of its {length} bytes: its session was not closed")
}

fn told(stage: Stage, adds: bool, elements: usize, jobs: usize, part: bool) -> Option<String> {
    let end = match stage {
        Stage::Nothing | Stage::Closed => return None,
        Stage::Ended => OWN_END,
        Stage::Open(0) if adds => OLD_END,
        Stage::Open(_) => NO_END,
    };
    let before = if adds {
        "it added to 4 elements (1 whole job), all of which stand"
    } else {
        "it was a new recording"
    };
    let own = match (jobs, part) {
        (0, false) => return Some(format!("{before}; nothing of its own is read, and {end}")),
        (0, true) => String::from("a part of a job"),
        (1, false) => String::from("1 whole job"),
        (1, true) => String::from("1 whole job and a part of the next"),
        _ => format!("{jobs} whole jobs"),
    };
    let stands = match elements {
        1 => String::from("the first element of its own stands"),
        _ => format!("the first {elements} elements of its own stand"),
    };
    Some(format!("{before}; {stands} ({own}), and {end}"))
}

/// What a command tells of a session that was not closed: the first line and the
/// second one.
fn lines(told: &str) -> String {
    format!("adr: a.adr: {NOT_CLOSED}\nadr: a.adr: {told}\n")
}

#[track_caller]
fn lists(place: &Place, expected: &Expected) {
    let list = place.adr(&["list", "--quiet", "a.adr"]);
    let rows: Vec<&str> = list.output_text().lines().collect();
    let ends: Vec<String> = expected.rows();
    assert_eq!(rows.len(), ends.len(), "{rows:?}");
    for (row, end) in rows.iter().zip(&ends) {
        assert!(row.ends_with(&format!("  {end}")), "{row}: {end}");
    }
    match &expected.told {
        None => assert_eq!(list.succeeded().error, ""),
        Some(told) => {
            let told = format!("{}adr: a.adr: {NEXT}", lines(told));
            let list = list.failed();
            assert!(list.error.ends_with(&told), "{}", list.error);
            assert!(!list.error.contains("the tape was full"));
        }
    }
}

#[track_caller]
fn checks(place: &Place, expected: &Expected) {
    let check = place.adr(&["check", "a.adr"]);
    let Some(told) = &expected.told else {
        assert_eq!(check.succeeded().error, "");
        return;
    };
    let mut wrong: Vec<String> = Vec::new();
    let job = expected.whole.len() + 1;
    let part = expected.part.as_ref();
    wrong.extend(part.map(|(_, why)| format!("job {job} is not whole: {why}")));
    wrong.push(format!("{NOT_CLOSED}; {told}"));
    let things = match wrong.len() {
        1 => String::from("1 thing is"),
        things => format!("{things} things are"),
    };
    wrong.push(format!("{things} wrong; {}", NEXT.trim_end()));
    let wrong: Vec<String> = wrong
        .iter()
        .map(|wrong| format!("adr: a.adr: {wrong}\n"))
        .collect();
    let check = check.failed();
    assert!(check.error.ends_with(&wrong.concat()), "{}", check.error);
}

#[track_caller]
fn maps(place: &Place, expected: &Expected) {
    let map = place.adr(&["map", "a.adr"]);
    let Some(told) = &expected.told else {
        map.succeeded();
        return;
    };
    let map = map.failed();
    let text = map.output_text();
    assert!(text.contains(&format!("  T{}.\n", &NOT_CLOSED[1..])));
    let sentences = told.split("; ").map(|told| {
        let (first, rest) = told.split_at(1);
        format!("  {}{rest}.\n", first.to_uppercase())
    });
    for sentence in sentences {
        assert!(text.contains(&sentence), "{text}: {sentence}");
    }
    let error = format!("adr: a.adr: {NOT_CLOSED}; {told}: 'adr check' tells more\n");
    assert_eq!(map.error, error);
}

/// The directory holds these files, as they were; it is then empty again.
#[track_caller]
fn are_in_directory(place: &Place, names: &[&str]) {
    place.has_copies("out", names);
    for name in names {
        std::fs::remove_file(place.path(&format!("out/{name}"))).expect("it");
    }
}

#[track_caller]
fn restores(place: &Place, expected: &Expected) {
    let restored = place.adr(&["restore", "a.adr", "--into", "out"]);
    match &expected.told {
        None => assert_eq!(restored.succeeded().error, ""),
        Some(told) => {
            let restored = restored.failed();
            let job = expected.whole.len() + 1;
            let part = expected.part.as_ref().map(|(_, why)| {
                assert!(restored
                    .error
                    .contains(&format!("job {job} is not whole: {why}")));
                "1 job was not restored\n"
            });
            let last = part.unwrap_or(
                "the jobs asked for are restored as far as they are whole; \
                 the last session was not closed, and whether it was to hold more is not known\n",
            );
            let end = format!("{}adr: a.adr: {last}", lines(told));
            assert!(restored.error.ends_with(&end), "{}", restored.error);
        }
    }
    are_in_directory(place, &expected.whole);
}

/// A job that is whole is restored by its number, whatever stands behind it.
#[track_caller]
fn restores_by_number(place: &Place, job: usize, name: &str) {
    let restored = place.adr(&["restore", "a.adr", &job.to_string()]);
    assert!(restored.succeeded().output == place.read(name), "job {job}");
}

/// A job that lacks nothing but its filemark is salvaged too.
#[track_caller]
fn salvages(place: &Place, expected: &Expected) {
    place.adr(&["salvage", "a.adr", "--into", "out"]);
    let lacks_filemark = |(_, why): &&(&str, String)| why == "its filemark is missing";
    let part = expected.part.as_ref().filter(lacks_filemark);
    let part = part.map(|(name, _)| *name);
    let names: Vec<&str> = expected.whole.iter().copied().chain(part).collect();
    are_in_directory(place, &names);
}

/// What can be added to is, and nothing else.
#[track_caller]
fn adds_where_it_may(place: &Place, expected: &Expected) {
    let image = place.read("a.adr");
    let added = place.adr(&["record", "--quiet", "--append", "a.adr", "wed"]);
    let why = match (&expected.told, expected.whole.is_empty()) {
        (None, false) => {
            added.succeeded();
            restores_by_number(place, expected.whole.len() + 1, "wed");
            return;
        }
        (None, true) => "the cartridge holds no recording to add to",
        (Some(_), _) => {
            "the last recording was not closed, and nothing can be added behind it; \
             nothing was changed: restore what can be read, and use another cartridge, \
             or record afresh with '--overwrite'; 'adr list' tells what stands\n"
        }
    };
    let added = added.failed();
    assert!(added.error.contains(why), "{}", added.error);
    assert!(place.read("a.adr") == image, "the image was changed");
}

/// The mains go behind so many frames: what every command then finds.
#[track_caller]
fn stands(place: &Place, recorded: Ran, frames: usize, adds: bool) {
    let recorded = recorded.failed();
    let plural = if frames == 1 { "frame" } else { "frames" };
    let went = format!("adr: a.adr: the mains went behind {frames} {plural} of this session, and ");
    assert!(recorded.error.starts_with(&went), "{}", recorded.error);
    assert!(recorded.error.ends_with(
        "the recording was not reported whole, and the image holds what the tape holds: \
         'adr list' and 'adr check' tell what stands and what can be done, \
         'adr restore' restores the jobs that are whole\n"
    ));
    let expected = Expected::of(stage(frames), adds);
    lists(place, &expected);
    checks(place, &expected);
    maps(place, &expected);
    restores(place, &expected);
    if expected.part.is_some() {
        salvages(place, &expected);
    }
    if let Some(name) = expected.whole.last() {
        restores_by_number(place, expected.whole.len(), name);
    }
    adds_where_it_may(place, &expected);
}

/// Cuts a session behind each of its frames.
fn each_cut(place: &Place, options: &[&str], adds: bool) {
    let before = place.read("a.adr");
    for frames in 0..=all_frames() {
        place.write("a.adr", &before);
        let recorded = cut(place, options, frames);
        stands(place, recorded, frames, adds);
    }
}

#[test]
fn additions() {
    each_cut(&monday("cut-additions"), &["--append"], true);
}

#[test]
fn new_recordings() {
    each_cut(&empty("cut-recordings"), &[], false);
}

/// What was there before is lost with the first header, and not before; and only
/// where it was asked for. Then a new recording replaces what stands.
#[test]
fn over_an_older_recording() {
    let place = monday("cut-over");
    let before = place.read("a.adr");
    let refused = cut(&place, &[], 3).failed();
    assert!(refused.error.contains("use '--overwrite' to replace it"));
    assert!(place.read("a.adr") == before, "the image was changed");
    for frames in [0, 1, COPIES, COPIES + 1, COPIES + 3, all_frames() - 1] {
        place.write("a.adr", &before);
        let recorded = cut(&place, &["--overwrite"], frames);
        if frames == 0 {
            recorded.failed();
            let list = place.adr(&["list", "--quiet", "a.adr"]).succeeded();
            assert!(list.output_text().ends_with("  mon\n"));
        } else {
            stands(&place, recorded, frames, false);
        }
        let words = ["record", "--quiet", "--overwrite", "a.adr", "tue"];
        place.adr(&words).succeeded();
        place.adr(&["check", "a.adr"]).succeeded();
        place
            .adr(&["restore", "a.adr", "--into", "out"])
            .succeeded();
        are_in_directory(&place, &["tue"]);
    }
}

/// A session that is done before is whole, and that is told.
#[test]
fn behind_the_last_frame() {
    let place = monday("cut-late");
    let done = cut(&place, &["--append"], all_frames() + 1).succeeded();
    let (all, after) = (all_frames(), all_frames() + 1);
    let told = format!(
        "adr: a.adr: the session was done with {all} frames, \
         and the mains were to go behind {after}: it was not cut short\n"
    );
    assert_eq!(done.error, told);
    let expected = Expected::of(Stage::Closed, true);
    lists(&place, &expected);
    adds_where_it_may(&place, &expected);
}

#[test]
fn wrong_words() {
    let place = monday("cut-words");
    let before = place.read("a.adr");
    for word in ["", "x", "-1", "1.5", "18446744073709551616"] {
        let words = ["record", "--append", "--cut-after", word, "a.adr", "tue"];
        let ran = place.adr(&words);
        let told = format!("adr: --cut-after: '{word}' is not a number that fits");
        assert_eq!(ran.status, Some(2), "{}", ran.error);
        assert!(ran.error.starts_with(&told), "{}", ran.error);
        assert!(place.read("a.adr") == before, "the image was changed");
    }
    // A session that does not begin is not cut either.
    let ran = place.adr(&["record", "--append", "--cut-after", "3", "a.adr", "none"]);
    assert!(ran.failed().error.contains("none: No such file"));
    assert!(place.read("a.adr") == before, "the image was changed");
}

/// Whatever else the drive does: the jobs before the session are whole, then come
/// the first of its own, and a reading ends in no other refusal than 12.
#[test]
fn on_faulty_drives() {
    let place = monday("cut-faults");
    let before = place.read("a.adr");
    let (mut cuts, mut ends) = (0, 0);
    for seed in 0..100 {
        place.write("a.adr", &before);
        // Of the closing headers some may fail, and then there are fewer frames.
        let frames = 1 + seed * 7 % (COPIES + all_elements());
        let recorded = cut(&place, &["--append", "--faults", &seed.to_string()], frames);
        let went = format!("adr: a.adr: the mains went behind {frames} frame");
        assert!(recorded.failed().error.starts_with(&went));
        let list = place.adr(&["list", "--quiet", "a.adr"]);
        for other in ["reading stopped", "refusal 8", "refusal 10", "refusal 11"] {
            assert!(!list.error.contains(other), "seed {seed}: {}", list.error);
        }
        cuts += usize::from(list.error.contains(NO_END));
        ends += usize::from(list.error.contains(OLD_END) || list.error.contains(OWN_END));
        place.adr(&["restore", "a.adr", "--into", "out", "--quiet"]);
        let jobs = place.names("out").len();
        let names = [MONDAY.0, OTHERS[0].0, OTHERS[1].0];
        assert!((1..=3).contains(&jobs), "seed {seed}");
        are_in_directory(&place, &names[..jobs]);
    }
    assert!(cuts > 0 && ends > 0, "{cuts} and {ends}");
}

/// The example in the documentation is what the tool prints.
#[test]
fn the_example() {
    let place = Place::new("cut-example");
    for (day, length) in [
        ("05 mon", 20_000),
        ("06 tues", 31_500),
        ("07 wednes", 40_000),
    ] {
        let (date, name) = day.split_once(' ').expect("two words");
        place.write(&format!("{name}day.csv"), &bytes(length, 1));
        let touch = format!("TZ=UTC touch -d '2001-02-{date} 18:00' {name}day.csv");
        place.shell(&touch).succeeded();
    }
    place.directory("there");
    place.runs_example("When the mains are gone", str::to_string);
}

/// Where a frame of a session that was not closed is damaged, nobody can tell
/// what it was: no command says that all stands.
#[test]
fn damage_behind_a_cut() {
    let place = monday("cut-damage");
    cut(&place, &["--append"], COPIES + 2).failed();
    let image = place.read("a.adr");
    // The last frame that stands: behind it there is nothing that could be missed.
    let address = 10 + elements_of(MONDAY.1) + 1;
    let mut damaged = image.clone();
    damaged[frame_at(&image, address) + 100] ^= 1;
    place.write("a.adr", &damaged);
    for command in ["list", "check", "map"] {
        let ran = place.adr(&[command, "a.adr"]).failed();
        let told = format!("{}{}", ran.output_text(), ran.error);
        assert!(!told.contains(&NOT_CLOSED[1..]), "{command}: {told}");
    }
}
