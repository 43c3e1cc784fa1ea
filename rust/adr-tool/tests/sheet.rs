//! The shelf sheet, and the dump that it is made from.

mod place;
#[path = "../../adr-tape/tests/program/mod.rs"]
mod program;

use std::ops::Range;

use place::image::{
    cells_with, end_of_data, frame_at, lose_frame, seal_frame, BEHIND_GROUP, FRAME,
};
use place::{bytes, Place};
use program::shelf_sheet;

const BLOCK: usize = 32_768;
/// Bytes of an AUX field; type and number stand there.
const FIELD: usize = 512;
const TYPE: Range<usize> = 16..18;
const NUMBER: Range<usize> = 44..48;
const DATA: [u8; 2] = [0x80, 0x00];
const MARKER: [u8; 2] = [0x02, 0x00];
const END: [u8; 2] = [0x01, 0x00];
/// The first user frame.
const FIRST: usize = 10;
/// Bytes of the files that are recorded here, and the blocks that they take: one
/// for each 32 KiB begun, and two around them.
const FILES: [(usize, usize); 4] = [(20_000, 3), (0, 2), (100_000, 6), (BLOCK, 3)];
/// Drives that are tried until what is looked for was seen.
const SEEDS: Range<u64> = 96..400;

const HEADING: &str = "  JOB      FIRST     BLOCKS\n";
const ASTERISKS: &str = "***************************\n";
/// The lines of the first jobs of `FILES`.
const LINES: [&str; 4] = [
    "    1          0          3\n",
    "    2          4          2\n",
    "    3          7          6\n",
    "    4         14          3\n",
];
/// The elements of these jobs: their blocks and a filemark.
const ELEMENTS: [usize; 4] = [4, 3, 7, 4];

/// A place with the files, and a cartridge with so many of them.
fn recorded(name: &str, jobs: usize) -> Place {
    let place = Place::new(name);
    for (at, (length, _)) in FILES.into_iter().enumerate() {
        place.write(&format!("file-{at}"), &bytes(length, at as u64));
    }
    place.adr(&["format", "a.adr"]).succeeded();
    record(&place, &["record", "a.adr"], 0..jobs);
    place
}

/// Records files, with these words before them.
fn record(place: &Place, words: &[&str], files: Range<usize>) {
    let names: Vec<String> = files.map(|at| format!("file-{at}")).collect();
    let names = names.iter().map(String::as_str);
    let words: Vec<&str> = words.iter().copied().chain(names).collect();
    place.adr(&words).succeeded();
}

/// The fields of the cartridge's dump; the program makes this sheet from them, and
/// `adr sheet` prints the same. Where both fail they tell the same, which is given.
#[track_caller]
fn dumped(place: &Place, sheet: &str) -> (Vec<Vec<u8>>, String) {
    let image = place.read("a.adr");
    let printed = place.adr(&["sheet", "a.adr"]);
    assert_eq!(printed.output_text(), sheet);
    let dump = place.adr(&["dump", "a.adr"]);
    assert_eq!((dump.status, &dump.error), (printed.status, &printed.error));
    let program = shelf_sheet();
    let made = place.shell(&format!("$ADR dump a.adr | '{}'", program.display()));
    assert_eq!(made.output_text(), sheet);
    assert!(place.read("a.adr") == image, "the image was changed");
    if printed.status == Some(0) {
        assert_eq!(printed.error, "");
    } else {
        assert!(printed.failed().error.starts_with("adr: a.adr: "));
    }
    assert_eq!(dump.output.len() % FIELD, 0);
    let fields = dump.output.chunks(FIELD).map(<[u8]>::to_vec).collect();
    (fields, dump.error)
}

/// The same of a cartridge that is read to its end.
#[track_caller]
fn dumped_whole(place: &Place, sheet: &str) -> Vec<Vec<u8>> {
    let (fields, error) = dumped(place, sheet);
    assert_eq!(error, "");
    fields
}

/// The same of one that is not; all of this is told.
#[track_caller]
fn dumped_in_part(place: &Place, sheet: &str, told: &[&str]) -> Vec<Vec<u8>> {
    let (fields, error) = dumped(place, sheet);
    for told in told {
        assert!(error.contains(told), "{told}: {error}");
    }
    assert_eq!(error.lines().count(), 1, "{error}");
    fields
}

fn number_of(field: &[u8]) -> usize {
    field[NUMBER]
        .iter()
        .fold(0, |sum, byte| sum * 256 + usize::from(*byte))
}

/// The types of fields, whose numbers must be those from 0 on.
#[track_caller]
fn types_of(fields: &[Vec<u8>]) -> Vec<[u8; 2]> {
    for (number, field) in fields.iter().enumerate() {
        assert_eq!(number_of(field), number);
    }
    let types = fields.iter().map(|field| field[TYPE].try_into());
    types.map(|kind| kind.expect("two bytes")).collect()
}

/// The elements of so many jobs, by their types.
fn types_of_jobs(jobs: usize) -> Vec<[u8; 2]> {
    let blocks = FILES.into_iter().map(|(_, blocks)| blocks).take(jobs);
    let jobs = blocks.map(|blocks| [vec![DATA; blocks], vec![MARKER]].concat());
    jobs.collect::<Vec<_>>().concat()
}

#[test]
fn a_line_for_each_job() {
    for jobs in 1..=FILES.len() {
        let place = recorded(&format!("sheet-{jobs}"), jobs);
        let sheet = HEADING.to_string() + &LINES[..jobs].concat();
        let fields = dumped_whole(&place, &sheet);
        let elements: usize = ELEMENTS[..jobs].iter().sum();
        assert_eq!(fields.len(), elements + 1);
        let types = [types_of_jobs(jobs), vec![END]].concat();
        assert_eq!(types_of(&fields), types);
    }
}

/// The fields are those of the frames that hold the jobs.
#[test]
fn fields_are_of_the_frames() {
    let place = recorded("sheet-frames", 2);
    let image = place.read("a.adr");
    let fields = dumped_whole(&place, &(HEADING.to_string() + LINES[0] + LINES[1]));
    for (address, field) in (FIRST..).zip(&fields) {
        let aux = frame_at(&image, address) + BLOCK;
        assert!(image[aux..aux + FIELD] == *field, "at {address}");
    }
}

/// Jobs that were added are on the sheet as if all were recorded at once, and
/// neither what a drive does to the writing nor to the reading shows.
#[test]
fn added_jobs() {
    let sheet = HEADING.to_string() + &LINES.concat();
    for seed in 1..=12 {
        let place = recorded("sheet-added", 1);
        let faults = format!("--faults={seed}");
        let append = ["record", "--append", &faults, "a.adr"];
        record(&place, &append, 1..3);
        record(&place, &append, 3..4);
        let fields = dumped_whole(&place, &sheet);
        assert_eq!(fields.len(), ELEMENTS.iter().sum::<usize>() + 1);
        let read = place.adr(&["sheet", &faults, "a.adr"]).succeeded();
        assert_eq!(read.output_text(), sheet);
        let read = place.adr(&["dump", &faults, "a.adr"]).succeeded();
        assert!(read.output == fields.concat());
    }
}

/// The sheet of jobs of so many blocks, of whose elements so many are read.
fn sheet_of(jobs: &[usize], elements: usize) -> String {
    let mut sheet = HEADING.to_string();
    let mut first = 0;
    for (job, blocks) in (1..).zip(jobs) {
        let read = elements.saturating_sub(first).min(*blocks);
        if read > 0 {
            sheet += &format!("{job:>5} {first:>10} {read:>10}\n");
        }
        first += blocks + 1;
    }
    sheet
}

/// On a tape that was full an element may read that was given up: the end of
/// data has its number, and the sheet has it.
#[test]
fn full_tapes() {
    let place = Place::nearly_full("sheet-full", BEHIND_GROUP + 1, 32);
    let image = place.read("a.adr");
    let files = ["tue", "wed", "thu", "fri"];
    for (seed, name) in (2..).zip(files) {
        place.write(name, &bytes(seed as usize * 30_000, seed));
    }
    // Of `mon` 40,000 bytes, of the others 60,000 and so on.
    let blocks = [4, 4, 5, 6, 7];
    let (mut as_counted, mut one_below) = (false, false);
    for seed in SEEDS {
        place.write("a.adr", &image);
        let words = ["record", "--append", "--faults", &seed.to_string(), "a.adr"];
        let recorded = place.adr(&[&words[..], &files].concat());
        if recorded.status == Some(0) || recorded.output.is_empty() {
            continue;
        }
        let length = place.adr(&["dump", "a.adr"]).succeeded().output.len();
        let elements = length / FIELD - 1;
        let fields = dumped_whole(&place, &sheet_of(&blocks, elements));
        let (end, before) = fields.split_last().expect("fields");
        assert_eq!(end[TYPE], END);
        assert!(!types_of(before).contains(&END));
        as_counted |= number_of(end) == elements;
        one_below |= number_of(end) + 1 == elements;
        if as_counted && one_below {
            return;
        }
    }
    panic!("as counted: {as_counted}, one below: {one_below}");
}

/// A reading stops where something is missing or not of this format: the job that
/// it is in has no line, and asterisks end the sheet.
#[test]
fn damaged_cartridges() {
    let place = recorded("sheet-damaged", 3);
    let image = place.read("a.adr");
    let helps = "'adr check' tells more, and 'adr salvage' restores the jobs that are whole";
    let end = end_of_data(&image);
    assert_eq!(end, FIRST + ELEMENTS[..3].iter().sum::<usize>());
    // A block of job 1, the filemark of job 2, a block of job 3, the end of data.
    for (address, lines, refusal) in [
        (FIRST, 0, "refusal 10"),
        (FIRST + 6, 1, "refusal 10"),
        (FIRST + 9, 2, "refusal 10"),
        (end, 3, "refusal 12"),
    ] {
        let mut damaged = image.clone();
        let frame = frame_at(&image, address);
        damaged[frame] ^= 1;
        place.write("a.adr", &damaged);
        let sheet = HEADING.to_string() + &LINES[..lines].concat() + ASTERISKS;
        let there = format!("the image is damaged at address {address}");
        let told = ["reading stopped: ", refusal, &there, helps];
        let fields = dumped_in_part(&place, &sheet, &told);
        assert_eq!(types_of(&fields), types_of_jobs(3)[..address - FIRST]);

        // A byte that every recording writes alike, where no number stands.
        let mut foreign = image.clone();
        foreign[frame + FRAME - FIELD + 30] ^= 1;
        seal_frame(&mut foreign, frame);
        place.write("a.adr", &foreign);
        let told = ["reading stopped: ", "refusal 11", helps];
        let fields = dumped_in_part(&place, &sheet, &told);
        assert_eq!(types_of(&fields), types_of_jobs(3)[..address - FIRST]);

        let mut lost = image.clone();
        lose_frame(&mut lost, address);
        place.write("a.adr", &lost);
        dumped_in_part(&place, &sheet, &["reading stopped: ", refusal, helps]);
    }
}

/// A session that was cut short: the sheet has what stands, and asterisks unless
/// a reading comes to an end of data.
#[test]
fn sessions_that_were_not_closed() {
    let place = recorded("sheet-cut", 1);
    let image = place.read("a.adr");
    let closed = "the last session was not closed: 'adr list' tells what stands";
    let nowhere = "no end of data was found (refusal 12); ";
    // Ten copies of the header, then job 2 and three blocks of job 3; or the new
    // end of data, behind which no header names it.
    let all = ELEMENTS[1] + ELEMENTS[2];
    for (elements, lines, told, end) in [
        (ELEMENTS[1] + 3, 2, nowhere, ASTERISKS),
        (all + 1, 3, closed, ""),
    ] {
        place.write("a.adr", &image);
        let cut = format!("--cut-after={}", 10 + elements);
        let words = ["record", "--append", &cut, "a.adr", "file-1", "file-2"];
        place.adr(&words).failed();
        let sheet = HEADING.to_string() + &LINES[..lines].concat() + end;
        let fields = dumped_in_part(&place, &sheet, &[told, closed]);
        assert_eq!(fields.len(), ELEMENTS[0] + elements);
    }
    // Of a frame that is damaged nobody can tell what it was.
    let mut damaged = place.read("a.adr");
    let last = FIRST + ELEMENTS[0] + all;
    let frame = frame_at(&damaged, last);
    damaged[frame] ^= 1;
    place.write("a.adr", &damaged);
    let sheet = HEADING.to_string() + &LINES[..3].concat() + ASTERISKS;
    let there = format!("the image is damaged at address {last}");
    dumped_in_part(&place, &sheet, &["refusal 12", &there, "'adr salvage'"]);
}

/// Where nothing was recorded, or no header reads, there is no field.
#[test]
fn cartridges_without_a_reading() {
    let place = recorded("sheet-none", 1);
    let mut image = place.read("a.adr");
    let sheet = HEADING.to_string() + ASTERISKS;
    for header in cells_with(&image, b"ADR_SEQ\0") {
        image[header] = b'X';
        seal_frame(&mut image, header);
    }
    place.write("a.adr", &image);
    let told = "the cartridge holds frames but no header; nothing was changed: use a copy";
    assert!(dumped_in_part(&place, &sheet, &[told]).is_empty());

    place.adr(&["format", "--overwrite", "a.adr"]).succeeded();
    let told = "the cartridge holds no recording: record something first";
    assert!(dumped_in_part(&place, &sheet, &[told]).is_empty());
}

/// The example of docs/TOOL.md.
#[test]
fn the_worked_example() {
    let place = Place::new("sheet-example");
    for (name, length) in [
        ("monday.csv", 20_000),
        ("tuesday.csv", 31_500),
        ("wednesday.csv", 40_000),
        ("scores.tar", 30_000_000),
    ] {
        place.write(name, &vec![7; length]);
    }
    let program = format!("| '{}'", shelf_sheet().display());
    place.runs_example("The shelf sheet", |line| {
        line.replace("| shelf_sheet", &program)
    });
}
