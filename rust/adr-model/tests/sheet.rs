//! The shelf sheet: the edges by hand, random dumps, and planted faults, each of
//! which must be found.

use adr_model::frame::Kind;
use adr_model::geometry::AUX_LENGTH;
use adr_model::sheet::dumps::{dump_of, fields, AuxField};
use adr_model::sheet::fault::{SheetFault, PLANTED, PLANTED_AT_HIGHEST, PLANTED_AT_LAST_JOB};
use adr_model::sheet::random_dumps::{dump_of_seed, far_on_of_seed};
use adr_model::sheet::{
    printed_behind, rest_of_sheet, rest_with, sheet_of, sheet_with, SheetState, LAST_JOB,
};

/// The seeds within which each planted fault must be found.
const SEEDS: u64 = 600;
/// Those among these that must show it.
const SEVERAL: usize = 3;
const HEADER: &str = "  JOB      FIRST     BLOCKS\n";
const ASTERISKS: &str = "***************************\n";

fn dump(kinds: &str) -> Vec<u8> {
    dump_of(&fields(0, kinds), 9)
}

/// A dump with one more field, of this type and number.
fn dump_and(kinds: &str, type_bytes: [u8; 2], number: u32) -> Vec<u8> {
    let mut listed = fields(0, kinds);
    listed.push(AuxField { type_bytes, number });
    dump_of(&listed, 9)
}

/// The sheet has the header line and then these lines.
#[track_caller]
fn prints(dump: &[u8], lines: &[&str]) {
    let mut expected = HEADER.to_string();
    for line in lines {
        expected += line;
    }
    assert_eq!(sheet_of(dump), expected);
}

#[test]
fn two_blocks_a_filemark_and_another() {
    let sheet = "  JOB      FIRST     BLOCKS\n    \
                     1          0          2\n    \
                     2          3          0\n";
    assert_eq!(sheet_of(&dump("bb//e")), sheet);
    assert_eq!(sheet_of(&dump("bb//<")), sheet);
}

#[test]
fn nothing_delivered() {
    prints(&dump("e"), &[]);
    prints(&[], &[ASTERISKS]);
    // Nothing is one below 0.
    prints(&dump("<"), &[ASTERISKS]);
    prints(&dump_and("", [0x01, 0x00], 1), &[ASTERISKS]);
}

#[test]
fn jobs_and_their_columns() {
    let one = "    1          0          0\n";
    prints(&dump("/e"), &[one]);
    prints(&dump("be"), &["    1          0          1\n"]);
    prints(&dump("/be"), &[one, "    2          1          1\n"]);
    let twelve = "/".repeat(10) + &"b".repeat(120) + "/bbbe";
    let sheet = sheet_of(&dump(&twelve));
    let last =
        "   10          9          0\n   11         10        120\n   12        131          3\n";
    assert!(sheet.ends_with(last), "{sheet}");
}

#[test]
fn a_dump_cut_short() {
    let one = "    1          0          1\n";
    prints(&dump("b"), &[ASTERISKS]);
    prints(&dump("b/"), &[one, ASTERISKS]);
    prints(&dump("b/bb"), &[one, ASTERISKS]);
    let whole = dump("bb//e");
    let lines = [
        "    1          0          2\n",
        "    2          3          0\n",
    ];
    for length in 0..whole.len() {
        let closed = (length / AUX_LENGTH).saturating_sub(2).min(2);
        let expected = [&lines[..closed], &[ASTERISKS]].concat();
        prints(&whole[..length], &expected);
    }
    prints(&whole, &lines);
}

#[test]
fn bytes_behind_eod() {
    let one = "    1          0          1\n";
    for behind in [&b"x"[..], &[0; 511], &dump("b/e"), &dump("/")] {
        prints(&[&dump("b/e")[..], behind].concat(), &[one]);
        prints(&[&dump("b<")[..], behind].concat(), &[one]);
    }
    // What follows would be the next, but for EOD.
    prints(&dump("be/e"), &[one]);
}

#[test]
fn types() {
    let one = "    1          0          0\n";
    for kind in [Kind::Data, Kind::Marker, Kind::Eod] {
        let [first, _] = kind.type_bytes();
        let others = [[0, first], [first, 1], [first, 0x80], [first | 4, 0]];
        for other in others
            .into_iter()
            .chain([[0, 0], [0x82, 0], [8, 0], [0xFF, 0xFF]])
        {
            prints(&dump_and("/", other, 1), &[one, ASTERISKS]);
            prints(&dump_and("/b", other, 2), &[one, ASTERISKS]);
        }
    }
    // All others.
    let known = [0x8000, 0x0200, 0x0100];
    for other in (0..=u16::MAX).filter(|other| !known.contains(other)) {
        prints(&dump_and("", other.to_be_bytes(), 0), &[ASTERISKS]);
    }
}

#[test]
fn numbers() {
    let one = "    1          0          2\n";
    for kind in [Kind::Data, Kind::Marker, Kind::Eod] {
        for number in [0, 1, 2, 3, 4, 0x0300_0000, 0x0001_0003, u32::MAX] {
            let dump = dump_and("bb/", kind.type_bytes(), number);
            let longer = [&dump[..], &dump_of(&fields(4, "/e"), 1)].concat();
            let lines: &[&str] = match (kind, number) {
                (Kind::Data, 3) => &[one, "    2          3          1\n"],
                (Kind::Marker, 3) => &[
                    one,
                    "    2          3          0\n",
                    "    3          4          0\n",
                ],
                (Kind::Eod, 2 | 3) => &[one],
                _ => &[one, ASTERISKS],
            };
            prints(&longer, lines);
        }
    }
}

/// 99,999 jobs have lines; a job more has none, whether a filemark ends it or
/// EOD does.
#[test]
fn the_last_job() {
    let most = "/".repeat(LAST_JOB as usize);
    let lines: String = (1..=LAST_JOB)
        .map(|job| format!("{job:5} {:10} {:10}\n", job - 1, 0))
        .collect();
    assert_eq!(
        sheet_of(&dump(&(most.clone() + "e"))),
        format!("{HEADER}{lines}")
    );
    for more in ["be", "/e", "b/"] {
        let dump = dump(&(most.clone() + more));
        assert!(
            sheet_of(&dump) == format!("{HEADER}{lines}{ASTERISKS}"),
            "{more}"
        );
    }
}

fn state(job: u32, first: u64, next: u64) -> SheetState {
    SheetState { job, first, next }
}

#[test]
fn the_highest_number() {
    let highest = u64::from(u32::MAX);
    let at = |first, next, kinds| {
        rest_of_sheet(state(7, first, next), &dump_of(&fields(next, kinds), 3))
    };
    let marker = "    7 4294967295          0\n";
    assert_eq!(at(highest, highest, "/<"), marker);
    assert_eq!(at(highest, highest, "b<"), "    7 4294967295          1\n");
    assert_eq!(at(0, highest, "b<"), "    7          0 4294967296\n");
    assert_eq!(at(1, highest, "/<"), "    7          1 4294967294\n");
    assert_eq!(at(highest, highest, "e"), "");
    assert_eq!(at(highest, highest, "<"), "");
    // No number is next.
    assert_eq!(at(highest, highest, "/e"), format!("{marker}{ASTERISKS}"));
    assert_eq!(at(highest, highest, "/b<"), format!("{marker}{ASTERISKS}"));
    assert_eq!(at(highest, highest, "b/<"), ASTERISKS);
    assert_eq!(at(highest, highest, "/"), format!("{marker}{ASTERISKS}"));
    assert_eq!(at(6, highest + 1, "<"), "    7          6 4294967290\n");
    assert_eq!(at(highest + 1, highest + 1, "<"), "");
}

#[test]
fn a_sheet_that_goes_on() {
    let at = |job, first, next, kinds| {
        rest_of_sheet(state(job, first, next), &dump_of(&fields(next, kinds), 3))
    };
    assert_eq!(at(3, 10, 14, "e"), "    3         10          4\n");
    assert_eq!(at(3, 10, 14, "b/<"), "    3         10          5\n");
    assert_eq!(at(3, 14, 14, "e"), "");
    assert_eq!(
        at(99_999, 200_000, 200_001, "/e"),
        "99999     200000          1\n"
    );
    assert_eq!(at(100_000, 200_000, 200_000, "e"), "");
    assert_eq!(at(100_000, 200_000, 200_001, "e"), ASTERISKS);
    assert_eq!(at(100_000, 200_000, 200_000, "/e"), ASTERISKS);
}

/// A sheet goes on alike from wherever it stands.
#[test]
fn from_every_field_on() {
    let kinds = "b//bb/bbb/<";
    let whole = sheet_of(&dump(kinds));
    for at in 0..kinds.len() {
        let (before, rest) = kinds.split_at(at);
        let job = 1 + before.matches('/').count();
        let first = before.rfind('/').map_or(0, |filemark| filemark + 1);
        let state = state(job as u32, first as u64, at as u64);
        let printed = printed_behind(SheetState::NEW, &dump(before));
        let rest = rest_of_sheet(state, &dump_of(&fields(at as u64, rest), 3));
        assert_eq!(format!("{HEADER}{printed}{rest}"), whole, "from {at} on");
    }
}

/// A sheet grows field by field by a line or not at all, and its end adds
/// asterisks or nothing.
#[test]
fn field_by_field() {
    for seed in 0..SEEDS {
        let (state, rest) = far_on_of_seed(seed);
        for (state, rest) in [(state, rest), (SheetState::NEW, dump_of_seed(seed))] {
            let mut before = String::new();
            for length in (0..=rest.len()).step_by(AUX_LENGTH) {
                let printed = printed_behind(state, &rest[..length]);
                let line = printed.strip_prefix(&before).expect("the same lines first");
                assert!([0, 28].contains(&line.len()), "seed {seed}: {line}");
                before = printed;
            }
            let whole = rest_of_sheet(state, &rest);
            let end = whole.strip_prefix(&before).expect("the same lines first");
            assert!(["", ASTERISKS].contains(&end), "seed {seed}: {end}");
            assert!(
                whole.lines().all(|line| line.len() == 27),
                "seed {seed}: {whole}"
            );
        }
    }
}

/// The planted faults that fewer than several of these seeds show.
fn unseen(faults: &[SheetFault], shows: impl Fn(u64, SheetFault) -> bool) -> Vec<SheetFault> {
    let is_unseen = |fault: &SheetFault| {
        let found = (0..SEEDS).filter(|seed| shows(*seed, *fault)).count();
        println!("{fault:?}: {found} seeds");
        found < SEVERAL
    };
    faults.iter().copied().filter(is_unseen).collect()
}

#[test]
fn planted_faults_are_found() {
    let shows = |seed, fault| {
        let dump = dump_of_seed(seed);
        sheet_with(&dump, fault) != sheet_of(&dump)
    };
    assert_eq!(unseen(&PLANTED, shows), []);
}

#[test]
fn planted_faults_far_on_are_found() {
    let shows = |seed, fault| {
        let (state, rest) = far_on_of_seed(seed);
        rest_with(state, &rest, fault) != rest_of_sheet(state, &rest)
    };
    assert_eq!(unseen(&PLANTED_AT_LAST_JOB, shows), []);
    assert_eq!(unseen(&PLANTED_AT_HIGHEST, shows), []);
}
