//! The calls of a shelf sheet beside the model: each answer, each byte of the line
//! and beside it, and the numbers of the sheet, which must mean what they say.

mod compared;

use adr_model::check::guarded::Guarded;
use adr_model::random::Random;
use adr_model::sheet::dumps::{dump_of, fields};
use adr_model::sheet::random_dumps::{dump_of_seed, far_on_of_seed};
use adr_model::sheet::{printed_behind, rest_of_sheet, sheet_of, SheetState, LAST_JOB};
use adr_tape::{ffi, SheetLine, ShelfSheet, AUX_LENGTH, LINE_LENGTH};
use compared::guarded;

const SEEDS: u64 = if cfg!(debug_assertions) { 300 } else { 3_000 };
/// What a lent line holds before a call: no line has such a byte.
const FILLER: u8 = 0xA5;
/// One above the highest number of a field.
const NUMBERS: u64 = 1 << 32;

/// A sheet where the model's stands.
fn sheet_at(state: SheetState) -> ffi::Sheet {
    ffi::Sheet {
        first: state.first,
        next: state.next,
        job: state.job,
        ended: 0,
    }
}

fn state_of(sheet: ffi::Sheet) -> SheetState {
    SheetState {
        job: sheet.job,
        first: sheet.first,
        next: sheet.next,
    }
}

/// Makes a call with a line of this length: nothing is written beside it, and
/// nothing in it unless it is to be printed. The line, where it is.
#[track_caller]
fn lend_line(
    length: usize,
    call: impl FnOnce(&mut [u8]) -> ffi::SheetEntered,
) -> (ffi::SheetEntered, Option<String>) {
    let (entered, line, intact) = guarded(&vec![FILLER; length], call);
    assert!(intact, "written beside the line");
    let unaltered = line.iter().all(|byte| *byte == FILLER);
    if entered.answer == ffi::LINE {
        assert_eq!((entered.number, length), (0, LINE_LENGTH));
        let text = String::from_utf8(line.to_vec()).expect("text");
        return (entered, Some(text));
    }
    assert!(unaltered, "a line that is not to be printed was altered");
    let answer = if entered.number == 0 {
        ffi::NOTHING
    } else {
        ffi::REFUSED
    };
    assert_eq!(entered.answer, answer);
    (entered, None)
}

/// Enters a field, which must come back as it was.
#[track_caller]
fn enter(sheet: ffi::Sheet, field: &[u8], length: usize) -> (ffi::SheetEntered, Option<String>) {
    let lent = Guarded::of(field);
    let result = lend_line(length, |line| ffi::sheet_enter(sheet, &lent, line));
    assert!(lent.is_intact() && *lent == *field, "a field was altered");
    result
}

/// A call that is refused with this number leaves the sheet as it was.
#[track_caller]
fn refused(sheet: ffi::Sheet, number: u8, (entered, line): (ffi::SheetEntered, Option<String>)) {
    assert_eq!((entered.sheet, entered.number), (sheet, number));
    assert_eq!((entered.answer, line), (ffi::REFUSED, None));
}

/// Enters a dump from where a sheet stands, and finishes: what is printed in all
/// and behind each field is what the model has, and from the numbers of the sheet
/// the model goes on alike. The sheet in the end.
#[track_caller]
fn compare(seed: u64, start: SheetState, dump: &[u8]) -> ffi::Sheet {
    let whole = rest_of_sheet(start, dump);
    let (mut sheet, mut printed) = (sheet_at(start), String::new());
    for (field, behind) in dump.chunks_exact(AUX_LENGTH).zip(1..) {
        let (before, rest) = dump.split_at(behind * AUX_LENGTH);
        let (entered, line) = enter(sheet, field, LINE_LENGTH);
        if sheet.ended == 1 {
            assert_eq!(
                (entered.sheet, line.is_none()),
                (sheet, true),
                "seed {seed}"
            );
        }
        sheet = entered.sheet;
        printed += &line.unwrap_or_default();
        assert_eq!(printed, printed_behind(start, before), "seed {seed}");
        if sheet.ended == 0 {
            let goes_on = rest_of_sheet(state_of(sheet), rest);
            assert_eq!(format!("{printed}{goes_on}"), whole, "seed {seed}");
        }
    }
    let (finished, line) = lend_line(LINE_LENGTH, |line| ffi::sheet_finish(sheet, line));
    assert_eq!(line.is_some(), sheet.ended == 0, "seed {seed}");
    sheet.ended = 1;
    assert_eq!(finished.sheet, sheet, "seed {seed}");
    printed += &line.unwrap_or_default();
    assert_eq!(printed, whole, "seed {seed}");
    sheet
}

/// What the wrapper prints of a dump.
fn printed(dump: &[u8]) -> String {
    let (mut sheet, heading) = ShelfSheet::open();
    let mut text = heading.to_string();
    let mut print = |line: Option<SheetLine>| {
        let Some(line) = line else { return };
        let shown = line.to_string();
        assert_eq!(line.as_bytes(), shown.as_bytes());
        assert_eq!(line.breaks_off(), shown.contains('*'));
        text += &shown;
    };
    for field in dump.chunks_exact(AUX_LENGTH) {
        print(sheet.enter(field.try_into().expect("a field")));
    }
    print(sheet.finish());
    assert!(sheet.has_ended() && sheet.finish().is_none());
    text
}

#[test]
fn a_new_sheet() {
    let (entered, line) = lend_line(LINE_LENGTH, ffi::sheet_open);
    let new = sheet_at(SheetState::NEW);
    assert_eq!((entered.sheet, entered.number), (new, 0));
    assert_eq!(line.as_deref(), Some("  JOB      FIRST     BLOCKS\n"));
    // As every opening that is refused, it gives what has ended.
    let ended = ffi::Sheet { ended: 1, ..new };
    for length in other_lengths(LINE_LENGTH) {
        refused(ended, 1, lend_line(length, ffi::sheet_open));
    }
    assert!(!ShelfSheet::open().0.has_ended());
}

#[test]
fn random_dumps() {
    for seed in 0..SEEDS {
        let dump = dump_of_seed(seed);
        compare(seed, SheetState::NEW, &dump);
        assert_eq!(printed(&dump), sheet_of(&dump), "seed {seed}");
    }
}

/// Sheets near the last job that has a line, and near the highest number.
#[test]
fn sheets_far_on() {
    let (mut above, mut highest) = (0, 0);
    for seed in 0..SEEDS {
        let (state, dump) = far_on_of_seed(seed);
        let end = compare(seed, state, &dump);
        above += u32::from(end.job > LAST_JOB);
        highest += u32::from(end.next == NUMBERS);
    }
    assert!(above > 20 && highest > 20, "{above} and {highest}");
}

/// Where the last job and the highest number are, one at a time and both at once.
#[test]
fn edges() {
    let kinds = [
        "e", "<", "b", "be", "b<", "/", "/e", "/<", "b/be", "//b/e", "bbb",
    ];
    for job in LAST_JOB - 1..=LAST_JOB + 2 {
        for next in [0, 100_000, NUMBERS - 3, NUMBERS - 2, NUMBERS - 1, NUMBERS] {
            for blocks in [0, 1, 9_999_999_999] {
                let first = u64::saturating_sub(next, blocks);
                let state = SheetState { job, first, next };
                for kinds in kinds {
                    compare(0, state, &dump_of(&fields(next, kinds), 9));
                }
            }
        }
    }
}

/// Each number of a sheet is where it is named.
#[test]
fn fields_are_where_they_are_named() {
    let start = ffi::Sheet {
        first: 0x0102_0304,
        next: 0xA1B2_C3D4,
        job: 12_345,
        ended: 0,
    };
    let entered = |sheet: ffi::Sheet, kind: &str| {
        let field = dump_of(&fields(sheet.next, kind), 9);
        enter(sheet, &field, LINE_LENGTH)
    };
    let next = start.next + 1;
    let (block, line) = entered(start, "b");
    assert_eq!((block.sheet, line), (ffi::Sheet { next, ..start }, None));
    let (filemark, line) = entered(start, "/");
    let after = ffi::Sheet {
        first: next,
        next,
        job: 12_346,
        ended: 0,
    };
    assert_eq!(filemark.sheet, after);
    // 0x0102_0304, and 0xA1B2_C3D4 less that.
    let job_line = "12345   16909060 2695938256\n";
    assert_eq!(line.as_deref(), Some(job_line));
    let ended = ffi::Sheet { ended: 1, ..start };
    let (end, line) = entered(start, "e");
    assert_eq!((end.sheet, line.as_deref()), (ended, Some(job_line)));
    let (wrong, line) = enter(start, &[0; AUX_LENGTH], LINE_LENGTH);
    assert_eq!((wrong.sheet, line), (ended, Some("*".repeat(27) + "\n")));
}

/// Lengths that are not this one.
fn other_lengths(length: usize) -> Vec<usize> {
    let mut lengths = vec![0, 1, length - 1, length + 1, 2 * length, 33_280];
    lengths.retain(|other| *other != length);
    lengths
}

/// A line or a field of another length is refused, by a sheet that has ended too.
#[test]
fn wrong_lengths() {
    let field = dump_of(&fields(7, "/"), 9);
    for ended in [0, 1] {
        let sheet = ffi::Sheet {
            first: 5,
            next: 7,
            job: 3,
            ended,
        };
        for length in other_lengths(LINE_LENGTH) {
            refused(sheet, 1, enter(sheet, &field, length));
            let finished = lend_line(length, |line| ffi::sheet_finish(sheet, line));
            refused(sheet, 1, finished);
        }
        for length in other_lengths(AUX_LENGTH) {
            let mut other = field.clone();
            other.resize(length, 0);
            refused(sheet, 1, enter(sheet, &other, LINE_LENGTH));
            refused(sheet, 1, enter(sheet, &other, LINE_LENGTH - 1));
        }
        let (entered, _) = enter(sheet, &field, LINE_LENGTH);
        assert_eq!(entered.number, 0);
    }
}

/// Numbers that are no sheet's come back as they were, whatever is lent.
#[test]
fn sheets_that_no_call_returned() {
    let mut random = Random::new(9);
    for ended in 2..=u8::MAX {
        let next = u64::from(random.word());
        let sheet = ffi::Sheet {
            first: random.bits(),
            next,
            job: random.word(),
            ended,
        };
        for (field, line) in [
            (AUX_LENGTH, LINE_LENGTH),
            (AUX_LENGTH, LINE_LENGTH - 1),
            (AUX_LENGTH + 1, LINE_LENGTH),
            (0, 0),
        ] {
            let mut aux = dump_of(&fields(next, "/"), 9);
            aux.resize(field, 0);
            refused(sheet, 7, enter(sheet, &aux, line));
            refused(
                sheet,
                7,
                lend_line(line, |line| ffi::sheet_finish(sheet, line)),
            );
        }
    }
}

/// Any other numbers are taken for a sheet: every call returns one, and a line
/// that is printed is a line.
#[test]
fn any_numbers() {
    let mut random = Random::new(10);
    let (mut lines, mut asterisks) = (0, 0);
    for _ in 0..SEEDS {
        let small = u64::from(random.below(9));
        let numbers = [random.bits(), small, NUMBERS - small, u64::MAX - small];
        let mut number = || random.one_of(&numbers).copied().unwrap_or(0);
        let (first, next) = (number(), number());
        let jobs = [0, 1, LAST_JOB, LAST_JOB + 1, u32::MAX, random.word()];
        let sheet = ffi::Sheet {
            first,
            next,
            job: random.one_of(&jobs).copied().unwrap_or(0),
            ended: u8::from(random.chance(100)),
        };
        let kind = random.one_of(&["b", "/", "e", "<"]).copied().unwrap_or("e");
        let field = dump_of(&fields(next.min(NUMBERS), kind), 9);
        let (entered, line) = enter(sheet, &field, LINE_LENGTH);
        assert_eq!((entered.number, entered.sheet.ended > 1), (0, false));
        if sheet.ended == 1 {
            assert_eq!((entered.sheet, &line), (sheet, &None));
        }
        if let Some(line) = line {
            assert!(
                line.ends_with('\n') && line.trim_end().len() == 27,
                "{line:?}"
            );
            lines += 1;
            asterisks += u32::from(line.starts_with('*'));
        }
    }
    assert!(
        asterisks > 20 && lines > asterisks + 20,
        "{lines}, {asterisks}"
    );
}
