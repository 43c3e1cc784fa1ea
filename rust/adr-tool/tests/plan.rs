//! The frames that a recording sends: the most, beforehand, and what `record`
//! tells of them.

mod place;

use place::{Place, Ran};

const NOT_IN_IT: &str = "busy times, LOCATEs and reading are not in it\n";

#[test]
fn frames_and_time() {
    let place = Place::new("plan");
    for (words, frames, time) in [
        (
            "--blocks 10000 --errors 25",
            "10,802 for 10,000 blocks, 1 filemark and the end of data, with 25 write errors",
            "3 minutes at 2,097,000",
        ),
        (
            "--blocks=1 --filemarks=0 --errors=1 --depth=1",
            "3 for 1 block, 0 filemarks and the end of data, with 1 write error",
            "1 minute at 2,097,000",
        ),
        (
            "--blocks 460000 --filemarks 12 --errors 1000 --depth 255 --window 16",
            "476,013 for 460,000 blocks, 12 filemarks and the end of data, with 1,000 write errors",
            "2 hours 6 minutes at 2,097,000",
        ),
        // The 22 frames take 732,160 bytes.
        (
            "--blocks 0 --errors 0 --rate 1",
            "2 for 0 blocks, 1 filemark and the end of data, with 0 write errors",
            "13 minutes at 1,000",
        ),
        (
            "--blocks 4294967294 --errors 4294967295 --window 64 --depth 64",
            "279,172,874,176 for 4,294,967,294 blocks, 1 filemark and the end of data, \
             with 4,294,967,295 write errors",
            "1,230,709 hours 39 minutes at 2,097,000",
        ),
    ] {
        let plan = place.shell(&format!("$ADR plan {words}")).succeeded();
        let expected = format!(
            "frames: at most {frames}\nheader frames: 20, if none of them fails\n\
             time to write all these: {time} bytes a second; {NOT_IN_IT}"
        );
        assert_eq!(plan.output_text(), expected, "{words}");
        assert_eq!(plan.error, "");
    }
}

#[test]
fn defaults() {
    let place = Place::new("plan-defaults");
    let plan = |words: &str| place.shell(&format!("$ADR plan {words}")).succeeded();
    let named = "--filemarks 1 --depth 32 --window 64 --rate 2097";
    let short = plan("--blocks 70 --errors 3");
    let long = plan(&format!("--blocks 70 --errors 3 {named}"));
    assert_eq!(short.output_text(), long.output_text());
    let help = plan("--help");
    for told in [
        "one for each job (1)",
        "(32)",
        "(64)",
        "(2097)",
        "2,097,000 bytes",
    ] {
        assert!(help.output_text().contains(told), "{told}");
    }
}

#[test]
fn wrong_words() {
    let place = Place::new("plan-words");
    for (words, told) in [
        ("", "give '--blocks N', the blocks to be recorded"),
        (
            "--blocks 1",
            "give '--errors N', the write errors to allow for",
        ),
        ("--blocks x --errors 1", "--blocks: 'x' is not a number"),
        ("--blocks 1 --errors -1", "--errors: '-1' is not a number"),
        (
            "--blocks 4294967295 --errors 1",
            "--blocks and --filemarks: give at most 4,294,967,295 together",
        ),
        ("--blocks 1 --errors 1 --depth 0", "give 1 to 255 frames"),
        ("--blocks 1 --errors 1 --depth 256", "give 1 to 255 frames"),
        ("--blocks 1 --errors 1 --window 0", "1 to 64 blocks"),
        ("--blocks 1 --errors 1 --window 65", "1 to 64 blocks"),
        ("--blocks 1 --errors 1 --rate 0", "--rate: give 1 or more"),
        ("--blocks 1 --errors 1 a.adr", "unexpected operand 'a.adr'"),
        ("--blocks 1 --errors 1 --tail 8", "unknown option --tail"),
    ] {
        let refused = place.shell(&format!("$ADR plan {words}"));
        assert_eq!(refused.status, Some(2), "{words}");
        assert_eq!(refused.output, b"");
        assert!(refused.error.contains(told), "{words}: {}", refused.error);
        assert!(refused.error.ends_with("; see 'adr plan --help'\n"));
    }
}

/// What `record` tells of frames, in the order of its words.
#[derive(Debug, PartialEq, Eq)]
struct Told {
    sent: u64,
    most: u64,
    elements: u64,
    errors: u64,
    headers: u64,
    most_headers: u64,
    header_errors: u64,
}

impl Told {
    #[track_caller]
    fn of(record: &Ran) -> Told {
        let lines = record.error.lines();
        let lines = lines.filter(|line| line.contains("sent of at most"));
        let figure = |word: &str| word.replace(',', "").parse().ok();
        let figures: Vec<u64> = lines
            .flat_map(|line| line.split(' ').filter_map(figure))
            .collect();
        let figures: [u64; 7] = figures.try_into().expect("two lines");
        let [sent, most, elements, errors, headers, most_headers, header_errors] = figures;
        Told {
            sent,
            most,
            elements,
            errors,
            headers,
            most_headers,
            header_errors,
        }
    }

    /// `plan` gives the same bound, and it holds.
    #[track_caller]
    fn holds(&self, place: &Place, sizes: &str) {
        assert!(self.sent <= self.most, "{self:?}");
        assert!(self.headers <= self.most_headers, "{self:?}");
        let Told {
            most,
            elements,
            errors,
            ..
        } = self;
        let words = format!("--blocks {elements} --filemarks 0 --errors {errors} {sizes}");
        let plan = place.shell(&format!("$ADR plan {words}")).succeeded();
        let figures = plan.output_text().replace(',', "");
        let start = format!("frames: at most {most} for {elements} ");
        assert!(figures.starts_with(&start), "{figures}");
    }
}

/// Ten blocks and a filemark, on drives with faults and without, fresh and
/// added.
#[test]
fn what_record_tells() {
    let place = Place::recorded("plan-record", 7 * 32_768 + 1, 7 * 32_768 + 1);
    let mut errors = 0;
    for how in ["--overwrite", "--append"] {
        let record = place.adr(&["record", how, "a.adr", "new"]).succeeded();
        let faultless = Told {
            sent: 12,
            most: 12,
            elements: 11,
            errors: 0,
            headers: 20,
            most_headers: 20,
            header_errors: 0,
        };
        assert_eq!(Told::of(&record), faultless);
        for seed in 0..12 {
            let sizes = "--depth 4 --window 3";
            let words = format!("--faults {seed} {sizes} a.adr new");
            let record = place.shell(&format!("$ADR record {how} {words}"));
            let told = Told::of(&record.succeeded());
            told.holds(&place, sizes);
            assert_eq!(told.elements, 11);
            errors += told.errors;
        }
    }
    assert!(errors > 0);
    let quiet = ["record", "--overwrite", "--quiet", "a.adr", "new"];
    assert_eq!(place.adr(&quiet).succeeded().error, "");
}

/// What a full tape gave up counts among the elements.
#[test]
fn what_a_full_tape_gave_up() {
    let place = Place::new("plan-full");
    let format = ["format", "a.adr", "--segtrk", "3001", "--trks", "1"];
    place.adr(&format).succeeded();
    let stream = "head -c 98000000 /dev/zero";
    let record = place.shell(&format!("{stream} | $ADR record a.adr -"));
    let told = Told::of(&record.failed());
    told.holds(&place, "");
    // All 2,980 frames before the tail are used, and the window takes the rest:
    // 2,991 blocks of data, two around them, and the filemark.
    assert_eq!((told.sent, told.errors), (2_981, 0));
    assert_eq!((told.elements, told.most), (2_994, 2_995));
    // So where nothing of it is in force.
    let record = format!("{stream} | $ADR record --overwrite a.adr -");
    let again = place.shell(&record).failed();
    assert_eq!(Told::of(&again), told);
}
