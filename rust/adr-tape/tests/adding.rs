//! The layer's openings at the end of a reading, compared with the model on
//! readings of every kind, and what is recorded behind them with replies that
//! no drive gives. `appending.rs` adds as a host does.

mod compared;

use adr_model::check::layer::{ReadingCalls, RecordingCalls};
use adr_model::fault::PLANTED_IN_ENDING;
use adr_model::frame::{fill_header, HeaderFields};
use adr_model::geometry::FRAME_LENGTH;
use adr_model::random::Random;
use adr_model::{Address, Fault, Geometry, Outcome};
use adr_tape::ffi;
use compared::any_calls::{any_tail, make_any_calls};
use compared::any_reads::{any_read_call, make_any_reads};
use compared::sessions::model_reading;
use compared::{right, ComparedReading, ComparedRecording};

const ROUNDS: u32 = if cfg!(debug_assertions) { 600 } else { 3_000 };

/// Counts at the limit and elsewhere.
const COUNTS: [u32; 5] = [0, 3, 4_294_967_293, 4_294_967_294, u32::MAX];
/// D, W and T at and beyond their limits.
const SIZES: [u32; 9] = [0, 1, 2, 64, 65, 255, 256, 257, u32::MAX];

fn pick<T: Copy + Default>(random: &mut Random, several: &[T]) -> T {
    random.one_of(several).copied().unwrap_or_default()
}

/// D, W or T, most often one that fits.
fn any_size(random: &mut Random) -> u32 {
    if random.chance(700) {
        random.between(1, 64)
    } else {
        pick(random, &SIZES)
    }
}

fn number_of(outcome: Outcome) -> usize {
    match outcome {
        Outcome::Accepted => 0,
        Outcome::Refused(number) => number.into(),
    }
}

/// Opens at the end of both readings, and counts the answer.
fn open_at_end(
    seed: u32,
    random: &mut Random,
    reading: &ComparedReading,
    seen: &mut [u32; 14],
) -> (ComparedRecording, u32) {
    let (depth, blocks, tail) = (any_size(random), any_size(random), any_size(random));
    let (session, outcome) =
        ComparedRecording::open_at_end(reading.layer, &reading.model, depth, blocks, tail);
    right(session.wrong(), seed);
    seen[number_of(outcome)] += 1;
    (session, blocks)
}

/// Refusals 7, 4, 5 and 13 and openings were all seen, and nothing else.
#[track_caller]
fn all_were_seen(seen: &[u32; 14]) {
    println!("{seen:?}");
    for (number, count) in seen.iter().enumerate() {
        let comes = [0, 4, 5, 7, 13].contains(&number);
        assert_eq!(*count > 20, comes, "{number}: {seen:?}");
    }
}

/// A header of pass 7 and LAST 3,000 that names ends near 10, if any.
fn any_header(random: &mut Random) -> Box<[u8; FRAME_LENGTH]> {
    let fields = HeaderFields {
        pass: 7,
        update_count: pick(random, &COUNTS),
        last: Address(3_000),
        eod: match random.below(4) {
            0 => Address(0),
            _ => Address(random.between(10, 16)),
        },
        old_end: match random.below(4) {
            0 => Address(0),
            1 => Address(u32::MAX),
            _ => Address(random.between(9, 16)),
        },
    };
    let mut header = Box::new([0; FRAME_LENGTH]);
    fill_header(&mut header, &fields);
    header
}

/// Readings on every kind of header, with many EODs, and openings at each
/// point.
#[test]
fn readings_and_openings() {
    let mut seen = [0; 14];
    let mut ends = [0; 14];
    for seed in 0..ROUNDS {
        let mut random = Random::new(u64::from(seed) + 555);
        let geometry = Geometry::beginning(3_001, 1);
        let (mut reading, outcome) =
            ComparedReading::open(&geometry, any_header(&mut random).as_slice());
        assert_eq!(outcome, Outcome::Accepted);
        open_at_end(seed, &mut random, &reading, &mut seen);
        let mut end = 0;
        while end == 0 && reading.layer.finished == 0 {
            let calls = random.between(1, 20);
            end = make_any_reads(seed, &mut random, &mut reading, 500, calls);
            let (mut session, blocks) = open_at_end(seed, &mut random, &reading, &mut seen);
            if session.layer.ended == 0 && blocks <= 4 {
                let blocks = usize::try_from(blocks).unwrap_or(0);
                make_any_calls(seed, &mut random, &mut session, blocks, 100);
            }
        }
        ends[usize::from(end)] += 1;
    }
    println!("{ends:?}");
    assert!([0, 8, 10, 11, 12].iter().all(|number| ends[*number] > 0));
    all_were_seen(&seen);
}

/// Whether a reading on any header differs from a model with this fault.
fn differs(seed: u32, fault: Fault) -> bool {
    let mut random = Random::new(u64::from(seed) + 666);
    let geometry = Geometry::beginning(3_001, 1);
    let header = any_header(&mut random);
    let (mut reading, _) = ComparedReading::open(&geometry, header.as_slice());
    reading.plant(fault);
    for _ in 0..40 {
        any_read_call(&mut random, &mut reading, 500);
    }
    reading.wrong().is_some()
}

/// Where a reading ends is compared on frames that no recording leaves.
#[test]
fn faults_in_ending_are_found() {
    for fault in PLANTED_IN_ENDING {
        let mut seeds = 0..ROUNDS * 3;
        let found = seeds.find(|seed| differs(*seed, fault));
        println!("{fault:?}: {found:?}");
        assert!(found.is_some(), "{fault:?} was not found");
        assert!(!differs(found.unwrap_or(0), Fault::None));
    }
}

/// Numbers that mostly stand for a reading at its end, which need not be one
/// that calls lead to.
fn any_numbers(random: &mut Random) -> ffi::Reading {
    let flag = |random: &mut Random, per_mille| match random.below(60) {
        0 => random.byte(),
        _ => u8::from(random.chance(per_mille)),
    };
    let codes = [ffi::LOCATE, ffi::READ, ffi::WRITE];
    let next = match random.below(4) {
        0 => pick(random, &[0, 1, 2, u32::MAX]),
        _ => random.between(11, 3_001),
    };
    ffi::Reading {
        told: ffi::Told {
            last: pick(random, &[0, 5, 3_000, u32::MAX]),
            eod: match random.below(8) {
                0 => 0,
                1 => next,
                2 => random.word(),
                _ => next.wrapping_sub(1),
            },
            old: random.word(),
            update: pick(random, &COUNTS),
            pass: pick(random, &[0, 7, 65_534, 65_535]),
        },
        position: ffi::Position {
            next,
            locate: flag(random, 100),
        },
        expected: pick(random, &[0, 1, 63, 64, 65, 1_000, u32::MAX]),
        trail: ffi::Trail {
            filemarks: pick(random, &[0, 1, u32::MAX]),
            marker: pick(random, &[0, 10, u32::MAX]),
        },
        exchange: ffi::Exchange {
            command: ffi::Command {
                code: match random.below(60) {
                    0 => random.byte(),
                    _ => pick(random, &codes),
                },
                address: random.word(),
            },
            awaiting: flag(random, 50),
            again: flag(random, 50),
        },
        finished: flag(random, 900),
        ended: flag(random, 50),
    }
}

#[test]
fn readings_that_no_call_returned() {
    let mut seen = [0; 14];
    for seed in 0..ROUNDS * 10 {
        let mut random = Random::new(u64::from(seed) + 777);
        let layer = any_numbers(&mut random);
        let [depth, blocks, tail] = [(); 3].map(|()| any_size(&mut random));
        let model = model_reading(&layer);
        let (session, outcome) = ComparedRecording::open_at_end(layer, &model, depth, blocks, tail);
        assert_eq!(session.wrong(), None, "seed {seed}: {layer:?}");
        seen[number_of(outcome)] += 1;
    }
    all_were_seen(&seen);
}

/// A reading that ended there, with so many elements before.
fn read_to(end: u32, last: u32, expected: u32) -> ffi::Reading {
    ffi::Reading {
        told: ffi::Told {
            last,
            eod: end,
            update: 3,
            pass: 65_534,
            old: 0,
        },
        position: ffi::Position {
            next: end + 1,
            locate: 0,
        },
        expected,
        trail: ffi::Trail {
            filemarks: 5,
            marker: 1_000,
        },
        exchange: ffi::Exchange {
            command: ffi::Command {
                code: ffi::READ,
                address: end,
            },
            ..ffi::Exchange::default()
        },
        finished: 1,
        ended: 0,
    }
}

#[test]
fn every_size() {
    let reading = read_to(3_000, 3_000, 9);
    let model = model_reading(&reading);
    let fits = |depth: u32, blocks: u32, tail: u32| {
        let (session, outcome) =
            ComparedRecording::open_at_end(reading, &model, depth, blocks, tail);
        right(session.wrong(), depth);
        let fits = (1..=255).contains(&depth) && (1..=64).contains(&blocks) && tail <= 255;
        let expected = if fits { 0 } else { 4 };
        assert_eq!(number_of(outcome), expected, "{depth} {blocks} {tail}");
    };
    for depth in (0..=300).chain([65_537, u32::MAX]) {
        for blocks in [0, 1, 32, 64, 65, 256, 257, 320] {
            fits(depth, blocks, 0);
        }
    }
    for blocks in (0..=600).chain([65_537, u32::MAX]) {
        fits(255, blocks, 255);
    }
    for tail in (0..=600).chain([65_537, u32::MAX]) {
        fits(255, 64, tail);
    }
}

/// Lists of calls behind an old end, near the second header group and LAST
/// too.
#[test]
fn any_added_recording() {
    let mut ends = [0; 14];
    for seed in 0..ROUNDS {
        let mut random = Random::new(u64::from(seed) + 888);
        let last = pick(&mut random, &[3_000, 3_020, 11_999, 4_294_836_224]);
        let near = [13, 2_980, 2_985, 2_988, 2_989, 3_000, last - 1, last];
        let end = match pick(&mut random, &near) {
            2_999 => 3_000,
            end => end,
        };
        let expected = pick(&mut random, &[0, 1, 2, 63, 64, 65, 4_000_000_000]);
        let reading = read_to(end, last, expected);
        let depth = random.between(1, 6);
        let model = model_reading(&reading);
        let tail = any_tail(&mut random);
        let (mut session, outcome) =
            ComparedRecording::open_at_end(reading, &model, depth, 3, tail);
        assert_eq!(outcome, Outcome::Accepted);
        let calls = random.below(1_000);
        let end = make_any_calls(seed, &mut random, &mut session, 3, calls);
        ends[usize::from(end)] += 1;
    }
    println!("{ends:?}");
    assert!(ends[8] > 0 && ends[9] > 0, "{ends:?}");
}
