//! `record_all`, `read_all` and `newest_header` over the simulated drive.

mod simulated;

use std::convert::Infallible;
use std::ops::ControlFlow;

use adr_model::check::content::block;
use adr_model::check::Case;
use adr_model::hostility::Hostility;
use adr_model::random::Random;
use adr_model::tape::Tape;
use adr_model::{drive, Fault};
use adr_tape::{
    newest_header, read_all, record_all, Element, Geometry, ReadError, RecordError, Refusal, Setup,
    Summary,
};
use simulated::{elements, read_back, read_back_full, sent, Simulated};

const CARTRIDGES: u64 = if cfg!(debug_assertions) { 100 } else { 600 };

const LAST: adr_model::Address = adr_model::Address(3_019);
const LARGER: Geometry = Geometry::beginning(3_020, 1);

/// A hostile drive with the cartridge of this case, on which nothing bears
/// the pass of the next recording.
fn drive_of(case: &Case) -> Simulated {
    let hostility = Hostility {
        unlisted: 0,
        ..case.hostility
    };
    let depth = usize::try_from(case.depth).expect("a depth");
    let mut tape = case.cartridge(LAST);
    let newest = tape.newest_header(LAST);
    tape.erase_pass(newest.map_or(1, |(_, old)| old.pass.wrapping_add(1)), LAST);
    Simulated(drive::Drive::new(tape, depth, hostility, case.seed))
}

/// Reads a closed cartridge back and compares.
fn read_back_as_recorded(
    seed: u64,
    drive: &mut Simulated,
    elements: &[Element],
    recorded: Summary,
) {
    let (blocks, filemarks) = (recorded.blocks, recorded.filemarks);
    assert_eq!(blocks + filemarks, elements.len() as u64, "seed {seed}");
    let header = newest_header(drive, LARGER).ok().flatten();
    let header = header.expect("a closed cartridge has a header");
    let (delivered, read) = read_back(drive, LARGER, &header).expect("it can be read");
    assert!(delivered == elements, "seed {seed}");
    assert_eq!((read.blocks, read.filemarks), (blocks, filemarks));
}

/// Records on the cartridge of this seed; whether it was closed.
fn recorded_and_read_back(seed: u64) -> bool {
    let case = Case::of_seed(seed, Fault::None);
    let mut drive = drive_of(&case);
    let Ok(header) = newest_header(&mut drive, LARGER) else {
        // Damaged copies of the same age.
        return false;
    };
    let newest = drive.0.tape().newest_header(LAST);
    assert_eq!(header.is_some(), newest.is_some(), "seed {seed}");
    let elements = elements(&mut Random::new(seed));
    let setup = Setup {
        depth: case.depth,
        blocks: case.setup.window_blocks,
        tail: case.setup.tail,
    };
    let source = sent(&elements);
    let header = header.as_deref();
    match record_all(&mut drive, LARGER, setup, header, source, |_| {}) {
        Ok(summary) => {
            read_back_as_recorded(seed, &mut drive, &elements, summary);
            true
        }
        Err(RecordError::Full(full)) => {
            read_back_full(&mut drive, LARGER, &elements, &full);
            true
        }
        Err(RecordError::Refused(Refusal::Exhausted | Refusal::TapeFull | Refusal::NotFound)) => {
            false
        }
        Err(error) => panic!("seed {seed}: {error}"),
    }
}

#[test]
fn cartridges() {
    let done = (0..CARTRIDGES).filter(|seed| recorded_and_read_back(*seed));
    let done = done.count() as u64;
    assert!(done > CARTRIDGES / 4, "{done}");
}

fn blank_drive() -> Simulated {
    Simulated(drive::Drive::new(Tape::default(), 4, Hostility::NONE, 1))
}

const GEOMETRY: Geometry = Geometry::beginning(3_001, 1);
const SETUP: Setup = Setup {
    depth: 4,
    blocks: 2,
    tail: 0,
};

#[test]
fn a_blank_cartridge_has_no_header() {
    assert_eq!(newest_header(&mut blank_drive(), GEOMETRY), Ok(None));
    let none = Geometry::beginning(1, 1);
    assert!(newest_header(&mut blank_drive(), none).is_err());
}

#[test]
fn a_source_and_a_sink_may_fail() {
    let mut drive = blank_drive();
    let source = [Ok(Element::Filemark), Err("no more")];
    let recorded = record_all(&mut drive, GEOMETRY, SETUP, None, source, |_| {});
    assert_eq!(recorded, Err(RecordError::Source("no more")));
    let blocks: Vec<Element<'static>> = (1..9).map(|number| Element::from(block(number))).collect();
    let mut replies = 0;
    let recorded = record_all(&mut drive, GEOMETRY, SETUP, None, sent(&blocks), |_| {
        replies += 1
    });
    assert_eq!(recorded.map(|summary| summary.commands), Ok(replies));
    let header = newest_header(&mut drive, GEOMETRY)
        .ok()
        .flatten()
        .expect("a header");
    let full = |_: Element<'_>| Err("disk full");
    let read = read_all(&mut drive, GEOMETRY, &header, full, |_| {});
    assert_eq!(read, Err(ReadError::Sink("disk full")));
    // A sink that has enough stops the reading there.
    let mut taken = 0;
    let some = |_: Element<'_>| -> Result<ControlFlow<()>, Infallible> {
        taken += 1;
        Ok(if taken == 3 {
            ControlFlow::Break(())
        } else {
            ControlFlow::Continue(())
        })
    };
    let read = read_all(&mut drive, GEOMETRY, &header, some, |_| {});
    assert_eq!(read.map(|summary| summary.blocks), Ok(3));
}

/// Copies of the same update count with unlike data are not chosen between,
/// unless a newer copy is there.
#[test]
fn disputed_headers() {
    let mut drive = blank_drive();
    let recorded = record_all(&mut drive, GEOMETRY, SETUP, None, sent(&[]), |_| {});
    assert!(recorded.is_ok());
    let header = newest_header(&mut drive, GEOMETRY)
        .ok()
        .flatten()
        .expect("a header");
    let mut tape = drive.0.eject();
    let mut unlike = **tape.read(adr_model::Address(7)).expect("a copy");
    unlike[100] = 1;
    tape.write(adr_model::Address(7), unlike.into());
    let mut drive = Simulated(drive::Drive::new(tape.clone(), 4, Hostility::NONE, 1));
    assert!(newest_header(&mut drive, GEOMETRY).is_err());
    let mut newer = unlike;
    newer[32_768 + 15] += 1;
    tape.write(adr_model::Address(2_992), newer.into());
    let mut drive = Simulated(drive::Drive::new(tape, 4, Hostility::NONE, 1));
    let chosen = newest_header(&mut drive, GEOMETRY).ok().flatten();
    assert!(chosen.as_deref() == Some(&newer[..]) && header != newer);
}
