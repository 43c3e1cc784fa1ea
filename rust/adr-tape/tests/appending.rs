//! What a host calls, `append_all` and `Recorder::open_at_end`, over the
//! simulated drive: what is added comes behind what was there. `adding.rs`
//! compares openings with the model.

mod simulated;

use std::convert::Infallible;
use std::ops::ControlFlow;

use adr_model::check::content::block;
use adr_model::drive;
use adr_model::frame::{aux_of, number_at};
use adr_model::header::fields_of;
use adr_model::hostility::Hostility;
use adr_model::random::Random;
use adr_model::tape::Tape;
use adr_tape::{
    append_all, read_with, record_all, AppendError, Appended, Drive, Element, Geometry, ReadError,
    Reader, RecordError, Recorder, Refusal, Setup, BLOCK_LENGTH,
};
use simulated::{elements, sent, Simulated};

const GEOMETRY: Geometry = Geometry::beginning(3_020, 1);
const LAST: adr_model::Address = adr_model::Address(3_019);
const SETUP: Setup = Setup {
    depth: 6,
    blocks: 8,
    tail: 0,
};

const CHAINS: u64 = if cfg!(debug_assertions) { 20 } else { 200 };
/// Recordings of a chain.
const LINKS: u64 = 4;

type Appending = Result<Appended, AppendError<Infallible, Infallible>>;

/// A drive without a cartridge's history.
fn drive(hostility: Hostility, seed: u64) -> Simulated {
    let depth = usize::try_from(SETUP.depth).expect("a depth");
    Simulated(drive::Drive::new(Tape::default(), depth, hostility, seed))
}

fn newest(drive: &mut Simulated) -> Vec<u8> {
    simulated::newest(drive, GEOMETRY)
}

fn record(drive: &mut Simulated, elements: &[Element<'static>]) {
    let source = sent(elements);
    let recorded = record_all(drive, GEOMETRY, SETUP, None, source, |_| {});
    assert!(recorded.is_ok());
}

fn append(drive: &mut Simulated, elements: &[Element<'static>]) -> Appending {
    let header = newest(drive);
    let source = sent(elements);
    append_all(drive, GEOMETRY, SETUP, &header, source, |_| {})
}

/// What is read on the newest header.
fn read(drive: &mut Simulated) -> Vec<Element<'static>> {
    simulated::read_newest(drive, GEOMETRY)
}

/// Pass, update count, EOD address and old end of the newest header.
fn told(drive: &mut Simulated) -> (u16, u32, u32, u32) {
    let header = newest(drive);
    let frame = header.as_slice().try_into().expect("a whole frame");
    let fields = fields_of(frame, LAST).expect("a valid header");
    let old_end = number_at(aux_of(frame), 224);
    (fields.pass, fields.update_count, fields.eod.0, old_end)
}

/// A chain of recordings on a hostile drive reads as all their elements.
#[test]
fn chains() {
    let hostility = Hostility {
        progress: 400,
        failure: 60,
        reads_new: 200,
        reads_nothing: 300,
        report: 600,
        skip: 4,
        busy: 50,
        ..Hostility::NONE
    };
    for seed in 0..CHAINS {
        let mut drive = drive(hostility, seed);
        let mut random = Random::new(seed);
        let mut accepted = elements(&mut random);
        record(&mut drive, &accepted);
        for link in 1..LINKS {
            let more = elements(&mut random);
            let appended = append(&mut drive, &more).expect("room for all");
            let counts = |blocks: u64, filemarks: u64| blocks + filemarks;
            let (read, recorded) = (appended.read, appended.recorded);
            assert_eq!(counts(read.blocks, read.filemarks), accepted.len() as u64);
            assert_eq!(
                counts(recorded.blocks, recorded.filemarks),
                more.len() as u64
            );
            accepted.extend(more);
            assert!(self::read(&mut drive) == accepted, "seed {seed}, {link}");
            let (pass, update_count, ..) = told(&mut drive);
            assert_eq!((pass, u64::from(update_count)), (1, 2 * link + 1));
        }
    }
}

/// An addition of nothing leaves the end where it was, with newer headers.
#[test]
fn nothing_is_added() {
    let mut drive = drive(Hostility::NONE, 1);
    let elements = [Element::from(block(1)), Element::Filemark];
    record(&mut drive, &elements);
    assert_eq!(told(&mut drive), (1, 1, 12, 0));
    let appended = append(&mut drive, &[]).expect("it can be added to");
    assert_eq!(appended.read.blocks, 1);
    assert_eq!(
        (appended.recorded.blocks, appended.recorded.filemarks),
        (0, 0)
    );
    assert_eq!(told(&mut drive), (1, 3, 12, 0));
    assert!(read(&mut drive) == elements);
}

/// Both halves are told as they go on, the reading first.
#[test]
fn progress() {
    let mut drive = drive(Hostility::NONE, 1);
    record(
        &mut drive,
        &[Element::from(block(1)), Element::from(block(2))],
    );
    let header = newest(&mut drive);
    let more = [Element::from(block(3))];
    let mut told: Vec<Appended> = Vec::new();
    let appended = append_all(
        &mut drive,
        GEOMETRY,
        SETUP,
        &header,
        sent(&more),
        |so_far| {
            told.push(*so_far);
        },
    );
    assert_eq!(appended.ok(), told.last().copied());
    let reading = told
        .iter()
        .take_while(|so_far| so_far.recorded.commands == 0);
    let reading = reading.count();
    // LOCATE, two blocks and EOD.
    assert_eq!(reading, 4);
    for (turn, so_far) in (1..).zip(&told) {
        assert_eq!(so_far.read.commands + so_far.recorded.commands, turn);
        assert_eq!(so_far.read.commands, turn.min(4));
    }
}

/// What is not at its end is not added to.
#[test]
fn readings_that_are_not_at_their_end() {
    let mut drive = drive(Hostility::NONE, 1);
    record(&mut drive, &[Element::from(block(1)), Element::Filemark]);
    let header = newest(&mut drive);
    let open = |reader: &Reader, setup| Recorder::open_at_end(reader, setup).err();
    let sizes = |depth, blocks| Setup {
        depth,
        blocks,
        tail: 0,
    };
    let mut reader = Reader::open(GEOMETRY, &header).expect("it opens");
    // The phase is looked at before the sizes.
    assert_eq!(open(&reader, sizes(0, 65)), Some(Refusal::Phase));
    assert!(reader.fetch().is_ok());
    assert_eq!(open(&reader, SETUP), Some(Refusal::Phase));
    // A sink that has enough leaves the reading where it is.
    let mut reader = Reader::open(GEOMETRY, &header).expect("it opens");
    let enough = |_: Element<'_>| Ok::<_, Infallible>(ControlFlow::Break(()));
    assert!(read_with(&mut drive, &mut reader, enough, |_| {}).is_ok());
    assert_eq!(open(&reader, SETUP), Some(Refusal::Phase));
    // Read on to the end, it is opened as often as one likes.
    let all = |_: Element<'_>| Ok::<_, Infallible>(ControlFlow::Continue(()));
    assert!(read_with(&mut drive, &mut reader, all, |_| {}).is_ok());
    let at_end = reader.clone();
    assert_eq!(open(&reader, SETUP), None);
    assert_eq!(open(&reader, sizes(255, 64)), None);
    assert_eq!(reader, at_end);
    for (depth, blocks) in [(0, 1), (256, 1), (1, 0), (1, 65), (u32::MAX, u32::MAX)] {
        assert_eq!(open(&reader, sizes(depth, blocks)), Some(Refusal::Capacity));
    }
}

/// After an addition that was cut short the header names no end.
#[test]
fn additions_cut_short() {
    let mut drive = drive(Hostility::NONE, 1);
    let before = [Element::from(block(1)), Element::Filemark];
    record(&mut drive, &before);
    let header = newest(&mut drive);
    // The second is accepted when the first is on tape.
    let accepted = [2, 3].map(|number| Ok(Element::from(block(number))));
    let source = accepted.into_iter().chain([Err("no more")]);
    let narrow = Setup { blocks: 1, ..SETUP };
    let cut = append_all(&mut drive, GEOMETRY, narrow, &header, source, |_| {});
    assert_eq!(
        cut,
        Err(AppendError::Record(RecordError::Source("no more")))
    );
    assert_eq!(told(&mut drive), (1, 2, 0, 12));
    // What was there reads, then the block where the end stood, and no end.
    let again = append(&mut drive, &before);
    let no_end = AppendError::Read(ReadError::Refused(Refusal::NotFound));
    assert_eq!(again, Err(no_end));

    // With nothing written behind the headers the old end still reads.
    let mut drive = self::drive(Hostility::NONE, 1);
    record(&mut drive, &before);
    let mut reader = Reader::open(GEOMETRY, &newest(&mut drive)).expect("it opens");
    let all = |_: Element<'_>| Ok::<_, Infallible>(ControlFlow::Continue(()));
    assert!(read_with(&mut drive, &mut reader, all, |_| {}).is_ok());
    let recorder = Recorder::open_at_end(&reader, SETUP).expect("it opens");
    cut_before_elements(&mut drive, recorder);
    assert_eq!(told(&mut drive), (1, 2, 0, 12));
    assert!(read(&mut drive) == before);
    let elsewhere = AppendError::Record(RecordError::Refused(Refusal::EndElsewhere));
    assert_eq!(append(&mut drive, &before), Err(elsewhere));
}

/// A block of the wrong length is refused whenever its turn comes: before
/// anything is written, or when there are headers that name no end.
#[test]
fn blocks_of_the_wrong_length() {
    let before = [Element::from(block(1)), Element::Filemark];
    let wrong = Element::from(vec![0; BLOCK_LENGTH - 1]);
    let refused = AppendError::Record(RecordError::Refused(Refusal::Length));
    // The window takes eight blocks before the first command.
    for (good, then) in [(0, (1, 1, 12, 0)), (7, (1, 1, 12, 0)), (9, (1, 2, 0, 12))] {
        let mut drive = drive(Hostility::NONE, 1);
        record(&mut drive, &before);
        let mut more = vec![Element::from(block(2)); good];
        more.push(wrong.clone());
        assert_eq!(
            append(&mut drive, &more),
            Err(refused.clone()),
            "{good} before it"
        );
        assert_eq!(told(&mut drive), then, "{good} before it");
    }
}

/// Sends what comes before the first element, and gives up.
fn cut_before_elements(drive: &mut Simulated, mut recorder: Recorder) {
    use adr_tape::{Command, Next};
    while let Next::Send(command, frame) = recorder.fetch().expect("it goes on") {
        let reply = match command {
            Command::Locate(address) => drive.locate(address),
            Command::Write(address) => drive.write(address, frame.unwrap_or_default()),
            Command::ReadPosition | Command::Read(_) => drive.read_position(),
        };
        let Ok(reply) = reply;
        recorder.reply(reply).expect("a good drive");
    }
    recorder.abandon();
}
