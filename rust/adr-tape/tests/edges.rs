//! The scope's edges that have no proof of their own, through the wrapper.

mod by_hand;

use adr_tape::{
    newer, Command, Geometry, Next, ReadNext, Reader, Recorder, Refusal, Reply, Sense, Setup,
    BLOCK_LENGTH, FRAME_LENGTH,
};
use by_hand::{error, fetched, locate, number_at, read_with, step, write, write_headers};

const GEOMETRY: Geometry = Geometry::beginning(1_000, 12);

/// These sizes, with nothing kept for the end.
fn setup(depth: u32, blocks: u32) -> Setup {
    Setup {
        depth,
        blocks,
        tail: 0,
    }
}

/// A recorder with its opening headers written and 10 located.
fn at_elements(depth: u32, window: u32) -> Recorder {
    let mut recorder = Recorder::open(GEOMETRY, setup(depth, window), None).expect("opens");
    write_headers(&mut recorder);
    step(&mut recorder, locate(10), Reply::good());
    recorder
}

/// A closed recording of a block, a filemark and a block, with an error on
/// the way; its frames from 10 on, and its header.
fn recorded() -> (Vec<(u32, Vec<u8>)>, Vec<u8>) {
    let mut recorder = at_elements(8, 4);
    let first = [1; BLOCK_LENGTH];
    let second = [2; BLOCK_LENGTH];
    assert_eq!(recorder.accept_block(&first), Ok(()));
    assert_eq!(recorder.accept_filemark(), Ok(()));
    assert_eq!(recorder.accept_block(&second), Ok(()));
    let ten = step(&mut recorder, write(10), Reply::good());
    step(&mut recorder, write(11), Reply::good());
    let twelve = step(&mut recorder, write(12), Reply::good());
    assert_eq!((number_at(&twelve, 192), number_at(&twelve, 200)), (1, 11));
    step(&mut recorder, Command::ReadPosition, error(11, 3));
    step(&mut recorder, locate(14), Reply::good());
    let fourteen = step(&mut recorder, write(14), Reply::good());
    let fifteen = step(&mut recorder, write(15), Reply::good());
    assert_eq!(recorder.close(), Ok(()));
    step(&mut recorder, Command::ReadPosition, Reply::buffered(0));
    let sixteen = step(&mut recorder, write(16), Reply::good());
    step(&mut recorder, Command::ReadPosition, Reply::buffered(0));
    let header = write_headers(&mut recorder);
    assert_eq!(recorder.fetch(), Ok(Next::Done));
    assert_eq!(recorder.fetch(), Ok(Next::Done));
    let frames = vec![(10, ten), (14, fourteen), (15, fifteen), (16, sixteen)];
    (frames, header)
}

/// The example of 01, "Edges": the filemark between two blocks fails at 11 and
/// moves to 14, which the block behind it names.
#[test]
fn marker_address_after_an_error() {
    let (frames, header) = recorded();
    let frame = |address| {
        let found = frames.iter().find(|(at, _)| *at == address);
        &found.expect("was written").1
    };
    let marker = frame(14);
    assert_eq!((number_at(marker, 44), number_at(marker, 192)), (1, 0));
    assert_eq!(number_at(marker, 200), u32::MAX);
    assert!(marker[..BLOCK_LENGTH].iter().all(|byte| *byte == 0));
    let block = frame(15);
    assert_eq!((number_at(block, 44), number_at(block, 192)), (2, 1));
    assert_eq!(number_at(block, 200), 14);
    assert!(block[..BLOCK_LENGTH].iter().all(|byte| *byte == 2));
    assert_eq!(&header[32..36], 16u32.to_be_bytes());
}

/// Reads frames from these addresses; what comes of the reading.
fn read(header: &[u8], frames: &[(u32, Vec<u8>)]) -> Result<Vec<String>, Refusal> {
    read_with(&mut Reader::open(GEOMETRY, header)?, frames)
}

#[test]
fn read_back() {
    let (frames, header) = recorded();
    let delivered = read(&header, &frames);
    let expected = ["block of 1", "filemark", "block of 2", "end"];
    assert_eq!(delivered, Ok(expected.map(String::from).to_vec()));
}

/// The examples of the table of refusals.
#[test]
fn refusals_of_openings() {
    let (_, header) = recorded();
    let open = |geometry, depth, window, header| {
        Recorder::open(geometry, setup(depth, window), header).map(|_| ())
    };
    let small = Geometry::beginning(3_000, 1);
    assert_eq!(open(GEOMETRY, 1, 1, Some(&header)), Ok(()));
    assert_eq!(
        open(GEOMETRY, 1, 1, Some(&header[1..])),
        Err(Refusal::Length)
    );
    assert_eq!(open(small, 1, 1, None), Err(Refusal::Geometry));
    assert_eq!(
        open(Geometry::centre(99, 65_535), 1, 1, None),
        Err(Refusal::Geometry)
    );
    let mut wrong = header.clone();
    wrong[..8].copy_from_slice(b"ADR_SEX\0");
    assert_eq!(open(GEOMETRY, 1, 1, Some(&wrong)), Err(Refusal::Header));
    for (depth, window) in [(0, 1), (256, 1), (1, 0), (1, 65), (1, 320)] {
        assert_eq!(open(GEOMETRY, depth, window, None), Err(Refusal::Capacity));
    }
    let mut last_pass = header.clone();
    last_pass[22..24].copy_from_slice(&65_534u16.to_be_bytes());
    assert_eq!(
        open(GEOMETRY, 1, 1, Some(&last_pass)),
        Err(Refusal::Exhausted)
    );
    // A reading is never refused for that.
    assert!(Reader::open(GEOMETRY, &last_pass).is_ok());
}

#[test]
fn refusals_of_choices() {
    let (_, header) = recorded();
    let mut older = header.clone();
    older[BLOCK_LENGTH + 15] -= 1;
    older[100] = 1;
    assert_eq!(newer(GEOMETRY, &older, &header), Ok(header.as_slice()));
    assert_eq!(newer(GEOMETRY, &header, &older), Ok(header.as_slice()));
    let mut unlike = header.clone();
    unlike[100] = 1;
    assert_eq!(newer(GEOMETRY, &header, &unlike), Err(Refusal::Header));
    let mut other_aux = header.clone();
    other_aux[FRAME_LENGTH - 1] = 1;
    assert_eq!(newer(GEOMETRY, &header, &other_aux), Ok(header.as_slice()));
}

#[test]
fn refusals_of_a_recording() {
    let mut recorder = at_elements(5, 2);
    let block = [1; BLOCK_LENGTH];
    assert_eq!(recorder.accept_block(&block[1..]), Err(Refusal::Length));
    assert_eq!(recorder.accept_block(&block), Ok(()));
    assert_eq!(recorder.accept_filemark(), Ok(()));
    assert_eq!(recorder.accept_block(&block), Err(Refusal::WindowFull));
    assert_eq!(recorder.reply(Reply::good()), Err(Refusal::Phase));
    fetched(&mut recorder, write(10));
    assert_eq!(recorder.fetch(), Err(Refusal::Phase));
    assert_eq!(recorder.close(), Ok(()));
    assert_eq!(recorder.close(), Err(Refusal::Phase));
    assert_eq!(recorder.accept_filemark(), Err(Refusal::Phase));
    assert_eq!(recorder.reply(Reply::good()), Ok(()));
    step(&mut recorder, write(11), Reply::good());
    fetched(&mut recorder, Command::ReadPosition);
    assert_eq!(recorder.reply(Reply::buffered(3)), Err(Refusal::Reply));
    assert_eq!(recorder.fetch(), Err(Refusal::Phase));
}

/// No copy of ten can be written.
#[test]
fn no_header_written() {
    let mut recorder = Recorder::open(GEOMETRY, setup(1, 1), None).expect("opens");
    for group in [5, 2_990] {
        for copy in 0..5 {
            step(&mut recorder, locate(group + copy), Reply::good());
            step(&mut recorder, write(group + copy), Reply::good());
            fetched(&mut recorder, Command::ReadPosition);
            let outcome = recorder.reply(error(group + copy, 200));
            let last = group + copy == 2_994;
            assert_eq!(outcome, if last { Err(Refusal::NotFound) } else { Ok(()) });
        }
    }
}

/// An error at LAST leaves no room.
#[test]
fn full_at_last() {
    let geometry = Geometry::beginning(3_001, 1);
    let mut recorder = Recorder::open(geometry, setup(5, 1), None).expect("opens");
    write_headers(&mut recorder);
    step(&mut recorder, locate(10), Reply::good());
    assert_eq!(recorder.accept_filemark(), Ok(()));
    let mut next = 10;
    while next < 3_000 {
        let skip = (2_990u32.saturating_sub(next)).clamp(1, 255);
        step(&mut recorder, write(next), Reply::good());
        step(&mut recorder, Command::ReadPosition, error(next, skip));
        next = if next + skip >= 2_990 {
            3_000
        } else {
            next + skip
        };
        step(&mut recorder, locate(next), Reply::good());
    }
    step(&mut recorder, write(3_000), Reply::good());
    fetched(&mut recorder, Command::ReadPosition);
    assert_eq!(recorder.reply(error(3_000, 0)), Err(Refusal::TapeFull));
}

#[test]
fn refusals_of_a_reading() {
    let (frames, header) = recorded();
    let without = |address| {
        let rest = frames.iter().filter(|(at, _)| *at != address);
        rest.cloned().collect::<Vec<_>>()
    };
    assert_eq!(read(&header, &without(14)), Err(Refusal::Missing));
    assert_eq!(read(&header, &without(16)), Err(Refusal::NotFound));
    let mut foreign = frames.clone();
    foreign[2].1[BLOCK_LENGTH + 66] = 0x4C;
    assert_eq!(read(&header, &foreign), Err(Refusal::Foreign));
    // Bytes that the drive fills in are ignored.
    let mut filled = frames.clone();
    for (_, frame) in &mut filled {
        frame[BLOCK_LENGTH + 4..BLOCK_LENGTH + 12].fill(0xEE);
    }
    assert!(read(&header, &filled).is_ok());
    let mut reader = Reader::open(GEOMETRY, &header).expect("opens");
    assert_eq!(reader.fetch(), Ok(ReadNext::Send(locate(10))));
    let frame = [0; FRAME_LENGTH];
    assert_eq!(
        reader.reply(Reply::good(), &frame[1..]),
        Err(Refusal::Length)
    );
    let early = Reply::sense(Sense::EARLY_END);
    assert_eq!(reader.reply(early, &frame), Err(Refusal::Reply));
    assert_eq!(reader.fetch(), Err(Refusal::Phase));
}

/// A reader at the end of these frames.
fn read_to_end(header: &[u8], frames: &[(u32, Vec<u8>)]) -> Reader {
    let mut reader = Reader::open(GEOMETRY, header).expect("opens");
    read_with(&mut reader, frames).expect("reads to its end");
    reader
}

/// What stands on tape behind a recording that was added.
struct Added {
    frames: Vec<(u32, Vec<u8>)>,
    /// The header of the opening.
    opening: Vec<u8>,
    /// The header of the end.
    closing: Vec<u8>,
}

/// A block added behind [`recorded`], whose first write fails at the old end
/// while the old EOD still reads.
fn added() -> Added {
    let (mut frames, header) = recorded();
    let reader = read_to_end(&header, &frames);
    let mut recorder = Recorder::open_at_end(&reader, setup(8, 2)).expect("opens");
    assert_eq!(recorder.accept_block(&[3; BLOCK_LENGTH]), Ok(()));
    let opening = write_headers(&mut recorder);
    step(&mut recorder, locate(16), Reply::good());
    step(&mut recorder, write(16), Reply::good());
    step(&mut recorder, Command::ReadPosition, error(16, 2));
    step(&mut recorder, locate(18), Reply::good());
    frames.push((18, step(&mut recorder, write(18), Reply::good())));
    assert_eq!(recorder.close(), Ok(()));
    step(&mut recorder, Command::ReadPosition, Reply::buffered(0));
    frames.push((19, step(&mut recorder, write(19), Reply::good())));
    step(&mut recorder, Command::ReadPosition, Reply::buffered(0));
    let closing = write_headers(&mut recorder);
    assert_eq!(recorder.fetch(), Ok(Next::Done));
    Added {
        frames,
        opening,
        closing,
    }
}

#[test]
fn added_behind_the_old_end() {
    let (_, before) = recorded();
    let Added {
        frames,
        opening,
        closing,
    } = added();
    // Pass, count, EOD's address and old end of both headers.
    let says = |header: &[u8]| {
        let eod = u32::from_be_bytes(header[32..36].try_into().expect("four bytes"));
        let count = number_at(header, 12) - number_at(&before, 12);
        assert_eq!(header[22..24], before[22..24]);
        (count, eod, number_at(header, 224))
    };
    assert_eq!(says(&opening), (1, 0, 16));
    assert_eq!(says(&closing), (2, 19, 0));
    for (address, number) in [(18, 3), (19, 4)] {
        let (_, frame) = frames.iter().find(|(at, _)| *at == address).expect("frame");
        assert_eq!((number_at(frame, 44), number_at(frame, 192)), (number, 1));
        assert_eq!((number_at(frame, 200), number_at(frame, 224)), (14, 0));
    }
    let delivered = read(&closing, &frames);
    let expected = ["block of 1", "filemark", "block of 2", "block of 3", "end"];
    assert_eq!(delivered, Ok(expected.map(String::from).to_vec()));
    // On the header of the opening, the old EOD is the end.
    let delivered = read(&opening, &frames);
    let expected = ["block of 1", "filemark", "block of 2", "end"];
    assert_eq!(delivered, Ok(expected.map(String::from).to_vec()));
}

#[test]
fn refusals_of_openings_at_the_end() {
    let Added {
        frames,
        opening,
        closing,
    } = added();
    let open = |reader: &Reader, depth, blocks| {
        Recorder::open_at_end(reader, setup(depth, blocks)).map(|_| ())
    };
    let unread = Reader::open(GEOMETRY, &closing).expect("opens");
    assert_eq!(open(&unread, 0, 0), Err(Refusal::Phase));
    let reader = read_to_end(&closing, &frames);
    for (depth, blocks) in [(0, 1), (256, 1), (1, 0), (1, 65), (1, 320)] {
        assert_eq!(open(&reader, depth, blocks), Err(Refusal::Capacity));
    }
    for (depth, blocks) in [(1, 1), (255, 64)] {
        assert_eq!(open(&reader, depth, blocks), Ok(()));
    }
    let with = |at: usize, bytes: [u8; 4]| {
        let mut header = closing.clone();
        header[at..at + 4].copy_from_slice(&bytes);
        read_to_end(&header, &frames)
    };
    let counted = |count: u32| with(BLOCK_LENGTH + 12, count.to_be_bytes());
    assert_eq!(open(&counted(4_294_967_293), 1, 1), Ok(()));
    assert_eq!(open(&counted(4_294_967_294), 1, 1), Err(Refusal::Exhausted));
    assert_eq!(open(&counted(u32::MAX), 0, 1), Err(Refusal::Capacity));
    // The header names no end, or another.
    let elsewhere = Err(Refusal::EndElsewhere);
    assert_eq!(open(&read_to_end(&opening, &frames), 1, 1), elsewhere);
    assert_eq!(open(&with(32, 18u32.to_be_bytes()), 1, 1), elsewhere);
    // The reading was refused.
    let mut refused = Reader::open(GEOMETRY, &closing).expect("opens");
    assert_eq!(read_with(&mut refused, &frames[1..]), Err(Refusal::Missing));
    assert_eq!(open(&refused, 1, 1), Err(Refusal::Phase));
}
