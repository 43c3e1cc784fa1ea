//! The edges of a tail that is kept for the end of data, through the wrapper.
//! `full.rs` fills tapes as a host does.

mod by_hand;

use adr_tape::{
    ffi, Command, Geometry, Next, Reader, Recorder, Refusal, Reply, Sense, Setup, BLOCK_LENGTH,
    FRAME_LENGTH,
};
use by_hand::{error, fetched, locate, number_at, read_with, step, write, write_headers};

/// LAST 3,000.
const GEOMETRY: Geometry = Geometry::beginning(3_001, 1);
const FULL: Result<Next, Refusal> = Err(Refusal::TapeFull);
const ON_TAPE: Reply = Reply::buffered(0);

fn setup(tail: u32) -> Setup {
    Setup {
        depth: 5,
        blocks: 2,
        tail,
    }
}

/// A recorder that has written its opening headers and goes to this address.
#[track_caller]
fn begun(mut recorder: Recorder, first: u32) -> Recorder {
    write_headers(&mut recorder);
    step(&mut recorder, locate(first), Reply::good());
    recorder
}

fn fresh(tail: u32) -> Recorder {
    let opened = Recorder::open(GEOMETRY, setup(tail), None);
    begun(opened.expect("opens"), 10)
}

#[track_caller]
fn accept(recorder: &mut Recorder, byte: u8) {
    assert_eq!(recorder.accept_block(&[byte; BLOCK_LENGTH]), Ok(()));
}

/// A block outstanding at this address, which write errors lead to from 10;
/// its frame.
#[track_caller]
fn outstanding_at(address: u32, tail: u32) -> (Recorder, Vec<u8>) {
    let mut recorder = fresh(tail);
    accept(&mut recorder, 1);
    let mut next = 10;
    while next < address {
        // No skip leads into the second header group.
        let skip = match next + 255 {
            to if to >= address => address - next,
            to if (2_990..3_000).contains(&to) => 2_989 - next,
            _ => 255,
        };
        step(&mut recorder, write(next), Reply::good());
        step(&mut recorder, Command::ReadPosition, error(next, skip));
        next += skip;
        step(&mut recorder, locate(next), Reply::good());
    }
    let frame = step(&mut recorder, write(next), Reply::good());
    (recorder, frame)
}

/// What is outstanding fails, and what is due again has no room.
#[track_caller]
fn fails_at(recorder: &mut Recorder, position: u32, skip: u32) {
    fetched(recorder, Command::ReadPosition);
    let outcome = recorder.reply(error(position, skip));
    assert_eq!(outcome, Err(Refusal::TapeFull));
}

/// Closes a recorder that is spent with so many elements on tape.
#[track_caller]
fn give_up(recorder: &mut Recorder, on_tape: u64) {
    assert!(recorder.is_spent());
    assert_eq!(recorder.on_tape(), on_tape);
    assert_eq!(recorder.fetch(), Err(Refusal::Phase));
    assert_eq!(recorder.accept_filemark(), Err(Refusal::Phase));
    assert_eq!(recorder.close(), Ok(()));
    assert_eq!(recorder.close(), Err(Refusal::Phase));
}

/// Nothing is accepted any more, close neither.
#[track_caller]
fn is_over(recorder: &mut Recorder) {
    assert!(!recorder.is_spent());
    assert_eq!(recorder.fetch(), Err(Refusal::Phase));
    assert_eq!(recorder.close(), Err(Refusal::Phase));
}

/// The end of data goes here; its frame, and the header of the end.
#[track_caller]
fn ends_at(recorder: &mut Recorder, address: u32) -> (Vec<u8>, Vec<u8>) {
    let eod = step(recorder, write(address), Reply::good());
    assert_eq!(number_at(&eod, 16) >> 16, 0x0100);
    step(recorder, Command::ReadPosition, ON_TAPE);
    let header = write_headers(recorder);
    assert_eq!(header[32..36], address.to_be_bytes());
    assert_eq!(recorder.fetch(), Ok(Next::Done));
    assert_eq!(recorder.close(), Err(Refusal::Phase));
    (eod, header)
}

/// The last address of an element, the tail, whether the second header group
/// is crossed before the 9 or behind it, and the end's address.
#[test]
fn no_room_for_an_element() {
    for (last, tail, before, behind, end) in [
        (2_989, 1, true, false, 3_000),
        (2_989, 10, true, false, 3_000),
        (2_989, 11, false, true, 3_000),
        (2_745, 255, false, false, 2_746),
        (2_988, 12, false, false, 2_989),
    ] {
        for closed_before in [false, true] {
            let (mut recorder, _) = outstanding_at(last, tail);
            accept(&mut recorder, 2);
            if closed_before {
                assert_eq!(recorder.close(), Ok(()));
            }
            // The write errors are over: their targets are not gone to again.
            step(&mut recorder, Command::ReadPosition, ON_TAPE);
            if before {
                step(&mut recorder, locate(3_000), Reply::good());
            }
            assert_eq!(recorder.fetch(), FULL);
            give_up(&mut recorder, 1);
            if behind {
                step(&mut recorder, locate(3_000), Reply::good());
            }
            let (eod, _) = ends_at(&mut recorder, end);
            assert_eq!(number_at(&eod, 44), 1);
        }
    }
    // Nothing is kept.
    let (mut recorder, _) = outstanding_at(3_000, 0);
    accept(&mut recorder, 2);
    step(&mut recorder, Command::ReadPosition, ON_TAPE);
    assert_eq!(recorder.fetch(), FULL);
    is_over(&mut recorder);
}

#[test]
fn no_room_behind_a_bad_spot() {
    for (failed, skip, tail, target) in [
        (2_745, 0, 255, 2_746),
        (2_745, 255, 255, 3_000),
        (2_700, 46, 255, 2_746),
        (2_985, 5, 1, 3_000),
        (2_989, 1, 11, 3_000),
    ] {
        let (mut recorder, _) = outstanding_at(failed, tail);
        fails_at(&mut recorder, failed, skip);
        give_up(&mut recorder, 0);
        step(&mut recorder, locate(target), Reply::good());
        let (eod, _) = ends_at(&mut recorder, target);
        assert_eq!(number_at(&eod, 44), 0);
    }
    // Above END, and for good; a target of 3,244 is not taken for a lower one.
    for skip in [12, 255] {
        let (mut recorder, _) = outstanding_at(2_989, 1);
        fails_at(&mut recorder, 2_989, skip);
        give_up(&mut recorder, 0);
        assert_eq!(recorder.fetch(), FULL);
        is_over(&mut recorder);
    }
    // The end of data fails at END.
    let (mut recorder, _) = outstanding_at(2_985, 1);
    fails_at(&mut recorder, 2_985, 15);
    give_up(&mut recorder, 0);
    step(&mut recorder, locate(3_000), Reply::good());
    step(&mut recorder, write(3_000), Reply::good());
    fails_at(&mut recorder, 3_000, 0);
    is_over(&mut recorder);
}

/// Where close comes in time the end of data goes into the tail, and a 9 for it
/// is final.
#[test]
fn the_end_in_the_tail() {
    for (skip, fits) in [(254, true), (255, false)] {
        let (mut recorder, _) = outstanding_at(2_745, 255);
        assert_eq!(recorder.close(), Ok(()));
        step(&mut recorder, Command::ReadPosition, ON_TAPE);
        step(&mut recorder, write(2_746), Reply::good());
        if fits {
            step(&mut recorder, Command::ReadPosition, error(2_746, skip));
            step(&mut recorder, locate(3_000), Reply::good());
            ends_at(&mut recorder, 3_000);
        } else {
            fails_at(&mut recorder, 2_746, skip);
            is_over(&mut recorder);
        }
    }
}

#[test]
fn the_tape_ends_early() {
    let early = Reply::sense(Sense::EARLY_END);
    // END 9.
    let mut recorder = fresh(255);
    accept(&mut recorder, 1);
    step(&mut recorder, write(10), early);
    assert_eq!(recorder.fetch(), FULL);
    give_up(&mut recorder, 0);
    assert_eq!(recorder.fetch(), FULL);
    is_over(&mut recorder);
    // END 10, which is filled, or kept for the end.
    for tail in [1, 10, 11, 255] {
        for fails in [false, true] {
            let mut recorder = fresh(tail);
            accept(&mut recorder, 1);
            accept(&mut recorder, 2);
            step(&mut recorder, write(10), Reply::good());
            step(&mut recorder, write(11), early);
            if fails {
                fails_at(&mut recorder, 10, 1);
            } else {
                step(&mut recorder, Command::ReadPosition, ON_TAPE);
                assert_eq!(recorder.fetch(), FULL);
            }
            give_up(&mut recorder, u64::from(!fails));
            assert_eq!(recorder.fetch(), FULL);
            is_over(&mut recorder);
        }
    }
    // In the tail, for the end of data.
    let (mut recorder, _) = outstanding_at(2_745, 255);
    accept(&mut recorder, 2);
    step(&mut recorder, Command::ReadPosition, ON_TAPE);
    assert_eq!(recorder.fetch(), FULL);
    give_up(&mut recorder, 1);
    step(&mut recorder, write(2_746), early);
    assert_eq!(recorder.fetch(), FULL);
    is_over(&mut recorder);
}

/// One block fails at the last address of an element and reads as new there.
/// It is given up, delivered, and counted by what is added, whose first address
/// may lie in the tail.
#[test]
fn the_failed_block_reads() {
    let (mut recorder, block) = outstanding_at(2_745, 255);
    fails_at(&mut recorder, 2_745, 1);
    give_up(&mut recorder, 0);
    step(&mut recorder, locate(2_746), Reply::good());
    let (eod, header) = ends_at(&mut recorder, 2_746);
    assert_eq!(number_at(&eod, 44), 0);
    let mut frames = vec![(2_745, block), (2_746, eod)];
    let read = |header: &[u8], frames: &[(u32, Vec<u8>)]| {
        let mut reader = Reader::open(GEOMETRY, header).expect("opens");
        let delivered = read_with(&mut reader, frames).expect("reads to its end");
        (reader, delivered)
    };
    let (reader, delivered) = read(&header, &frames);
    assert_eq!(delivered, ["block of 1", "end"]);

    let opened = Recorder::open_at_end(&reader, setup(255));
    let mut recorder = begun(opened.expect("opens"), 2_746);
    accept(&mut recorder, 2);
    assert_eq!(recorder.fetch(), FULL);
    give_up(&mut recorder, 0);
    let (eod, header) = ends_at(&mut recorder, 2_746);
    assert_eq!(number_at(&eod, 44), 1);
    frames[1].1 = eod;
    let (reader, delivered) = read(&header, &frames);
    assert_eq!(delivered, ["block of 1", "end"]);

    let opened = Recorder::open_at_end(&reader, setup(254));
    let mut recorder = begun(opened.expect("opens"), 2_746);
    accept(&mut recorder, 3);
    frames[1].1 = step(&mut recorder, write(2_746), Reply::good());
    assert_eq!(recorder.close(), Ok(()));
    step(&mut recorder, Command::ReadPosition, ON_TAPE);
    let (eod, header) = ends_at(&mut recorder, 2_747);
    frames.push((2_747, eod));
    let (_, delivered) = read(&header, &frames);
    assert_eq!(delivered, ["block of 1", "block of 3", "end"]);
}

/// Fetches with a window of one block.
fn fetch(session: ffi::Recording) -> ffi::RecordFetched {
    ffi::record_fetch(session, &[0; BLOCK_LENGTH], &mut [0; FRAME_LENGTH])
}

/// A session whose only element is outstanding at this address.
fn session_at(address: u32) -> ffi::Recording {
    let geometry = ffi::Geometry {
        segtrk: 3_001,
        trks: 1,
        load: 0,
    };
    let opened = ffi::record_open_blank(geometry, 1, 1, 0).session;
    let mut session = ffi::record_filemark(opened).session;
    while session.elements.outstanding == 0 {
        session = ffi::record_reply(fetch(session).session, ffi::Reply::default()).session;
    }
    session.elements.next = address + 1;
    fetch(session).session
}

/// Where a write error leads to, with every tail and every skip: for the
/// element, and for the end of data where it is given up.
#[test]
fn every_tail_and_every_skip() {
    let end = 3_000;
    for failed in [2_745, 2_985, 2_989, 3_000] {
        let mut session = session_at(failed);
        for (tail, skip) in (0..=255).flat_map(|tail| (0..=255).map(move |skip| (tail, skip))) {
            session.setup.tail = tail;
            let target = match failed + u32::max(skip, 1) {
                2_990..=2_999 => 3_000,
                target => target,
            };
            let replied = ffi::record_reply(session, error(failed, skip).into());
            let row = (failed, tail, skip);
            let fits = target + u32::from(tail) <= end;
            assert_eq!(replied.number, if fits { 0 } else { 9 }, "{row:?}");
            let spent = !fits && tail > 0;
            assert_eq!(replied.session.spent, u8::from(spent), "{row:?}");
            let closed = ffi::record_close(replied.session);
            let accepted = fits || spent;
            assert_eq!(closed.number, if accepted { 0 } else { 7 }, "{row:?}");
            if accepted {
                let fetched = fetch(closed.session);
                let located = target <= end;
                assert_eq!(fetched.number, if located { 0 } else { 9 }, "{row:?}");
                assert!(!located || fetched.command.address == target, "{row:?}");
                assert_eq!(fetched.session.spent, 0, "{row:?}");
            }
        }
    }
}

#[test]
fn openings() {
    for (tail, opens) in [
        (0, true),
        (255, true),
        (256, false),
        (257, false),
        (u32::MAX, false),
    ] {
        let opened = Recorder::open(GEOMETRY, setup(tail), None).map(|_| ());
        let expected = if opens {
            Ok(())
        } else {
            Err(Refusal::Capacity)
        };
        assert_eq!(opened, expected, "{tail}");
    }
}
