//! Keeping the tail of a tape for EOD, and giving up, by hand.

mod common;

use adr_model::fault::PLANTED_IN_ENDING;
use adr_model::frame::{fill_frame, number_at, Frame, HeaderFields, Kind, Label};
use adr_model::geometry::{BLOCK_LENGTH, FRAME_LENGTH};
use adr_model::reply::EARLY_END;
use adr_model::state::ReadingState;
use adr_model::{
    Address, Answer, Fault, Geometry, Outcome, Reading, Recording, Reply, SequenceNumber,
};
use common::cartridge::Cartridge;
use common::*;

const REFUSED: fn(u8) -> Outcome = Outcome::Refused;
const NINE: Answer = Answer::Refused(9);
const ON_TAPE: Reply = Reply::position(0);

/// LAST 3,000.
fn smallest() -> Geometry {
    Geometry::beginning(3_001, 1)
}

/// A host on a tape that ends at 3,000 whose block 0 is outstanding at
/// `address`.
fn outstanding_at(address: u32, tail: u32) -> Host {
    let mut host = Host::at_elements_with_tail(&smallest(), 1, 2, tail);
    host.block(1);
    host.write_at(address);
    host
}

/// The number, the filemarks before and the latest marker of an EOD that was
/// sent and is now on tape, the headers behind it, and done.
#[track_caller]
fn ends_at(host: &mut Host, address: u32) -> (u32, u32, u32) {
    host.step(write(address), good());
    let aux = (host.aux(44), host.aux(192), host.aux(200));
    assert_eq!(host.aux(16) >> 16, 0x0100, "not EOD");
    host.step(READ_POSITION, ON_TAPE);
    host.write_headers();
    assert_eq!(number_at(&host.frame, 32), address);
    assert_eq!(host.fetch(), Answer::Done);
    assert_eq!(host.session.close(), REFUSED(7));
    aux
}

const NONE: u32 = u32::MAX;

#[test]
fn the_tail_begins_behind_the_second_headers() {
    // Elements up to 2,999: over the gap, where no element fits.
    let mut host = outstanding_at(2_989, 1);
    host.block(2);
    host.step(READ_POSITION, ON_TAPE);
    host.step(locate(3_000), good());
    assert_eq!(host.fetch(), NINE);
    host.is_spent(1);
    host.close();
    assert_eq!(ends_at(&mut host, 3_000), (1, 0, NONE));
    // Up to 2,989: not over the gap for an element, but for EOD.
    let mut host = outstanding_at(2_989, 11);
    host.block(2);
    host.step(READ_POSITION, ON_TAPE);
    assert_eq!(host.fetch(), NINE);
    host.is_spent(1);
    host.close();
    host.step(locate(3_000), good());
    assert_eq!(ends_at(&mut host, 3_000), (1, 0, NONE));
    // Up to 2,990, which is no user frame.
    let mut host = outstanding_at(2_989, 10);
    host.block(2);
    host.step(READ_POSITION, ON_TAPE);
    host.step(locate(3_000), good());
    assert_eq!(host.fetch(), NINE);
}

#[test]
fn the_longest_tail_of_the_smallest_cartridge() {
    let mut host = Host::at_elements_with_tail(&smallest(), 8, 4, 255);
    host.block(1);
    host.write_at(2_744);
    host.filemark();
    host.block(3);
    host.step(write(2_745), good());
    // One is due and has no room: what is outstanding is waited for.
    host.step(READ_POSITION, Reply::position(1));
    host.step(READ_POSITION, ON_TAPE);
    assert_eq!(host.fetch(), NINE);
    host.is_spent(2);
    host.close();
    assert_eq!(ends_at(&mut host, 2_746), (2, 1, 2_745));
}

/// EOD that is due first goes into the tail without a 9 before it.
#[test]
fn a_close_in_time() {
    let mut host = outstanding_at(2_745, 255);
    host.close();
    host.step(READ_POSITION, ON_TAPE);
    assert_eq!(ends_at(&mut host, 2_746), (1, 0, NONE));
    // A write error of EOD leads up to END, not further.
    let mut host = outstanding_at(2_745, 255);
    host.close();
    host.step(READ_POSITION, ON_TAPE);
    host.step(write(2_746), good());
    let mut late = host.clone();
    host.step(READ_POSITION, error(2_746, 254));
    host.step(locate(3_000), good());
    assert_eq!(ends_at(&mut host, 3_000), (1, 0, NONE));
    late.refused_step(READ_POSITION, error(2_746, 255), 9);
}

#[test]
fn targets_of_elements() {
    for (failed, skip, fits) in [
        (2_700, 45, true),
        (2_700, 46, false),
        (2_744, 0, true),
        (2_745, 0, false),
        (2_745, 255, false),
    ] {
        let mut host = outstanding_at(failed, 255);
        assert_eq!(host.fetch(), READ_POSITION);
        let target = failed + skip.max(1);
        let outcome = host.session.reply(&error(failed, skip));
        if fits {
            assert_eq!(outcome, ACCEPTED);
            host.step(locate(target), good());
            host.step(write(target), good());
            assert_eq!(host.aux(16) >> 16, 0x8000, "not a block");
        } else {
            assert_eq!(outcome, REFUSED(9));
            host.is_spent(0);
            host.goes_to(target);
            host.close();
            host.goes_to(target);
            host.step(locate(target), good());
            assert_eq!(ends_at(&mut host, target), (0, 0, NONE));
        }
    }
    // Out of the gap: a tail of 1 keeps 3,000.
    for (tail, fits) in [(0, true), (1, false)] {
        let mut host = outstanding_at(2_985, tail);
        assert_eq!(host.fetch(), READ_POSITION);
        let outcome = host.session.reply(&error(2_985, 5));
        assert_eq!(outcome == ACCEPTED, fits);
    }
}

/// Frames before the failed one are on tape, and count.
#[test]
fn what_is_kept_and_what_is_not() {
    let mut host = Host::at_elements_with_tail(&smallest(), 8, 5, 255);
    host.block(1);
    host.write_at(2_742);
    host.filemark();
    host.block(2);
    host.filemark();
    host.block(3);
    host.step(write(2_743), good());
    host.step(write(2_744), good());
    host.step(write(2_745), good());
    host.refused_by(READ_POSITION, error(2_744, 2), 9);
    host.is_spent(2);
    host.close();
    // Nothing can be added to it, and nothing that waits is sent.
    assert_eq!(host.session.accept_filemark(), REFUSED(7));
    assert_eq!(host.session.close(), REFUSED(7));
    host.step(locate(2_746), good());
    assert_eq!(ends_at(&mut host, 2_746), (2, 1, 2_743));
}

#[test]
fn close_was_called_before() {
    let mut host = outstanding_at(2_745, 255);
    host.block(2);
    host.close();
    assert_eq!(host.session.close(), REFUSED(7));
    host.step(READ_POSITION, ON_TAPE);
    assert_eq!(host.fetch(), NINE);
    host.is_spent(1);
    host.close();
    assert_eq!(host.session.close(), REFUSED(7));
    assert_eq!(ends_at(&mut host, 2_746), (1, 0, NONE));
}

/// Above END there is no room for EOD either, and no third close.
#[test]
fn no_room_for_eod() {
    let mut host = outstanding_at(2_989, 1);
    host.refused_by(READ_POSITION, error(2_989, 255), 9);
    host.is_spent(0);
    host.close();
    host.goes_to(3_244);
    assert_eq!(host.fetch(), NINE);
    host.is_ended();
    // The same with close called twice.
    let mut host = outstanding_at(2_989, 1);
    host.close();
    host.refused_by(READ_POSITION, error(2_989, 12), 9);
    host.is_spent(0);
    host.close();
    assert_eq!(host.fetch(), NINE);
    host.is_ended();
    // A target in the tail is LOCATEd for EOD, and fails there for good.
    let mut host = outstanding_at(2_985, 1);
    host.refused_by(READ_POSITION, error(2_985, 15), 9);
    host.close();
    host.step(locate(3_000), good());
    host.step(write(3_000), good());
    host.refused_step(READ_POSITION, error(3_000, 0), 9);
}

/// A 9 for EOD is final, whatever is kept.
#[test]
fn nine_for_eod() {
    let mut host = Host::at_elements_with_tail(&smallest(), 1, 2, 255);
    host.close();
    host.step(write(10), good());
    host.step(READ_POSITION, error(10, 255));
    let mut next = 265;
    while next < 2_815 {
        host.step(locate(next), good());
        host.step(write(next), good());
        host.step(READ_POSITION, error(next, 255));
        next += 255;
    }
    host.step(locate(2_815), good());
    host.step(write(2_815), good());
    host.refused_step(READ_POSITION, error(2_815, 255), 9);
}

/// With nothing kept nothing is spent.
#[test]
fn without_a_tail() {
    let mut host = outstanding_at(3_000, 0);
    host.block(2);
    host.step(READ_POSITION, ON_TAPE);
    assert_eq!(host.fetch(), NINE);
    host.is_ended();
}

#[test]
fn end_before_the_tail() {
    // END 9, less than the tail.
    let mut host = Host::at_elements_with_tail(&smallest(), 4, 4, 255);
    host.block(1);
    host.step(write(10), Reply::of(EARLY_END));
    assert_eq!(host.fetch(), NINE);
    host.is_spent(0);
    host.close();
    assert_eq!(host.fetch(), NINE);
    host.is_ended();
    // END 11, and 10 and 11 are taken: END is filled, and no tail helps.
    for tail in [1, 2, 11, 12, 255] {
        let mut host = Host::at_elements_with_tail(&smallest(), 4, 4, tail);
        for byte in 0..3 {
            host.block(byte);
        }
        host.step(write(10), good());
        host.step(write(11), good());
        host.step(write(12), Reply::of(EARLY_END));
        let mut failing = host.clone();
        host.step(READ_POSITION, ON_TAPE);
        assert_eq!(host.fetch(), NINE);
        host.is_spent(2);
        host.close();
        assert_eq!(host.fetch(), NINE);
        host.is_ended();
        // Unless what is outstanding fails: then 11 is for EOD.
        failing.refused_by(READ_POSITION, error(10, 1), 9);
        failing.is_spent(0);
        failing.close();
        failing.step(locate(11), good());
        assert_eq!(ends_at(&mut failing, 11), (0, 0, NONE));
    }
}

/// END comes down while EOD is in the tail.
#[test]
fn end_within_the_tail() {
    let mut host = outstanding_at(2_745, 255);
    host.block(2);
    host.step(READ_POSITION, ON_TAPE);
    assert_eq!(host.fetch(), NINE);
    host.close();
    host.step(write(2_746), Reply::of(EARLY_END));
    assert_eq!(host.fetch(), NINE);
    host.is_ended();
}

/// A target that was LOCATEd is no error's any more.
#[test]
fn a_stale_target() {
    let mut host = outstanding_at(2_740, 255);
    for byte in 2..7 {
        host.step(READ_POSITION, ON_TAPE);
        host.block(byte);
        host.step(write(2_739 + u32::from(byte)), good());
    }
    host.block(7);
    host.step(READ_POSITION, ON_TAPE);
    assert_eq!(host.fetch(), NINE);
    host.is_spent(6);
    host.close();
    assert_eq!(ends_at(&mut host, 2_746), (6, 0, NONE));
}

/// The old end lies in the tail: it is LOCATEd, and EOD goes there again.
#[test]
fn added_in_the_tail() {
    for (end, tail) in [(2_989, 255), (2_989, 12), (3_000, 1), (2_746, 255)] {
        let reading = Reading::of_state(&ended_at(end, 3_000));
        let mut host = Host::of(Recording::open_at_end(&reading, 4, 2, tail), 2);
        host.write_headers();
        host.step(locate(end), good());
        assert_eq!(host.fetch(), Answer::Idle);
        host.block(1);
        assert_eq!(host.fetch(), NINE);
        host.is_spent(3);
        host.close();
        assert_eq!(ends_at(&mut host, end), (3, 1, 10));
    }
    // One below, the first element fits, fails, and is given up.
    let reading = Reading::of_state(&ended_at(2_745, 3_000));
    let mut host = Host::of(Recording::open_at_end(&reading, 4, 2, 255), 2);
    host.write_headers();
    host.step(locate(2_745), good());
    host.filemark();
    host.step(write(2_745), good());
    host.refused_by(READ_POSITION, error(2_745, 3), 9);
    host.is_spent(3);
    host.close();
    host.step(locate(2_748), good());
    assert_eq!(ends_at(&mut host, 2_748), (3, 1, 10));
}

#[test]
fn openings() {
    let valid = header(7, 9, 3_000);
    let exhausted = header(65_534, 9, 3_000);
    let mut invalid = valid;
    invalid[6] = b'X';
    let open = |header: &Frame, tail| Recording::open(&smallest(), 1, 1, tail, Some(header)).1;
    for tail in [0, 1, 255] {
        assert_eq!(open(&valid, tail), ACCEPTED);
        let (session, _) = Recording::open(&smallest(), 1, 1, tail, None);
        assert_eq!(session.state().map(|state| state.tail), Some(tail));
    }
    for tail in [256, 257, 65_536, u32::MAX] {
        assert_eq!(open(&valid, tail), REFUSED(4));
        assert_eq!(open(&exhausted, tail), REFUSED(4));
        assert_eq!(open(&invalid, tail), REFUSED(3));
        assert_eq!(Recording::open(&smallest(), 1, 1, tail, None).1, REFUSED(4));
        let mut state = ended_at(20, 3_000);
        let add =
            |state: &ReadingState| Recording::open_at_end(&Reading::of_state(state), 1, 1, tail).1;
        assert_eq!(add(&state), REFUSED(4));
        state.header.update_count = u32::MAX;
        state.header.eod = Address(0);
        assert_eq!(add(&state), REFUSED(4));
        state.finished = false;
        assert_eq!(add(&state), REFUSED(7));
    }
}

/// One block, in a window of one, fails at the last address for an element and
/// reads as new there. It is given up, delivered, and counted by what is added.
#[test]
fn the_failed_block_reads() {
    let mut cartridge = Cartridge::blank(smallest());
    let mut host = Host::at_elements_with_tail(&smallest(), 1, 1, 255);
    host.block(9);
    host.write_at(2_745);
    cartridge.keep(2_745, &host.frame.clone());
    host.refused_by(READ_POSITION, error(2_745, 1), 9);
    host.is_spent(0);
    host.close();
    host.step(locate(2_746), good());
    assert_eq!(cartridge.play(&mut host), Answer::Done);
    let eod = &cartridge.frames[&2_746];
    assert_eq!(number_at(eod, BLOCK_LENGTH + 44), 0);

    let (reading, delivered, end) = cartridge.read();
    assert_eq!((delivered, end), (vec![9], 0));
    let opened = Recording::open_at_end(&reading, 1, 1, 0);
    let mut host = Host::of(opened, 1);
    assert_eq!(cartridge.play(&mut host), Answer::Idle);
    host.filemark();
    assert_eq!(cartridge.play(&mut host), Answer::Idle);
    assert_eq!(host.aux(44), 1);
    host.close();
    assert_eq!(cartridge.play(&mut host), Answer::Done);
    let (_, delivered, end) = cartridge.read();
    assert_eq!((delivered, end), (vec![9, b'F'], 0));
    let aux = |at: u32, byte| number_at(&cartridge.frames[&at], BLOCK_LENGTH + byte);
    assert_eq!((aux(2_746, 44), aux(2_747, 44)), (1, 2));
    assert_eq!((aux(2_747, 192), aux(2_747, 200)), (1, 2_746));
}

/// A filemark that was given up and reads: EOD does not name it, what is added
/// does.
#[test]
fn the_failed_filemark_reads() {
    let mut cartridge = Cartridge::blank(smallest());
    let mut host = Host::at_elements_with_tail(&smallest(), 1, 1, 255);
    host.filemark();
    host.write_at(2_745);
    cartridge.keep(2_745, &host.frame.clone());
    host.refused_by(READ_POSITION, error(2_745, 1), 9);
    host.close();
    host.step(locate(2_746), good());
    assert_eq!(cartridge.play(&mut host), Answer::Done);
    let aux = |cartridge: &Cartridge, at: u32| {
        let frame = &cartridge.frames[&at];
        [44, 192, 200].map(|byte| number_at(frame, BLOCK_LENGTH + byte))
    };
    assert_eq!(aux(&cartridge, 2_746), [0, 0, NONE]);
    let (reading, delivered, end) = cartridge.read();
    assert_eq!((delivered, end), (vec![b'F'], 0));
    let mut host = Host::of(Recording::open_at_end(&reading, 1, 1, 255), 1);
    host.close();
    assert_eq!(cartridge.play(&mut host), Answer::Done);
    assert_eq!(aux(&cartridge, 2_746), [1, 1, 2_745]);
}

/// Two blocks at 10 and 11, and an EOD at 20.
fn two_blocks(number: u32, foreign: bool, fields: HeaderFields) -> Cartridge {
    let mut cartridge = Cartridge::blank(smallest());
    cartridge.header = header_of(&fields).to_vec();
    for (address, kind, number) in [
        (10, Kind::Data, 0),
        (11, Kind::Data, 1),
        (20, Kind::Eod, number),
    ] {
        let label = Label {
            kind,
            pass: 7,
            last: Address(3_000),
            number: SequenceNumber(number),
            filemarks: 0,
            latest_marker: None,
        };
        let mut frame = [0; FRAME_LENGTH];
        fill_frame(&mut frame, &label, Some(&[5; BLOCK_LENGTH]));
        // The block address, which is the number again.
        frame[BLOCK_LENGTH + 55] ^= u8::from(foreign && kind == Kind::Eod);
        cartridge.frames.insert(address, frame.to_vec());
    }
    cartridge
}

/// By which refusal, 0 for none, readings end at an EOD of this number where 2 is
/// expected, as recorded or not, by the EOD address and the old end of the header.
fn endings(fault: Fault) -> Vec<(u32, bool, u32, u32, u8)> {
    let mut found = Vec::new();
    for number in 0..4 {
        for foreign in [false, true] {
            for (eod, old_end) in [
                (20, 0),
                (20, 20),
                (19, 0),
                (21, 0),
                (0, 0),
                (0, 20),
                (0, 21),
            ] {
                let fields = HeaderFields {
                    pass: 7,
                    update_count: 3,
                    last: Address(3_000),
                    eod: Address(eod),
                    old_end: Address(old_end),
                };
                let (_, delivered, end) = two_blocks(number, foreign, fields).read_with(fault);
                assert_eq!(delivered, vec![5, 5]);
                found.push((number, foreign, eod, old_end, end));
            }
        }
    }
    found
}

#[test]
fn one_below_the_expected_number() {
    let sound = endings(Fault::None);
    for (number, foreign, eod, old_end, end) in &sound {
        let expected = match (number, foreign) {
            (3, _) => 10,
            (2, false) if *eod <= 20 && (*eod > 0 || *old_end <= 20) => 0,
            (2, true) if *eod <= 20 && (*eod > 0 || *old_end <= 20) => 11,
            (1, false) if *eod == 20 => 0,
            (1, true) if *eod == 20 => 11,
            _ => 12,
        };
        let row = format!("{number} {foreign} {eod} {old_end}");
        assert_eq!(*end, expected, "{row}");
    }
    for fault in PLANTED_IN_ENDING {
        assert_ne!(endings(fault), sound, "{fault:?} was not found");
    }
}
