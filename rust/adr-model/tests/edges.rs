//! The edges of the scope paper, by hand.

mod common;

use adr_model::geometry::{BLOCK_LENGTH, FRAME_LENGTH};
use adr_model::reply::{BECOMING_READY, EARLY_END, LONG_WRITE};
use adr_model::{Answer, Geometry, Outcome, Recording, Reply};
use common::*;

#[test]
fn marker_address_after_an_error() {
    let mut host = Host::at_elements(&geometry(), 8, 4);
    host.block(1);
    host.filemark();
    host.block(2);
    host.step(write(10), good());
    host.step(write(11), good());
    host.step(write(12), good());
    assert_eq!((host.aux(192), host.aux(200)), (1, 11));
    host.step(READ_POSITION, error(11, 3));
    host.step(locate(14), good());
    host.step(write(14), good());
    assert_eq!(
        (host.aux(44), host.aux(192), host.aux(200)),
        (1, 0, u32::MAX)
    );
    assert!(host.frame[..BLOCK_LENGTH].iter().all(|byte| *byte == 0));
    host.step(write(15), good());
    assert_eq!((host.aux(44), host.aux(192), host.aux(200)), (2, 1, 14));
    assert!(host.frame[..BLOCK_LENGTH].iter().all(|byte| *byte == 2));
    host.close();
    host.step(READ_POSITION, Reply::position(1));
    host.step(READ_POSITION, Reply::position(0));
    host.step(write(16), good());
    assert_eq!((host.aux(44), host.aux(192), host.aux(200)), (3, 1, 14));
    host.step(READ_POSITION, Reply::position(0));
    host.write_headers();
    assert_eq!(host.aux(12), 1);
    assert_eq!(adr_model::frame::number_at(&host.frame, 32), 16);
    assert_eq!(host.fetch(), Answer::Done);
    assert_eq!(host.fetch(), Answer::Done);
    assert_eq!(
        host.session.fetch(&host.window, &mut []),
        Answer::Refused(1)
    );
    assert_eq!(host.session.reply(&good()), Outcome::Refused(7));
}

/// A host with one block outstanding at `address`.
fn outstanding_at(geometry: &Geometry, address: u32) -> Host {
    let mut host = Host::at_elements(geometry, 1, 2);
    host.block(1);
    host.write_at(address);
    host
}

#[test]
fn targets() {
    for (failed, skip, target) in [
        (100, 10, 110),
        (100, 0, 101),
        (100, 1, 101),
        (100, 255, 355),
        (2_985, 4, 2_989),
        (2_985, 5, 3_000),
        (2_985, 14, 3_000),
        (2_985, 15, 3_000),
        (2_985, 16, 3_001),
        (2_989, 0, 3_000),
        (11_990, 9, 11_999),
    ] {
        let mut host = outstanding_at(&geometry(), failed);
        host.step(READ_POSITION, error(failed, skip));
        assert_eq!(host.fetch(), locate(target), "{failed} skip {skip}");
    }
    for (failed, skip) in [(11_990, 10), (11_999, 0), (11_999, 255)] {
        let mut host = outstanding_at(&geometry(), failed);
        host.refused_step(READ_POSITION, error(failed, skip), 9);
    }
    let smallest = Geometry::beginning(3_001, 1);
    let mut host = outstanding_at(&smallest, 2_989);
    host.step(READ_POSITION, error(2_989, 0));
    host.step(locate(3_000), good());
    host.step(write(3_000), good());
    host.refused_step(READ_POSITION, error(3_000, 0), 9);
    let mut host = outstanding_at(&smallest, 2_985);
    host.refused_step(READ_POSITION, error(2_985, 16), 9);
}

#[test]
fn the_gap() {
    let mut host = outstanding_at(&geometry(), 2_989);
    host.block(2);
    host.step(READ_POSITION, Reply::position(1));
    host.step(READ_POSITION, Reply::position(0));
    host.step(locate(3_000), Reply::of(LONG_WRITE));
    host.step(locate(3_000), good());
    host.step(write(3_000), good());
    host.step(READ_POSITION, Reply::position(0));
    assert_eq!(host.fetch(), Answer::Idle);

    // With room in the buffer, the buffered frame is waited for all the same.
    let mut host = Host::at_elements(&geometry(), 255, 64);
    host.block(1);
    let mut next = 10;
    while next < 2_988 {
        let skip = (2_988 - next).min(255);
        host.step(write(next), good());
        host.step(READ_POSITION, error(next, skip));
        next += skip;
        host.step(locate(next), good());
    }
    host.filemark();
    host.block(2);
    host.step(write(2_988), good());
    host.step(write(2_989), good());
    host.step(READ_POSITION, Reply::position(2));
    host.step(READ_POSITION, Reply::position(1));
    host.step(READ_POSITION, Reply::position(0));
    host.step(locate(3_000), good());
    host.step(write(3_000), good());
    assert_eq!((host.aux(44), host.aux(192), host.aux(200)), (2, 1, 2_989));
}

#[test]
fn eod_behind_the_gap_and_at_last() {
    let mut host = outstanding_at(&Geometry::beginning(3_001, 1), 2_989);
    host.close();
    host.step(READ_POSITION, Reply::position(0));
    host.step(locate(3_000), good());
    host.step(write(3_000), good());
    host.step(READ_POSITION, Reply::position(0));
    host.write_headers();
    assert_eq!(host.fetch(), Answer::Done);

    let mut host = outstanding_at(&Geometry::beginning(3_001, 1), 3_000);
    host.step(READ_POSITION, Reply::position(0));
    assert_eq!(host.fetch(), Answer::Idle);
    host.close();
    assert_eq!(host.fetch(), Answer::Refused(9));
    host.is_ended();
}

#[test]
fn early_end() {
    let mut host = Host::at_elements(&geometry(), 4, 4);
    for byte in 0..4 {
        host.block(byte);
    }
    host.step(write(10), good());
    host.step(write(11), good());
    host.step(write(12), Reply::of(EARLY_END));
    let mut late = host.clone();
    host.step(READ_POSITION, Reply::position(2));
    host.step(READ_POSITION, Reply::position(0));
    assert_eq!(host.fetch(), Answer::Refused(9));
    host.is_ended();
    // A write error whose target is within END is gone after.
    late.step(READ_POSITION, error(10, 1));
    late.step(locate(11), good());
    late.step(write(11), good());
    late.refused_step(READ_POSITION, error(11, 1), 9);
}

#[test]
fn end_before_the_gap() {
    // END 2,988, and a target moved out of the gap is above it.
    let mut host = outstanding_at(&geometry(), 2_988);
    host.block(1);
    host.step(READ_POSITION, Reply::position(0));
    host.step(write(2_989), Reply::of(EARLY_END));
    assert_eq!(host.fetch(), Answer::Refused(9));
    // END 2,999.
    let mut host = outstanding_at(&geometry(), 2_989);
    host.block(1);
    host.step(READ_POSITION, Reply::position(0));
    host.step(locate(3_000), good());
    host.step(write(3_000), Reply::of(EARLY_END));
    assert_eq!(host.fetch(), Answer::Refused(9));
}

#[test]
fn busy_before_every_rule() {
    let mut host = Host::at_elements(&geometry(), 2, 4);
    host.block(1);
    host.step(write(10), Reply::of(BECOMING_READY));
    host.frame.fill(9);
    host.step(write(10), good());
    assert_eq!((host.aux(44), host.frame[0]), (0, 1));
    host.step(READ_POSITION, Reply::of(LONG_WRITE));
    host.block(2);
    host.step(READ_POSITION, Reply::of(BECOMING_READY));
    host.step(READ_POSITION, Reply::position(1));
    host.step(write(11), good());
}

#[test]
fn window_is_full() {
    let mut host = Host::open(&geometry(), 3, 2);
    host.block(1);
    host.filemark();
    let before = host.clone();
    let block = [3; BLOCK_LENGTH];
    let accept = |host: &mut Host| host.session.accept_block(&block, &mut host.window);
    assert_eq!(accept(&mut host), Outcome::Refused(6));
    assert_eq!(host.session.accept_filemark(), Outcome::Refused(6));
    let short = &block[1..];
    let outcome = host.session.accept_block(short, &mut host.window);
    assert_eq!(outcome, Outcome::Refused(1));
    assert!(before.session == host.session && before.window == host.window);
    host.write_headers();
    host.step(locate(10), good());
    host.step(write(10), good());
    host.step(write(11), good());
    assert_eq!(accept(&mut host), Outcome::Refused(6));
    host.step(READ_POSITION, Reply::position(1));
    assert_eq!(accept(&mut host), ACCEPTED);
    assert!(host.window[..BLOCK_LENGTH] == block);
    assert!(host.window[BLOCK_LENGTH..].iter().all(|byte| *byte == 0));
    assert_eq!(accept(&mut host), Outcome::Refused(6));
}

#[test]
fn phases() {
    let mut host = Host::open(&geometry(), 3, 2);
    assert_eq!(host.session.reply(&good()), Outcome::Refused(7));
    assert_eq!(host.fetch(), locate(5));
    assert_eq!(host.fetch(), Answer::Refused(7));
    host.block(1);
    host.close();
    assert_eq!(host.session.close(), Outcome::Refused(7));
    assert_eq!(host.session.accept_filemark(), Outcome::Refused(7));
    host.bring(good());
    assert_eq!(
        host.session.fetch(&host.window, &mut [0; FRAME_LENGTH - 1]),
        Answer::Refused(1)
    );
    assert_eq!(
        host.session.fetch(&host.window[1..], &mut host.frame),
        Answer::Refused(1)
    );
    assert_eq!(host.fetch(), write(5));
}

#[test]
fn openings() {
    let open = |geometry: &Geometry, depth, window_blocks, header: Option<&[u8]>| {
        let (mut session, outcome) = Recording::open(geometry, depth, window_blocks, 0, header);
        if outcome != ACCEPTED {
            assert_eq!(session.fetch(&[], &mut []), Answer::Refused(7));
            assert_eq!(session.accept_filemark(), Outcome::Refused(7));
            assert_eq!(session.close(), Outcome::Refused(7));
        }
        outcome
    };
    let small = Geometry::beginning(3_000, 1);
    let valid = header(7, 9, 11_999);
    let mut invalid = valid;
    invalid[6] = b'X';
    let refused = Outcome::Refused;
    assert_eq!(open(&small, 0, 0, Some(&valid[1..])), refused(1));
    assert_eq!(open(&small, 0, 0, Some(&invalid)), refused(2));
    assert_eq!(open(&small, 1, 1, None), refused(2));
    assert_eq!(open(&geometry(), 0, 0, Some(&invalid)), refused(3));
    for (depth, window_blocks) in [(0, 1), (256, 1), (1, 0), (1, 65), (u32::MAX, u32::MAX)] {
        let spent = header(65_534, 9, 11_999);
        let outcome = open(&geometry(), depth, window_blocks, Some(&spent));
        assert_eq!(outcome, refused(4));
    }
    for (pass, count, outcome) in [
        (65_534, 0, refused(5)),
        (65_533, 4_294_967_293, ACCEPTED),
        (65_533, 4_294_967_294, refused(5)),
        (0, u32::MAX, refused(5)),
    ] {
        let old = header(pass, count, 11_999);
        assert_eq!(open(&geometry(), 255, 64, Some(&old)), outcome);
    }
    assert_eq!(open(&geometry(), 255, 64, None), ACCEPTED);
}
