//! Readings, by hand.

mod common;

use adr_model::frame::{fill_frame, Frame, Kind, Label};
use adr_model::geometry::{BLOCK_LENGTH, FRAME_LENGTH};
use adr_model::reply::{BECOMING_READY, BLANK, END_OF_TAPE, LONG_WRITE, RECOVERED, UNREADABLE};
use adr_model::{
    Address, Command, Geometry, Outcome, ReadAnswer, ReadOutcome, Reading, Reply, Sense,
    SequenceNumber,
};
use common::{geometry, good, header, ACCEPTED};

fn open(geometry: &Geometry) -> Reading {
    let last = geometry.last().map_or(0, |last| last.0);
    let (session, outcome) = Reading::open(geometry, &header(7, 3, last));
    assert_eq!(outcome, ACCEPTED);
    session
}

fn frame(kind: Kind, number: u32, pass: u16) -> Frame {
    let label = Label {
        kind,
        pass,
        last: Address(11_999),
        number: SequenceNumber(number),
        filemarks: 0,
        latest_marker: None,
    };
    let mut frame = [0; FRAME_LENGTH];
    fill_frame(&mut frame, &label, Some(&[5; BLOCK_LENGTH]));
    frame
}

fn locate(address: u32) -> ReadAnswer {
    ReadAnswer::Command(Command::Locate(Address(address)))
}

fn read(address: u32) -> ReadAnswer {
    ReadAnswer::Command(Command::Read(Address(address)))
}

#[track_caller]
fn step(session: &mut Reading, fetched: ReadAnswer, sense: Sense, frame: &Frame) -> ReadOutcome {
    assert_eq!(session.fetch(), fetched);
    session.reply(&Reply::of(sense), frame)
}

#[track_caller]
fn is_ended(session: &mut Reading) {
    let before = session.clone();
    assert_eq!(session.fetch(), ReadAnswer::Refused(7));
    assert_eq!(session.reply(&good(), &[]), ReadOutcome::Refused(7));
    assert_eq!(*session, before);
}

static NONE: Frame = [0; FRAME_LENGTH];
const GOOD: Sense = adr_model::reply::GOOD;
const NOTHING: ReadOutcome = ReadOutcome::Nothing;

#[test]
fn deliveries() {
    let mut session = open(&geometry());
    let s = &mut session;
    assert_eq!(step(s, locate(10), LONG_WRITE, &NONE), NOTHING);
    assert_eq!(step(s, locate(10), GOOD, &NONE), NOTHING);
    let block = frame(Kind::Data, 0, 7);
    assert_eq!(step(s, read(10), GOOD, &frame(Kind::Data, 0, 6)), NOTHING);
    assert_eq!(step(s, read(11), BECOMING_READY, &block), NOTHING);
    assert_eq!(step(s, read(11), RECOVERED, &block), ReadOutcome::Block);
    assert_eq!(step(s, read(12), GOOD, &block), NOTHING);
    assert_eq!(step(s, read(13), UNREADABLE, &block), NOTHING);
    let marker = frame(Kind::Marker, 1, 7);
    assert_eq!(step(s, read(14), GOOD, &marker), ReadOutcome::Filemark);
    let mut missing = s.clone();
    let eod = frame(Kind::Eod, 3, 7);
    let refused = step(&mut missing, read(15), GOOD, &eod);
    assert_eq!(refused, ReadOutcome::Refused(10));
    is_ended(&mut missing);
    let mut foreign = s.clone();
    let mut compressed = frame(Kind::Data, 2, 7);
    compressed[BLOCK_LENGTH + 66] = 0x4C;
    let refused = step(&mut foreign, read(15), GOOD, &compressed);
    assert_eq!(refused, ReadOutcome::Refused(11));
    is_ended(&mut foreign);
    let eod = frame(Kind::Eod, 2, 7);
    assert_eq!(step(s, read(15), GOOD, &eod), ReadOutcome::End);
    assert_eq!(s.fetch(), ReadAnswer::End);
    assert_eq!(s.fetch(), ReadAnswer::End);
    assert_eq!(s.reply(&good(), &NONE), ReadOutcome::Refused(7));
}

#[test]
fn lengths_and_phases() {
    let mut session = open(&geometry());
    assert_eq!(session.reply(&good(), &NONE), ReadOutcome::Refused(7));
    assert_eq!(session.fetch(), locate(10));
    let before = session.clone();
    assert_eq!(session.fetch(), ReadAnswer::Refused(7));
    for reply in [good(), Reply::of(LONG_WRITE), Reply::of(END_OF_TAPE)] {
        assert_eq!(session.reply(&reply, &NONE[1..]), ReadOutcome::Refused(1));
        assert_eq!(session, before);
    }
    assert_eq!(session.reply(&good(), &NONE), NOTHING);
}

#[test]
fn over_the_gap() {
    let mut session = open(&geometry());
    let s = &mut session;
    step(s, locate(10), GOOD, &NONE);
    for address in 10..2_990 {
        assert_eq!(step(s, read(address), UNREADABLE, &NONE), NOTHING);
    }
    step(s, locate(3_000), BECOMING_READY, &NONE);
    step(s, locate(3_000), GOOD, &NONE);
    assert_eq!(s.fetch(), read(3_000));
}

#[test]
fn blank_stretches() {
    for (at, target) in [
        (2_957, 2_989),
        (2_958, 3_000),
        (2_967, 3_000),
        (2_969, 3_001),
    ] {
        let mut session = open(&geometry());
        let s = &mut session;
        step(s, locate(10), GOOD, &NONE);
        for address in 10..at {
            step(s, read(address), UNREADABLE, &NONE);
        }
        step(s, read(at), BLANK, &NONE);
        step(s, locate(target), GOOD, &NONE);
        assert_eq!(s.fetch(), read(target));
    }
}

#[test]
fn no_end_found() {
    let mut session = open(&geometry());
    let s = &mut session;
    step(s, locate(10), GOOD, &NONE);
    let mut told = s.clone();
    let refused = step(&mut told, read(10), END_OF_TAPE, &NONE);
    assert_eq!(refused, ReadOutcome::Refused(12));
    is_ended(&mut told);
    let mut next = 10;
    while next <= 11_967 {
        step(s, read(next), BLANK, &NONE);
        next = match next + 32 {
            2_990..=2_999 => 3_000,
            next => next,
        };
        step(s, locate(next), GOOD, &NONE);
    }
    step(s, read(next), BLANK, &NONE);
    assert_eq!(s.fetch(), ReadAnswer::Refused(12));
    is_ended(s);

    let mut session = open(&Geometry::beginning(3_001, 1));
    let s = &mut session;
    step(s, locate(10), GOOD, &NONE);
    for address in 10..2_990 {
        step(s, read(address), GOOD, &NONE);
    }
    step(s, locate(3_000), GOOD, &NONE);
    step(s, read(3_000), GOOD, &NONE);
    assert_eq!(s.fetch(), ReadAnswer::Refused(12));
    is_ended(s);
}

#[test]
fn openings() {
    let valid = header(65_534, u32::MAX, 11_999);
    let refused = |geometry: &Geometry, header: &[u8]| {
        let (mut session, outcome) = Reading::open(geometry, header);
        is_ended(&mut session);
        outcome
    };
    let small = Geometry::beginning(3_000, 1);
    assert_eq!(refused(&small, &valid[1..]), Outcome::Refused(1));
    assert_eq!(refused(&small, &valid), Outcome::Refused(2));
    assert_eq!(refused(&geometry(), &NONE), Outcome::Refused(3));
    let other = header(1, 1, 11_998);
    assert_eq!(refused(&geometry(), &other), Outcome::Refused(3));
    // Never 5.
    let (_, outcome) = Reading::open(&geometry(), &valid);
    assert_eq!(outcome, ACCEPTED);
}

/// Blank stretches up to the last address of the largest cartridge.
#[test]
fn the_far_end() {
    if cfg!(debug_assertions) {
        return;
    }
    let mut session = open(&Geometry::beginning(65_535, 65_535));
    let s = &mut session;
    let mut next = 10;
    step(s, locate(next), GOOD, &NONE);
    while next <= 4_294_836_224 - 32 {
        step(s, read(next), BLANK, &NONE);
        next = match next + 32 {
            2_990..=2_999 => 3_000,
            next => next,
        };
        step(s, locate(next), GOOD, &NONE);
    }
    while next < 4_294_836_224 {
        step(s, read(next), UNREADABLE, &NONE);
        next += 1;
    }
    let mut blank = s.clone();
    step(&mut blank, read(next), BLANK, &NONE);
    assert_eq!(blank.fetch(), ReadAnswer::Refused(12));
    step(s, read(next), UNREADABLE, &NONE);
    assert_eq!(s.fetch(), ReadAnswer::Refused(12));
    is_ended(s);
}
