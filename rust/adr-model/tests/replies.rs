//! Every triple on every command, and any input at all.

mod common;

use adr_model::check::content::block;
use adr_model::frame::Frame;
use adr_model::geometry::FRAME_LENGTH;
use adr_model::random::Random;
use adr_model::reply::{Meaning, SENSES};
use adr_model::{
    Address, Answer, Geometry, Outcome, ReadAnswer, ReadOutcome, Reading, Recording, Reply, Sense,
};
use common::*;

fn senses() -> Vec<Sense> {
    let mut senses: Vec<Sense> = SENSES.iter().map(|(sense, _)| *sense).collect();
    for (key, asc, ascq) in [(0, 0, 1), (2, 4, 0), (3, 0x0C, 1), (0x0D, 0, 0), (8, 0, 2)] {
        senses.push(Sense { key, asc, ascq });
    }
    senses
}

/// Whether the reply is lawful where the command is awaited; p is `position`.
fn is_lawful(host: &Host, sense: Sense, position: u32) -> bool {
    let mut session = host.session.clone();
    let reply = Reply {
        sense,
        ..error(position, 1)
    };
    match session.reply(&reply) {
        Outcome::Accepted => true,
        outcome => {
            assert_eq!(outcome, Outcome::Refused(8));
            false
        }
    }
}

#[test]
fn triples_of_a_recording() {
    use Meaning::{Busy, EarlyEnd, Good, WriteError};
    let look = |host: &mut Host, fetched: Answer, position: u32, lawful: &[Meaning]| {
        assert_eq!(host.fetch(), fetched);
        for sense in senses() {
            let expected = lawful.contains(&sense.meaning());
            assert_eq!(is_lawful(host, sense, position), expected, "{sense:?}");
        }
        host.bring(good());
    };
    let mut host = Host::open(&geometry(), 2, 2);
    look(&mut host, locate(5), 0, &[Good, Busy]);
    look(&mut host, write(5), 5, &[Good, Busy]);
    look(&mut host, write(6), 5, &[Good, Busy, WriteError]);
    look(&mut host, READ_POSITION, 6, &[Good, Busy, WriteError]);
    let mut host = Host::open(&geometry(), 2, 2);
    host.write_headers();
    look(&mut host, locate(10), 0, &[Good, Busy]);
    host.block(1);
    host.block(2);
    look(&mut host, write(10), 10, &[Good, Busy, EarlyEnd]);
    look(
        &mut host,
        write(11),
        10,
        &[Good, Busy, WriteError, EarlyEnd],
    );
    look(&mut host, READ_POSITION, 11, &[Good, Busy, WriteError]);
    host.close();
    look(&mut host, write(12), 12, &[Good, Busy, EarlyEnd]);
    look(&mut host, READ_POSITION, 12, &[Good, Busy, WriteError]);
}

#[test]
fn numbers_of_a_recording() {
    let mut host = Host::at_elements(&geometry(), 5, 5);
    host.block(1);
    host.block(2);
    host.step(write(10), good());
    host.step(write(11), good());
    for buffered in [3, 4, u32::MAX] {
        let reply = Reply::position(buffered);
        host.clone().refused_step(READ_POSITION, reply, 8);
    }
    for (position, skip) in [(9, 0), (12, 0), (0, 0), (u32::MAX, 255), (10, 256)] {
        let reply = error(position, skip);
        host.clone().refused_step(READ_POSITION, reply, 8);
    }
    host.block(3);
    host.clone().refused_step(write(12), error(12, 0), 8);
    // Numbers that do not belong to a reply are not looked at.
    let mut reply = error(u32::MAX, u32::MAX);
    reply.sense = adr_model::reply::GOOD;
    host.step(write(12), reply);
}

#[test]
fn triples_of_a_reading() {
    use Meaning::{Blank, Busy, Good, Recovered, Unreadable};
    let (mut session, _) = Reading::open(&geometry(), &header(1, 1, 11_999));
    for lawful in [
        vec![Good, Busy],
        vec![Good, Busy, Recovered, Unreadable, Blank],
    ] {
        assert!(matches!(session.fetch(), ReadAnswer::Command(_)));
        for sense in senses() {
            let outcome = session.clone().reply(&Reply::of(sense), &[0; FRAME_LENGTH]);
            let expected = match sense.meaning() {
                meaning if lawful.contains(&meaning) => ReadOutcome::Nothing,
                Meaning::EndOfTape if lawful.contains(&Blank) => ReadOutcome::Refused(12),
                _ => ReadOutcome::Refused(8),
            };
            assert_eq!(outcome, expected, "{sense:?}");
        }
        session.reply(&good(), &[0; FRAME_LENGTH]);
    }
}

fn any_reply(random: &mut Random) -> Reply {
    let any = |random: &mut Random| match random.below(4) {
        0 => random.below(6),
        1 => random.between(2_980, 3_010),
        2 => random.word(),
        _ => random.between(5, 20),
    };
    let senses = senses();
    Reply {
        sense: random.one_of(&senses).copied().unwrap_or(senses[0]),
        buffered: random.below(3),
        position: Address(any(random)),
        skip: random.below(300),
    }
}

/// Replies without any truth: each call returns, refusals alter nothing or
/// end the session.
#[test]
fn any_list_of_calls() {
    let mut random = Random::new(77);
    let mut ends = 0;
    for round in 0..3_000_u32 {
        let geometry = Geometry {
            frames_per_track: if round % 2 == 0 { 3_001 } else { 65_535 },
            tracks: if round % 2 == 0 { 1 } else { 65_535 },
            load_point: 0,
        };
        let (mut session, _) =
            Recording::open(&geometry, random.between(1, 6), 2, round % 256, None);
        let mut window = vec![0; 65_536];
        let mut frame = [0; FRAME_LENGTH];
        for _ in 0..random.below(300) {
            let before = session.clone();
            let refused = match random.below(9) {
                0 => session.accept_block(block(random.byte().into()), &mut window),
                1 => session.accept_filemark(),
                2 if random.chance(50) => session.close(),
                2..=5 => match session.fetch(&window, &mut frame) {
                    Answer::Refused(number) => Outcome::Refused(number),
                    _ => Outcome::Accepted,
                },
                _ if random.chance(950) => session.reply(&good()),
                _ => session.reply(&any_reply(&mut random)),
            };
            match refused {
                Outcome::Refused(1..=7) => assert_eq!(before, session),
                Outcome::Refused(_) => {
                    ends += 1;
                    assert_eq!(session.fetch(&window, &mut frame), Answer::Refused(7));
                }
                Outcome::Accepted => {}
            }
        }
    }
    assert!(ends > 300, "{ends}");
}

#[test]
fn any_frame_read() {
    let mut random = Random::new(78);
    for _ in 0..300 {
        let geometry = Geometry::beginning(3_001, 1);
        let (mut session, _) = Reading::open(&geometry, &header(1, 1, 3_000));
        let mut frame: Box<Frame> = Box::new([0; FRAME_LENGTH]);
        for _ in 0..random.below(300) {
            session.fetch();
            for byte in frame.iter_mut().skip(32_768).take(70) {
                *byte = if random.chance(900) { 0 } else { random.byte() };
            }
            let length = if random.chance(50) { 0 } else { FRAME_LENGTH };
            let reply = any_reply(&mut random);
            let before = session.clone();
            let outcome = session.reply(&reply, &frame[..length]);
            if let ReadOutcome::Refused(1..=7) = outcome {
                assert_eq!(before, session);
            }
            if let ReadOutcome::Refused(8..) = outcome {
                assert_eq!(session.fetch(), ReadAnswer::Refused(7));
            }
        }
    }
}
