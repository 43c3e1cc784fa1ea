//! Sessions that no call returned: every call returns, what is no session
//! comes back as it was, and nothing outside the buffers is written.

mod compared;

use adr_model::random::Random;
use adr_tape::{ffi, BLOCK_LENGTH, FRAME_LENGTH};
use compared::guarded;

const ROUNDS: u32 = if cfg!(debug_assertions) { 300 } else { 4_000 };

/// Gives out numbers: distinct bytes, or random ones.
struct Bytes<F: FnMut() -> u8>(F);

impl<F: FnMut() -> u8> Bytes<F> {
    fn byte(&mut self) -> u8 {
        (self.0)()
    }

    fn half(&mut self) -> u16 {
        u16::from_be_bytes([self.byte(), self.byte()])
    }

    fn word(&mut self) -> u32 {
        (u32::from(self.half()) << 16) | u32::from(self.half())
    }

    fn exchange(&mut self) -> ffi::Exchange {
        ffi::Exchange {
            command: ffi::Command {
                code: self.byte(),
                address: self.word(),
            },
            awaiting: self.byte(),
            again: self.byte(),
        }
    }

    fn trail(&mut self) -> ffi::Trail {
        ffi::Trail {
            filemarks: self.word(),
            marker: self.word(),
        }
    }

    fn recording(&mut self) -> ffi::Recording {
        ffi::Recording {
            setup: ffi::Setup {
                depth: self.byte(),
                highest: self.byte(),
                tail: self.byte(),
            },
            stage: self.byte(),
            closed: self.byte(),
            ended: self.byte(),
            spent: self.byte(),
            exchange: self.exchange(),
            copies: ffi::Copies {
                header: ffi::Header {
                    last: self.word(),
                    eod: self.word(),
                    old: self.word(),
                    update: self.word(),
                    pass: self.half(),
                },
                group: self.byte(),
                copy: self.byte(),
                outstanding: self.byte(),
                confirmed: self.byte(),
                locate: self.byte(),
            },
            elements: ffi::Elements {
                first: self.word(),
                next: self.word(),
                limit: self.word(),
                target: self.word(),
                trail: self.trail(),
                pending: self.half(),
                outstanding: self.half(),
                locate: self.byte(),
                eod: self.byte(),
                marks: [0; 64].map(|_: u8| self.byte()),
            },
        }
    }

    fn reading(&mut self) -> ffi::Reading {
        ffi::Reading {
            told: ffi::Told {
                last: self.word(),
                eod: self.word(),
                old: self.word(),
                update: self.word(),
                pass: self.half(),
            },
            position: ffi::Position {
                next: self.word(),
                locate: self.byte(),
            },
            expected: self.word(),
            trail: self.trail(),
            exchange: self.exchange(),
            finished: self.byte(),
            ended: self.byte(),
        }
    }

    fn reply(&mut self) -> ffi::Reply {
        ffi::Reply {
            buffered: self.word(),
            position: self.word(),
            skip: self.word(),
            key: self.byte(),
            asc: self.byte(),
            ascq: self.byte(),
        }
    }
}

/// Bytes 2, 3, 4 and so on: a value of its own for each byte, and no flag.
fn distinct() -> Bytes<impl FnMut() -> u8> {
    let mut next = 1;
    Bytes(move || {
        next += 1;
        next
    })
}

/// A session of distinct bytes goes through every call and comes back.
#[test]
fn distinct_values_come_back() {
    let session = distinct().recording();
    let reply = distinct().reply();
    let mut window = vec![0; (usize::from(session.setup.highest) + 1) * BLOCK_LENGTH];
    let mut frame = [0; FRAME_LENGTH];
    for outcome in [
        ffi::record_filemark(session),
        ffi::record_close(session),
        ffi::record_reply(session, reply),
        ffi::record_block(session, &[0; BLOCK_LENGTH], &mut window),
    ] {
        assert_eq!((outcome.session, outcome.number), (session, 7));
    }
    let fetched = ffi::record_fetch(session, &window, &mut frame);
    assert_eq!((fetched.session, fetched.number), (session, 7));
    assert_eq!(
        (fetched.answer, fetched.command),
        (0, ffi::Command::default())
    );
    let session = distinct().reading();
    let fetched = ffi::read_fetch(session);
    assert_eq!((fetched.session, fetched.number), (session, 7));
    assert_eq!(
        (fetched.answer, fetched.command),
        (0, ffi::Command::default())
    );
    let taken = ffi::read_reply(session, reply, &frame);
    assert_eq!((taken.session, taken.answer, taken.number), (session, 0, 7));
    // 7 comes before 4.
    for depth in [1, 0, 256] {
        let opened = ffi::record_open_at_end(session, depth, 1, 0);
        assert_eq!((opened.number, opened.session.ended), (7, 1));
    }
}

/// A session of distinct numbers is altered in the fields a call names.
#[test]
fn fields_are_where_they_are_named() {
    let mut session = distinct().recording();
    session.stage = 1;
    (session.closed, session.ended, session.spent) = (0, 0, 0);
    session.exchange.command.code = ffi::WRITE;
    (session.exchange.awaiting, session.exchange.again) = (1, 0);
    (
        session.copies.locate,
        session.elements.locate,
        session.elements.eod,
    ) = (0, 0, 0);
    session.elements.marks = [0; 64];
    (session.elements.pending, session.elements.outstanding) = (5, 3);
    (
        session.elements.first,
        session.elements.next,
        session.elements.limit,
    ) = (1_000, 2_000, 5_000);
    (session.setup.depth, session.setup.highest) = (9, 20);

    let mut closed = session;
    closed.closed = 1;
    assert_eq!(ffi::record_close(session).session, closed);

    let mut marked = session;
    marked.elements.pending = 6;
    marked.elements.marks[1_005 % 64] = 1;
    assert_eq!(ffi::record_filemark(session).session, marked);

    let busy = ffi::Reply {
        key: 2,
        asc: 4,
        ascq: 8,
        ..ffi::Reply::default()
    };
    let mut again = session;
    (again.exchange.awaiting, again.exchange.again) = (0, 1);
    assert_eq!(ffi::record_reply(session, busy).session, again);

    let mut taken = session;
    taken.exchange.awaiting = 0;
    (taken.elements.next, taken.elements.outstanding) = (2_001, 4);
    let outcome = ffi::record_reply(session, ffi::Reply::default());
    assert_eq!((outcome.session, outcome.number), (taken, 0));

    let error = ffi::Reply {
        position: 1_999,
        skip: 7,
        key: 3,
        asc: 0x0C,
        ..ffi::Reply::default()
    };
    let mut failed = session;
    failed.exchange.awaiting = 0;
    failed.elements.first = 1_002;
    (failed.elements.pending, failed.elements.outstanding) = (3, 0);
    (failed.elements.locate, failed.elements.target) = (1, 2_006);
    let outcome = ffi::record_reply(session, error);
    assert_eq!((outcome.session, outcome.number), (failed, 0));

    let reading = ffi::Reading {
        told: ffi::Told {
            last: 9_000,
            eod: 510,
            old: 8_000,
            update: 1_234,
            pass: 77,
        },
        position: ffi::Position {
            next: 500,
            locate: 1,
        },
        expected: 60,
        trail: ffi::Trail {
            filemarks: 17,
            marker: 333,
        },
        exchange: ffi::Exchange {
            command: ffi::Command {
                code: ffi::READ,
                address: 400,
            },
            ..ffi::Exchange::default()
        },
        ..ffi::Reading::default()
    };
    let fetched = ffi::read_fetch(reading);
    let command = ffi::Command {
        code: ffi::LOCATE,
        address: 500,
    };
    let mut sent = reading;
    (sent.exchange.command, sent.exchange.awaiting) = (command, 1);
    assert_eq!((fetched.session, fetched.command), (sent, command));
    let mut located = sent;
    (located.exchange.awaiting, located.position.locate) = (0, 0);
    let taken = ffi::read_reply(sent, ffi::Reply::default(), &[0; FRAME_LENGTH]);
    assert_eq!((taken.session, taken.answer), (located, ffi::NOTHING));
    fields_of_an_opening_at_the_end(&located);
}

/// Each number of a reading comes to where an opening at its end names it.
fn fields_of_an_opening_at_the_end(reading: &ffi::Reading) {
    let mut at_end = *reading;
    at_end.position.next = 511;
    at_end.finished = 1;
    let opened = ffi::record_open_at_end(at_end, 9, 21, 33);
    assert_eq!(opened.number, 0);
    let session = opened.session;
    let expected = ffi::Recording {
        setup: ffi::Setup {
            depth: 9,
            highest: 20,
            tail: 33,
        },
        stage: 0,
        closed: 0,
        ended: 0,
        spent: 0,
        exchange: session.exchange,
        copies: ffi::Copies {
            header: ffi::Header {
                last: 9_000,
                eod: 0,
                old: 510,
                update: 1_235,
                pass: 77,
            },
            group: 0,
            copy: 0,
            outstanding: 0,
            confirmed: 0,
            locate: 1,
        },
        elements: ffi::Elements {
            first: 60,
            next: session.elements.next,
            limit: 9_001,
            target: 510,
            trail: at_end.trail,
            pending: 0,
            outstanding: 0,
            locate: 1,
            eod: 0,
            marks: [0; 64],
        },
    };
    assert_eq!(session, expected);
    assert_eq!((session.exchange.awaiting, session.exchange.again), (0, 0));
}

/// Makes a random session one that passes for a session.
fn plausible(random: &mut Random, session: &mut ffi::Recording) {
    let codes = [ffi::READ, ffi::WRITE, ffi::LOCATE, ffi::READ_POSITION];
    session.stage %= 4;
    session.exchange.command.code = random.one_of(&codes).copied().unwrap_or(ffi::READ);
    if session.exchange.command.code == ffi::READ_POSITION {
        session.exchange.command.address = 0;
    }
    session.ended = u8::from(random.chance(100));
    // In any stage, and whether ended or not.
    session.spent = u8::from(random.chance(300));
    for flag in [
        &mut session.closed,
        &mut session.exchange.awaiting,
        &mut session.exchange.again,
        &mut session.copies.locate,
        &mut session.elements.locate,
        &mut session.elements.eod,
    ]
    .into_iter()
    .chain(&mut session.elements.marks)
    {
        *flag %= 2;
    }
    if random.chance(800) {
        session.setup.highest %= 4;
    }
    if random.chance(500) {
        session.elements.pending %= 8;
        session.elements.outstanding %= 8;
        session.copies.group %= 3;
        session.copies.copy %= 7;
    }
    if random.chance(300) {
        session.elements.next = random.between(2_980, 3_010);
        session.elements.limit = random.between(2_980, 3_010);
    }
}

fn is_session(session: &ffi::Recording) -> bool {
    let code = session.exchange.command.code;
    let known = [ffi::READ, ffi::WRITE, ffi::LOCATE].contains(&code)
        || code == ffi::READ_POSITION && session.exchange.command.address == 0;
    let flags = [
        session.closed,
        session.ended,
        session.spent,
        session.exchange.awaiting,
        session.exchange.again,
        session.copies.locate,
        session.elements.locate,
        session.elements.eod,
    ];
    let mut flags = flags.iter().chain(&session.elements.marks);
    known && session.stage <= 3 && flags.all(|flag| *flag <= 1)
}

/// Looks at a call's outcome on a session that no call returned.
fn look(seed: u32, session: &ffi::Recording, after: &ffi::Recording, number: u8) {
    assert!(number <= 12, "seed {seed}");
    if !is_session(session) {
        assert_eq!((number, after), (7, session), "seed {seed}");
    } else {
        assert!(is_session(after), "seed {seed}");
    }
    if (1..=7).contains(&number) {
        assert_eq!(after, session, "seed {seed}");
    }
}

/// Lends a buffer of this length; nothing outside it is written, and nothing
/// in it where the call is refused or only reads.
fn lend<T>(
    seed: u32,
    length: usize,
    act: impl FnOnce(&mut [u8]) -> T,
    writes: impl FnOnce(&T) -> bool,
) -> T {
    let content = vec![0x3E; length];
    let (result, bytes, intact) = guarded(&content, act);
    assert!(intact, "seed {seed}: written outside the buffer");
    if !writes(&result) {
        let unaltered = bytes.iter().filter(|byte| **byte == 0x3E).count() == length;
        assert!(unaltered, "seed {seed}: a buffer was altered");
    }
    result
}

#[test]
fn recordings_that_no_call_returned() {
    let block = [0x77; BLOCK_LENGTH];
    let mut refused = 0;
    for seed in 0..ROUNDS {
        let mut random = Random::new(u64::from(seed));
        let mut bytes = Random::new(u64::from(seed) ^ 0xB17E);
        let mut session = Bytes(|| bytes.byte()).recording();
        if seed % 8 != 0 {
            plausible(&mut random, &mut session);
        }
        let mut reply = Bytes(|| bytes.byte()).reply();
        if random.chance(800) {
            (reply.key, reply.asc, reply.ascq) = (0, 0, 0);
        } else if random.chance(800) {
            (reply.key, reply.asc, reply.ascq) = (3, 0x0C, 0);
            reply.skip %= 256;
            reply.position = session.elements.next.wrapping_sub(random.below(4));
        }
        if random.chance(500) {
            reply.buffered %= 8;
        }
        for outcome in [
            ffi::record_filemark(session),
            ffi::record_close(session),
            ffi::record_reply(session, reply),
        ] {
            look(seed, &session, &outcome.session, outcome.number);
            refused += u32::from(outcome.number == 7);
        }
        let window = (usize::from(session.setup.highest) + 1) * BLOCK_LENGTH;
        if window > 8 * BLOCK_LENGTH && !random.chance(50) {
            continue;
        }
        let outcome = lend(
            seed,
            window,
            |window| ffi::record_block(session, &block, window),
            |outcome| outcome.number == 0,
        );
        look(seed, &session, &outcome.session, outcome.number);
        let fetched = lend(
            seed,
            FRAME_LENGTH,
            |frame| {
                lend(
                    seed,
                    window,
                    |window| ffi::record_fetch(session, window, frame),
                    |_| false,
                )
            },
            |fetched| fetched.command.code == ffi::WRITE,
        );
        look(seed, &session, &fetched.session, fetched.number);
        assert!(fetched.answer <= 3);
    }
    assert!(refused > ROUNDS / 4 && refused < ROUNDS * 2);
}

/// What the calls but the block's make of a session: session, refusal and
/// command.
fn made_of(
    session: ffi::Recording,
    reply: ffi::Reply,
    window: &[u8],
) -> [(ffi::Recording, u8, ffi::Command); 4] {
    let told =
        |outcome: ffi::RecordOutcome| (outcome.session, outcome.number, ffi::Command::default());
    let fetched = ffi::record_fetch(session, window, &mut [0; FRAME_LENGTH]);
    [
        told(ffi::record_close(session)),
        told(ffi::record_filemark(session)),
        told(ffi::record_reply(session, reply)),
        (fetched.session, fetched.number, fetched.command),
    ]
}

/// The session that close makes of one that is spent: what is not on tape is
/// given up, and EOD is due in its place.
fn given_up(session: &ffi::Recording) -> ffi::Recording {
    let mut after = *session;
    (after.closed, after.ended, after.spent) = (1, 0, 0);
    (after.exchange.awaiting, after.exchange.again) = (0, 0);
    (after.elements.pending, after.elements.outstanding) = (1, 0);
    after.elements.eod = 1;
    after
}

/// Spent in any stage: in one that is ended close is accepted and nothing else,
/// in one that is not it says nothing.
#[test]
fn spent_recordings_that_no_call_returned() {
    for seed in 0..ROUNDS {
        let mut random = Random::new(u64::from(seed));
        let mut bytes = Random::new(u64::from(seed) ^ 0x59E7);
        let mut session = Bytes(|| bytes.byte()).recording();
        plausible(&mut random, &mut session);
        session.setup.highest = 0;
        (session.ended, session.spent) = (1, 1);
        let mut reply = Bytes(|| bytes.byte()).reply();
        (reply.key, reply.asc, reply.ascq) = (0, 0, 0);
        reply.buffered %= 8;
        let window = [0x11; BLOCK_LENGTH];
        let [(closed, number, _), refused @ ..] = made_of(session, reply, &window);
        assert_eq!(number, 0, "seed {seed}");
        let mut expected = given_up(&session);
        // Neither marks of what is not pending nor a command that is over mean
        // anything.
        expected.elements.marks = closed.elements.marks;
        expected.exchange.command = closed.exchange.command;
        assert_eq!(closed, expected, "seed {seed}");
        let mark = closed.elements.marks[closed.elements.first as usize % 64];
        assert_eq!(mark, 0, "seed {seed}");
        for refused in refused {
            let unaltered = (session, 7, ffi::Command::default());
            assert_eq!(refused, unaltered, "seed {seed}");
        }
        let mut lent = window;
        let outcome = ffi::record_block(session, &[0x77; BLOCK_LENGTH], &mut lent);
        assert_eq!((outcome.session, outcome.number), (session, 7));
        assert!(lent == window, "seed {seed}");

        session.ended = 0;
        let spent = made_of(session, reply, &window);
        session.spent = 0;
        for (spent, plain) in spent.into_iter().zip(made_of(session, reply, &window)) {
            let (mut after, number, command) = spent;
            after.spent = plain.0.spent;
            assert_eq!((after, number, command), plain, "seed {seed}");
        }
    }
}

#[test]
fn readings_that_no_call_returned() {
    for seed in 0..ROUNDS * 5 {
        let mut random = Random::new(u64::from(seed));
        let mut bytes = Random::new(u64::from(seed) ^ 0xB17E);
        let mut session = Bytes(|| bytes.byte()).reading();
        let flags = [
            &mut session.position.locate,
            &mut session.finished,
            &mut session.ended,
            &mut session.exchange.awaiting,
            &mut session.exchange.again,
        ];
        let known = seed % 8 != 0;
        if known {
            for flag in flags {
                *flag = u8::from(random.chance(300));
            }
            let codes = [ffi::READ, ffi::WRITE, ffi::LOCATE];
            session.exchange.command.code = random.one_of(&codes).copied().unwrap_or(ffi::READ);
        }
        let fetched = ffi::read_fetch(session);
        let mut reply = Bytes(|| bytes.byte()).reply();
        if random.chance(800) {
            let senses = adr_model::reply::SENSES;
            let (sense, _) = senses[usize::from(random.byte()) % senses.len()];
            (reply.key, reply.asc, reply.ascq) = (sense.key, sense.asc, sense.ascq);
        }
        let taken = lend(
            seed,
            FRAME_LENGTH,
            |frame| ffi::read_reply(session, reply, frame),
            |_| false,
        );
        assert!(fetched.number <= 12 && taken.number <= 12, "seed {seed}");
        let opened = ffi::record_open_at_end(session, 1 + random.below(300), 1, random.below(300));
        let refused = opened.number != 0;
        assert!(is_session(&opened.session), "seed {seed}");
        assert_eq!(opened.session.ended, u8::from(refused), "seed {seed}");
        if !known {
            assert_eq!(opened.number, 7, "seed {seed}");
            assert_eq!(
                (fetched.number, fetched.session),
                (7, session),
                "seed {seed}"
            );
            assert_eq!((taken.number, taken.session), (7, session), "seed {seed}");
        }
        if (1..=7).contains(&taken.number) {
            assert_eq!(taken.session, session, "seed {seed}");
        }
    }
}
