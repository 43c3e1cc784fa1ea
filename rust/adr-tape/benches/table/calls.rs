//! Single calls. A session is plain numbers, so each turn sets the number of
//! its element and needs no recording that leads there.

use std::hint::black_box;
use std::sync::atomic::{compiler_fence, Ordering};

use adr_tape::{ffi, BLOCK_LENGTH, FRAME_LENGTH};

use crate::measure::{median, rows, subject, time, Row, Subject};

/// Calls that are timed at once; a window of 64 blocks is gone through.
const COUNT: u32 = 128;
const LOOP: &str = "a loop of 16-byte moves, same places";
const LARGEST: ffi::Geometry = ffi::Geometry {
    segtrk: 65_535,
    trks: 65_535,
    load: 0,
};

/// A recording among its elements, opened with a window of so many blocks.
fn recording(window: u32) -> ffi::Recording {
    let buffer = vec![0; window as usize * BLOCK_LENGTH];
    let mut frame = vec![0; FRAME_LENGTH];
    let mut session = ffi::record_open_blank(LARGEST, 255, window, 0).session;
    loop {
        let fetched = ffi::record_fetch(session, &buffer, &mut frame);
        if fetched.answer != ffi::COMMAND {
            return fetched.session;
        }
        session = ffi::record_reply(fetched.session, ffi::Reply::default()).session;
    }
}

/// The session at this element, at the beginning of tape or near its end.
fn at(mut session: ffi::Recording, number: u32, full: bool) -> ffi::Recording {
    let base = if full { 4_000_000_000 } else { 0 };
    session.elements.first = base + number;
    session.elements.next = base + 3_000 + number;
    session.elements.trail.filemarks = base / 2;
    session
}

/// A frame as the session writes it for element `number`.
fn written(session: ffi::Recording, number: u32, full: bool) -> Vec<u8> {
    let mut window = vec![7; BLOCK_LENGTH];
    let mut frame = vec![0; FRAME_LENGTH];
    let accepted = ffi::record_block(at(session, number, full), &[7; BLOCK_LENGTH], &mut window);
    let fetched = ffi::record_fetch(accepted.session, &window, &mut frame);
    assert_eq!(fetched.command.code, ffi::WRITE);
    frame
}

/// A reading that awaits the reply to a READ and expects element `expected`.
fn reading(session: &ffi::Recording, expected: u32) -> ffi::Reading {
    ffi::Reading {
        told: ffi::Told {
            last: session.copies.header.last,
            pass: session.copies.header.pass,
            ..ffi::Told::default()
        },
        position: ffi::Position {
            next: 3_000 + expected,
            locate: 0,
        },
        expected,
        exchange: ffi::Exchange {
            command: ffi::Command {
                code: ffi::READ,
                address: 3_000 + expected,
            },
            awaiting: 1,
            again: 0,
        },
        ..ffi::Reading::default()
    }
}

fn block_of(window: &mut [u8], number: u32) -> &mut [u8] {
    let blocks = window.len() / BLOCK_LENGTH;
    let start = number as usize % blocks * BLOCK_LENGTH;
    &mut window[start..start + BLOCK_LENGTH]
}

/// The buffers of a call, and of the copy it is compared with.
struct Buffers {
    block: Vec<u8>,
    window: Vec<u8>,
    frame: Vec<u8>,
}

fn buffers(blocks: u32) -> Buffers {
    Buffers {
        block: vec![5; BLOCK_LENGTH],
        window: vec![3; blocks as usize * BLOCK_LENGTH],
        frame: vec![1; FRAME_LENGTH],
    }
}

/// The places that a call copies between.
type Places = for<'a> fn(&'a mut Buffers, u32) -> (&'a [u8], &'a mut [u8]);

fn into_window(lent: &mut Buffers, number: u32) -> (&[u8], &mut [u8]) {
    (&lent.block, block_of(&mut lent.window, number))
}

fn into_frame(lent: &mut Buffers, number: u32) -> (&[u8], &mut [u8]) {
    let block = block_of(&mut lent.window, number);
    (block, &mut lent.frame[..BLOCK_LENGTH])
}

fn into_block(lent: &mut Buffers, _: u32) -> (&[u8], &mut [u8]) {
    (&lent.frame[..BLOCK_LENGTH], &mut lent.block)
}

/// The plain copy between these places.
fn copying<'a>(places: Places) -> Subject<'a, Buffers> {
    subject("copy", COUNT, move |lent: &mut Buffers, number| {
        let (from, to) = places(lent, number);
        to.copy_from_slice(black_box(from));
        black_box(to);
    })
}

/// The same by a loop of 16-byte moves in ascending order, 128 bytes a turn:
/// what the library would copy by if it did not call `memmove`.
fn looping<'a>(places: Places) -> Subject<'a, Buffers> {
    subject(LOOP, COUNT, move |lent: &mut Buffers, number| {
        let (from, to) = places(lent, number);
        let (from, to) = (black_box(from).as_chunks().0, to.as_chunks_mut().0);
        for (to, from) in to.iter_mut().zip(from) {
            move_128(to, from);
        }
        black_box(to);
    })
}

/// The fences, which are no instructions, keep the compiler from altering the
/// order and from making a `memcpy` of the loop.
#[inline(always)]
fn move_128(to: &mut [u8; 128], from: &[u8; 128]) {
    let (to, from) = (to.as_chunks_mut::<16>().0, from.as_chunks().0);
    for (to, from) in to.iter_mut().zip(from) {
        *to = *from;
        compiler_fence(Ordering::SeqCst);
    }
}

/// A call that copies a block, and such a loop alone, beside a copy.
fn moving(
    name: &'static str,
    rounds: u32,
    blocks: u32,
    places: Places,
    call: impl FnMut(&mut Buffers, u32),
) -> Vec<Row> {
    let subjects = vec![subject(name, COUNT, call), looping(places)];
    rows(rounds, || buffers(blocks), subjects, copying(places))
}

fn accepting(name: &'static str, rounds: u32, blocks: u32) -> Vec<Row> {
    let session = recording(blocks);
    moving(name, rounds, blocks, into_window, |lent, number| {
        let session = at(session, number, false);
        let accepted = ffi::record_block(session, black_box(&lent.block), &mut lent.window);
        assert_eq!(black_box(accepted).number, 0);
    })
}

fn fetching(name: &'static str, rounds: u32, blocks: u32) -> Vec<Row> {
    let mut session = recording(blocks);
    session.elements.pending = 1;
    moving(name, rounds, blocks, into_frame, |lent, number| {
        let session = at(session, number, false);
        let fetched = ffi::record_fetch(session, black_box(&lent.window), &mut lent.frame);
        assert_eq!(black_box(fetched).command.code, ffi::WRITE);
    })
}

fn replying(name: &'static str, rounds: u32, expected: u32, answer: u8) -> Vec<Row> {
    let session = recording(1);
    let reading = reading(&session, expected);
    let lent = || Buffers {
        frame: written(session, 100, false),
        ..buffers(1)
    };
    let call = subject(name, COUNT, |lent: &mut Buffers, _| {
        let reply = ffi::Reply::default();
        let taken = ffi::read_reply(black_box(reading), reply, &lent.frame);
        assert_eq!(black_box(taken).answer, answer);
    });
    rows(rounds, lent, vec![call], copying(into_block))
}

/// Calls that move a block's bytes or judge them.
pub fn with_data(rounds: u32) -> Vec<Row> {
    let measured = [
        accepting("accept a block, W = 4", rounds, 4),
        accepting("accept a block, W = 64", rounds, 64),
        fetching("fetch a WRITE, W = 4", rounds, 4),
        fetching("fetch a WRITE, W = 64", rounds, 64),
        replying("reply to a READ, data", rounds, 100, ffi::BLOCK),
        replying("reply to a READ, stale frame", rounds, 101, ffi::NOTHING),
    ];
    measured.into_iter().flatten().collect()
}

type Call<'a> = Box<dyn FnMut(u32, bool) + 'a>;

/// Each call at an empty and at a full cartridge.
fn both(rounds: u32, calls: Vec<(&'static str, Call)>) -> Vec<(&'static str, f64, f64)> {
    let measured = calls.into_iter().map(|(name, mut call)| {
        let (mut empty, mut full) = (Vec::new(), Vec::new());
        time(COUNT, |number| call(number, false));
        for _ in 0..rounds {
            empty.push(time(COUNT, |number| call(number, false)));
            full.push(time(COUNT, |number| call(number, true)));
        }
        (name, median(empty), median(full))
    });
    measured.collect()
}

/// Calls that move no data.
pub fn without_data(rounds: u32) -> Vec<(&'static str, f64, f64)> {
    let session = recording(1);
    let window = vec![0; BLOCK_LENGTH];
    let mut frame = vec![0; FRAME_LENGTH];
    let mut sent = session;
    sent.elements.pending = 1;
    sent.exchange.command.code = ffi::WRITE;
    sent.exchange.awaiting = 1;
    let mut located = reading(&session, 0);
    located.exchange.awaiting = 0;
    let calls: Vec<(&'static str, Call)> = vec![
        (
            "accept a filemark",
            Box::new(|number, full| {
                let accepted = ffi::record_filemark(at(session, number, full));
                assert_eq!(black_box(accepted).number, 0);
            }),
        ),
        (
            "fetch, idle",
            Box::new(|number, full| {
                let session = at(session, number, full);
                let fetched = ffi::record_fetch(session, &window, &mut frame);
                assert_eq!(black_box(fetched).answer, ffi::IDLE);
            }),
        ),
        (
            "reply to a WRITE",
            Box::new(|number, full| {
                let mut session = at(sent, number, full);
                session.exchange.command.address = session.elements.next;
                let replied = ffi::record_reply(session, ffi::Reply::default());
                assert_eq!(black_box(replied).number, 0);
            }),
        ),
        (
            "fetch of a reading",
            Box::new(|number, full| {
                let mut session = located;
                session.position.next = if full { 4_000_000_000 + number } else { 3_000 };
                let fetched = ffi::read_fetch(session);
                assert_eq!(black_box(fetched).answer, ffi::COMMAND);
            }),
        ),
    ];
    both(rounds, calls)
}

/// Calls with data at an empty and at a full cartridge.
pub fn empty_and_full(rounds: u32) -> Vec<(&'static str, f64, f64)> {
    let session = recording(4);
    let block = vec![5; BLOCK_LENGTH];
    let mut window = vec![0; 4 * BLOCK_LENGTH];
    let lent = window.clone();
    let mut frame = vec![0; FRAME_LENGTH];
    let mut due = session;
    due.elements.pending = 1;
    let single = recording(1);
    let data = [false, true].map(|full| written(single, 100, full));
    let calls: Vec<(&'static str, Call)> = vec![
        (
            "accept a block, W = 4",
            Box::new(|number, full| {
                let accepted = ffi::record_block(at(session, number, full), &block, &mut window);
                assert_eq!(black_box(accepted).number, 0);
            }),
        ),
        (
            "fetch a WRITE, W = 4",
            Box::new(|number, full| {
                let fetched = ffi::record_fetch(at(due, number, full), &lent, &mut frame);
                assert_eq!(black_box(fetched).command.code, ffi::WRITE);
            }),
        ),
        (
            "reply to a READ, data",
            Box::new(|_, full| {
                let expected = if full { 4_000_000_100 } else { 100 };
                let session = reading(&single, expected);
                let frame = &data[usize::from(full)];
                let taken = ffi::read_reply(session, ffi::Reply::default(), frame);
                assert_eq!(black_box(taken).answer, ffi::BLOCK);
            }),
        ),
    ];
    both(rounds, calls)
}
