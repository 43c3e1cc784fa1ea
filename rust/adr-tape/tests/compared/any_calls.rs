//! Calls of any kind on a recording, with replies that no drive vouches for.

use adr_model::check::content::block;
use adr_model::check::counts::Counts;
use adr_model::check::guarded::Guarded;
use adr_model::check::layer::RecordingCalls;
use adr_model::geometry::{BLOCK_LENGTH, FRAME_LENGTH};
use adr_model::random::Random;
use adr_model::reply::{BECOMING_READY, GOOD, SENSES, WRITE_ERROR};
use adr_model::{Address, Answer, Command, Outcome, Reply, Sense};
use adr_tape::ffi;

use super::{right, ComparedRecording};

pub fn any_sense(random: &mut Random) -> Sense {
    match random.one_of(&SENSES) {
        Some((sense, _)) if random.chance(900) => *sense,
        _ => Sense {
            key: random.byte() % 16,
            asc: random.byte() % 32,
            ascq: random.byte() % 16,
        },
    }
}

/// A tail that a recording may be opened with: none, little or much.
pub fn any_tail(random: &mut Random) -> u32 {
    match random.below(4) {
        0 => 0,
        1 => random.between(1, 20),
        2 => 255,
        _ => random.below(256),
    }
}

/// A reply that often fits where the session stands.
fn any_reply(random: &mut Random, session: &ffi::Recording) -> Reply {
    let (next, outstanding) = match session.stage {
        1 => (
            session.elements.next,
            u32::from(session.elements.outstanding),
        ),
        _ => (
            ffi::header_address(session.copies.group.into(), 0)
                .wrapping_add(session.copies.copy.into()),
            u32::from(session.copies.outstanding),
        ),
    };
    let writing = session.exchange.command.code != ffi::LOCATE && outstanding > 0;
    let sense = match random.below(10) {
        0 => BECOMING_READY,
        1 | 2 if writing => WRITE_ERROR,
        3 if random.chance(30) => any_sense(random),
        _ => GOOD,
    };
    let skips = [0, 1, 3, 14, 255, 255, 255, 256, u32::MAX];
    Reply {
        sense,
        buffered: if random.chance(998) {
            random.below(outstanding + 1)
        } else {
            random.word()
        },
        position: Address(if random.chance(998) {
            next.wrapping_sub(random.between(1, outstanding.max(1)))
        } else {
            random.between(5, 3_001)
        }),
        skip: match random.one_of(&skips) {
            Some(skip) if random.chance(998) => (*skip).min(255),
            skip => skip.copied().unwrap_or(0),
        },
    }
}

/// The buffers of a recording, and what they must hold.
pub struct Lent {
    window: Guarded,
    held: Guarded,
    frame: Guarded,
    untouched: Guarded,
}

impl Lent {
    pub fn new(blocks: usize) -> Lent {
        let window = Guarded::filled(0x11, blocks * BLOCK_LENGTH);
        let frame = Guarded::filled(0x22, FRAME_LENGTH);
        Lent {
            held: window.clone(),
            window,
            untouched: frame.clone(),
            frame,
        }
    }

    /// Accepts a block with the window from here on; the session compares
    /// what becomes of it.
    pub fn accept(
        &mut self,
        session: &mut ComparedRecording,
        block: &[u8],
        from: usize,
    ) -> Outcome {
        let outcome = session.accept_block(block, &mut self.window[from..]);
        if outcome == Outcome::Accepted {
            self.held.copy_from_slice(&self.window);
        }
        outcome
    }

    /// Fetches with window and frame from here on; only a WRITE alters the
    /// frame.
    pub fn fetch(
        &mut self,
        session: &mut ComparedRecording,
        window: usize,
        frame: usize,
    ) -> Outcome {
        let answer = session.fetch(&self.window[window..], &mut self.frame[frame..]);
        if let Answer::Command(Command::Write(_)) = answer {
            assert!(self.frame.is_intact(), "bytes beside the frame");
            self.frame.copy_from_slice(&self.untouched);
        }
        number_of(answer)
    }

    pub fn is_as_held(&self) -> bool {
        self.window == self.held && self.frame == self.untouched
    }
}

/// Counts this reply to the command that is awaited, if one is.
fn count_reply(counts: &mut Counts, session: &mut ComparedRecording, reply: &Reply) {
    let state = session.model.state();
    let Some(command) = state.and_then(|state| state.exchange.awaited) else {
        return;
    };
    if let Err(wrong) = counts.answer(session.stage(), command, reply.sense) {
        session.complain(wrong);
    }
}

/// A call of any kind, now and then with a wrong length.
fn any_call(
    random: &mut Random,
    session: &mut ComparedRecording,
    lent: &mut Lent,
    counts: &mut Counts,
) -> Outcome {
    match random.below(12) {
        0 | 1 => counts.accept(lent.accept(session, block(random.byte().into()), 0)),
        2 => counts.accept(session.accept_filemark()),
        3 if random.chance(30) => session.close(),
        4 if random.chance(30) => lent.accept(session, &[1; 7], 0),
        5 if random.chance(30) => lent.accept(session, block(1), 1),
        6 if random.chance(30) => lent.fetch(session, 0, 1),
        7 if random.chance(30) => lent.fetch(session, 1, 0),
        3..=7 => lent.fetch(session, 0, 0),
        _ => {
            let reply = any_reply(random, &session.layer);
            count_reply(counts, session, &reply);
            session.reply(&reply)
        }
    }
}

fn number_of(answer: Answer) -> Outcome {
    match answer {
        Answer::Refused(number) => Outcome::Refused(number),
        _ => Outcome::Accepted,
    }
}

/// Makes so many calls of any kind on a session just opened, with a window of so
/// many blocks; one that is spent is mostly closed. The refusal that ended it, 0
/// for none.
pub fn make_any_calls(
    seed: u32,
    random: &mut Random,
    session: &mut ComparedRecording,
    blocks: usize,
    calls: u32,
) -> u8 {
    let mut lent = Lent::new(blocks);
    let depth = session.layer.setup.depth.into();
    let mut counts = Counts::of(depth, u32::try_from(blocks).unwrap_or(0));
    for _ in 0..calls {
        let before = session.clone();
        let outcome = any_call(random, session, &mut lent, &mut counts);
        right(session.wrong(), seed);
        assert!(lent.is_as_held(), "seed {seed}: a buffer was altered");
        match outcome {
            Outcome::Refused(number @ 1..=7) => {
                assert!(
                    before == *session,
                    "seed {seed}: {number} altered the session"
                );
            }
            Outcome::Refused(number) => {
                assert_eq!(session.accept_filemark(), Outcome::Refused(7));
                if session.layer.spent == 0 || random.chance(200) {
                    return number;
                }
                assert_eq!(session.close(), Outcome::Accepted);
                right(session.wrong(), seed);
            }
            Outcome::Accepted => {}
        }
    }
    0
}
