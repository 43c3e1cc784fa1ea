//! A host that looks at nothing but the demand itself: what was accepted,
//! whether the close reported done, and which addresses were written. It can
//! look at the frames sent besides.

use super::content::{block, Element};
use super::history::History;
use super::opening::{self, Opened};
use super::trail::Followed;
use super::{Before, Call, Model};
use crate::command::{Answer, Command, Outcome};
use crate::drive::Drive;
use crate::geometry::{Address, BLOCK_LENGTH, FRAME_LENGTH};
use crate::recording::Recording;
use crate::reply::Reply;

/// Calls after which a recording that has not come to an end is given up.
const CALLS: u32 = 20_000;

/// What a recording came to.
#[derive(Clone, Debug, Default, PartialEq, Eq)]
pub struct Recorded {
    /// What was accepted, in order, behind what stood before.
    pub accepted: Vec<Element>,
    /// Whether the close reported done.
    pub done: bool,
    /// The elements on tape, those before too, when the others were given up.
    pub kept: Option<usize>,
    /// What the drive wrote, if it keeps that.
    pub history: History,
}

impl Recorded {
    /// The elements that a close which reports done promises.
    #[must_use]
    pub fn promised(&self) -> usize {
        self.kept.unwrap_or(self.accepted.len())
    }

    /// Whether a reading that comes to its end may deliver so many of what was
    /// accepted: all that was promised, and of what was given up at most the
    /// first.
    #[must_use]
    pub fn may_read(&self, delivered: usize) -> bool {
        let most = self.accepted.len().min(self.promised() + 1);
        (self.promised()..=most).contains(&delivered)
    }
}

struct Host<'a> {
    drive: &'a mut Drive,
    session: Recording,
    window: Vec<u8>,
    frame: Box<[u8; FRAME_LENGTH]>,
    awaited: Option<Reply>,
    recorded: Recorded,
    ended: bool,
    /// What the frames sent must go on from, if they are looked at.
    followed: Option<Followed>,
    /// What was first found wrong in one.
    wrong: Option<String>,
}

/// Makes the calls, closes and goes on until done or an end; `frames` tells
/// whether the frames sent are looked at.
///
/// # Errors
/// The address that must not be written, or what is wrong in a frame.
pub(super) fn record(
    before: &Before<Model>,
    drive: &mut Drive,
    frames: bool,
) -> Result<Recorded, String> {
    let (mut session, outcome) = opening::open(before);
    session.plant(before.case.fault);
    let blocks = usize::try_from(before.setup.window_blocks).unwrap_or(0);
    let mut host = Host {
        drive,
        session,
        window: vec![0; blocks.saturating_mul(BLOCK_LENGTH)],
        frame: Box::new([0; FRAME_LENGTH]),
        awaited: None,
        recorded: Recorded {
            accepted: before.opening.elements().to_vec(),
            ..Recorded::default()
        },
        ended: outcome != Outcome::Accepted,
        followed: frames.then(|| Followed::of(&Opened::of(before))),
        wrong: None,
    };
    for call in before.calls {
        host.call(*call);
    }
    host.close();
    host.go_on();
    if host.ended && before.case.gives_up {
        host.close();
        host.go_on();
    }
    if let Some(wrong) = host.wrong {
        return Err(wrong);
    }
    let mut recorded = host.recorded;
    let accepted = recorded.accepted.len();
    recorded.history.note_held(drive, accepted);
    let mut written = drive.log().written.iter();
    match written.find(|address| !address.is_header_copy() && !address.is_user_frame(before.last)) {
        Some(address) => Err(format!("{address:?} was written")),
        None => Ok(recorded),
    }
}

impl Host<'_> {
    /// Goes on until done or an end.
    fn go_on(&mut self) {
        for _ in 0..CALLS {
            if self.ended || self.recorded.done {
                break;
            }
            self.call(Call::Exchange);
        }
    }

    fn close(&mut self) {
        let spent = self.session.state().filter(|state| state.spent);
        if self.session.close() != Outcome::Accepted {
            return;
        }
        if let Some(elements) = spent.and_then(|state| state.elements) {
            self.recorded.kept = usize::try_from(elements.first.0).ok();
            self.ended = false;
        }
    }

    fn call(&mut self, call: Call) {
        match call {
            Call::Block(number) => {
                let outcome = self.session.accept_block(block(number), &mut self.window);
                self.accepted(outcome, Element::Block(number));
            }
            Call::Filemark => {
                let outcome = self.session.accept_filemark();
                self.accepted(outcome, Element::Filemark);
            }
            Call::Fetch => self.fetch(),
            Call::Reply => self.reply(),
            Call::Exchange => {
                self.reply();
                self.fetch();
            }
            Call::Close => self.close(),
            // Refused calls are looked at by the other host.
            _ => {}
        }
    }

    fn accepted(&mut self, outcome: Outcome, element: Element) {
        if outcome == Outcome::Accepted {
            self.recorded.accepted.push(element);
        }
    }

    fn fetch(&mut self) {
        let answer = self.session.fetch(&self.window, self.frame.as_mut_slice());
        match answer {
            Answer::Command(command @ Command::Read(_)) => {
                self.awaited = Some(self.drive.read(command, &mut self.frame));
            }
            Answer::Command(command) => {
                if let Command::Write(address) = command {
                    self.look_at_frame(address);
                }
                self.awaited = Some(self.drive.record(command, &self.frame));
                let accepted = self.recorded.accepted.len();
                self.recorded.history.note(self.drive, accepted);
            }
            Answer::Done => self.recorded.done = true,
            Answer::Refused(number) => self.ended = self.ended || number > 7,
            Answer::Idle => {}
        }
    }

    fn look_at_frame(&mut self, address: Address) {
        let promised = self.recorded.accepted.get(..self.recorded.promised());
        let promised = promised.unwrap_or_default();
        let looked = self.followed.as_ref().map_or(Ok(()), |followed| {
            followed.is_right_with_drive(self.drive, promised, address, &self.frame)
        });
        self.wrong = self.wrong.take().or(looked.err());
    }

    fn reply(&mut self) {
        if let Some(reply) = self.awaited.take() {
            if let Outcome::Refused(number) = self.session.reply(&reply) {
                self.ended = self.ended || number > 7;
            }
        }
    }
}
