//! The host of a recording: makes the calls of a list and looks at each.

use std::collections::{BTreeMap, VecDeque};

use super::case::{Call, Setup};
use super::content::{block, Element};
use super::counts::Counts;
use super::ending::{Ending, Endings};
use super::guarded::Guarded;
use super::history::History;
use super::layer::RecordingCalls;
use super::opening::Opened;
use super::replies::UNTOUCHED;
use super::trail::Followed;
use crate::command::{Answer, Command, Outcome};
use crate::drive::Drive;
use crate::frame::{Frame, HeaderFields};
use crate::geometry::{Address, BLOCK_LENGTH, FRAME_LENGTH};
use crate::reply::Reply;

/// The host of a recording.
#[derive(Clone, Debug)]
pub struct Recorder<R> {
    /// The drive.
    pub drive: Drive,
    /// What was accepted, in order, behind what stood before.
    pub accepted: Vec<Element>,
    /// Whether a fetch answered done.
    pub done: bool,
    /// The refusal of the opening, or the one from 8 to 12 that ended the session.
    pub refused: Option<u8>,
    /// Elements known on tape, those before too, when the others were given up.
    pub kept: Option<usize>,
    /// How it came to its end.
    pub endings: Endings,
    /// What the drive answered, counted.
    pub counts: Counts,
    /// What the drive wrote, if it keeps that.
    pub history: History,
    pub(super) session: R,
    /// What the opening headers must say.
    pub(super) opening: HeaderFields,
    /// What the frames sent must go on from.
    pub(super) followed: Followed,
    /// Where the first element, or EOD, must go, until it is sent.
    pub(super) first: Option<Address>,
    pub(super) end: Address,
    /// The frames up to END that no element goes to.
    pub(super) tail: u32,
    pub(super) closed: bool,
    /// Whether close is accepted after the refusal.
    pub(super) spent: bool,
    pub(super) window: Guarded,
    /// What the window must hold.
    pub(super) shadow: Vec<u8>,
    pub(super) frame: Guarded,
    pub(super) expected: Box<Frame>,
    pub(super) awaited: Option<(Command, Reply)>,
    /// The command answered busy.
    pub(super) again: Option<Command>,
    /// Where LOCATE must go after a write error.
    pub(super) target: Option<Address>,
    /// Where each marker was last sent to.
    pub(super) markers: BTreeMap<usize, Address>,
    /// What the drive took and is not known on tape.
    pub(super) taken: VecDeque<(Sent, Address)>,
    /// Elements known on tape.
    pub(super) confirmed: usize,
    /// Header copies known on tape, of this round.
    pub(super) good_headers: u32,
    /// Where EOD is known on tape.
    pub(super) eod: Option<Address>,
    pub(super) window_blocks: usize,
    pub(super) fetches: u32,
}

/// What a WRITE sent.
#[derive(Clone, Copy, Debug, PartialEq, Eq)]
pub(super) enum Sent {
    Header,
    Element,
    Eod,
}

impl<R: RecordingCalls> Recorder<R> {
    /// The host of a session opened with this.
    pub(super) fn of(
        drive: Drive,
        session: R,
        setup: Setup,
        opened: Opened,
        counts: Counts,
    ) -> Recorder<R> {
        let blocks = usize::try_from(setup.window_blocks).unwrap_or(0);
        let refused = match opened.outcome {
            Outcome::Accepted => None,
            Outcome::Refused(number) => Some(number),
        };
        let lent = if refused.is_some() { 0 } else { blocks };
        let window = Guarded::filled(0x5A, lent * BLOCK_LENGTH);
        Recorder {
            drive,
            followed: Followed::of(&opened),
            confirmed: opened.elements.len(),
            accepted: opened.elements,
            done: false,
            refused,
            kept: None,
            endings: Endings::default(),
            counts,
            history: History::default(),
            session,
            opening: opened.header,
            first: Some(opened.first),
            end: opened.header.last,
            tail: setup.tail,
            closed: false,
            spent: false,
            shadow: window.to_vec(),
            window,
            frame: Guarded::of(&UNTOUCHED),
            expected: Box::new([0; FRAME_LENGTH]),
            awaited: None,
            again: None,
            target: None,
            markers: opened.marker.into_iter().collect(),
            taken: VecDeque::new(),
            good_headers: 0,
            eod: None,
            window_blocks: blocks,
            fetches: 0,
        }
    }

    /// Makes the calls, closes, and goes on until done or a refusal that ends
    /// the session; closes a session that is spent if that is wanted.
    ///
    /// # Errors
    /// What was found wrong.
    pub fn run(&mut self, calls: &[Call], gives_up: bool) -> Result<(), String> {
        for call in calls {
            self.call(*call)
                .map_err(|wrong| format!("{call:?}: {wrong}"))?;
        }
        if !self.closed && !self.spent {
            self.call(Call::Close)?;
        }
        self.go_on()?;
        if self.spent && gives_up {
            self.call(Call::Close)?;
            self.go_on()?;
        }
        for call in [Call::Filemark, Call::Block(3), Call::Reply, Call::Fetch] {
            self.call(call)?;
        }
        if self.spent {
            self.endings.note(Ending::LeftSpent);
        } else {
            self.call(Call::Close)?;
        }
        self.window_is_right()?;
        self.only_allowed_addresses()
    }

    fn go_on(&mut self) -> Result<(), String> {
        while !self.done && self.refused.is_none() {
            self.call(Call::Exchange)?;
        }
        Ok(())
    }

    /// What a close that reports done promises: so many elements.
    pub(super) fn promised(&self) -> usize {
        self.kept.unwrap_or(self.accepted.len())
    }

    fn close(&mut self) -> Result<(), String> {
        let before = self.session.clone();
        let outcome = self.session.close();
        let phase = !self.spent && (self.closed || self.refused.is_some());
        if outcome == Outcome::Accepted {
            if self.spent {
                let first = self.confirmed == self.followed.elements_before();
                let added = self.opening.old_end != Address(0);
                self.endings.note(if first && added {
                    Ending::GivenUpAtFirst
                } else {
                    Ending::GivenUp
                });
                self.kept = Some(self.confirmed);
                self.refused = None;
                self.spent = false;
            }
            self.closed = true;
        }
        self.look(outcome, if phase { &[7] } else { &[] }, &before)
    }

    /// Looks at the whole window. What a fetch altered there stays so until an
    /// accept: it is seen before that, or at the end.
    fn window_is_right(&self) -> Result<(), String> {
        if *self.window == self.shadow {
            Ok(())
        } else {
            Err("the window is not as it should be".into())
        }
    }

    fn only_allowed_addresses(&self) -> Result<(), String> {
        let written = &self.drive.log().written;
        match written
            .iter()
            .find(|address| !address.is_header_copy() && !address.is_user_frame(self.opening.last))
        {
            Some(address) => Err(format!("{address:?} was written")),
            None => Ok(()),
        }
    }

    fn call(&mut self, call: Call) -> Result<(), String> {
        let answered = self.answered_rightly(call);
        self.session.wrong().map_or(answered, Err)?;
        if self.window.is_intact() && self.frame.is_intact() {
            Ok(())
        } else {
            Err("bytes beside a buffer were altered".into())
        }
    }

    fn answered_rightly(&mut self, call: Call) -> Result<(), String> {
        match call {
            Call::Block(number) => self.accept_block(number),
            Call::Filemark => self.accept_filemark(),
            Call::Fetch => self.fetch(),
            Call::Reply => self.reply(),
            Call::Exchange => {
                if self.awaited.is_some() {
                    self.reply()?;
                }
                self.fetch()
            }
            Call::Close => self.close(),
            Call::WrongBlock(off) => {
                let before = self.session.clone();
                let block = vec![1; BLOCK_LENGTH.saturating_add_signed(isize::from(off))];
                let outcome = self.session.accept_block(&block, &mut self.window);
                self.look(outcome, self.phase_or_length(), &before)
            }
            Call::WrongWindow(off) => {
                let before = self.session.clone();
                let length = self.window.len().saturating_add_signed(isize::from(off));
                let mut window = Guarded::filled(1, length);
                let outcome = self.session.accept_block(block(1), &mut window);
                if window != Guarded::filled(1, length) {
                    return Err("a refused window was altered".into());
                }
                self.look(outcome, self.phase_or_length(), &before)
            }
            Call::WrongFrame(off) => {
                let length = FRAME_LENGTH.saturating_add_signed(isize::from(off));
                self.wrong_fetch(self.window.len(), length)
            }
            Call::WrongFetchWindow(off) => {
                let length = self.window.len().saturating_add_signed(isize::from(off));
                self.wrong_fetch(length, FRAME_LENGTH)
            }
        }
    }

    /// The refusal of an accept with a wrong length.
    fn phase_or_length(&self) -> &'static [u8] {
        if self.closed || self.refused.is_some() {
            &[7]
        } else {
            &[1]
        }
    }

    fn wrong_fetch(&mut self, window: usize, length: usize) -> Result<(), String> {
        let before = self.session.clone();
        let (one, other) = (Guarded::filled(2, window), Guarded::filled(1, length));
        let (lent, mut frame) = (one.clone(), other.clone());
        let answer = self.session.fetch(&lent, &mut frame);
        let phase = self.awaited.is_some() || self.refused.is_some();
        let expected = Answer::Refused(if phase { 7 } else { 1 });
        if answer != expected || (lent, frame) != (one, other) || before != self.session {
            return Err(format!("answered {answer:?}, or altered something"));
        }
        Ok(())
    }

    /// Looks at an outcome: refused with one of `refusals`, or accepted if
    /// there are none, and nothing altered if refused.
    pub(super) fn look(&self, outcome: Outcome, refusals: &[u8], before: &R) -> Result<(), String> {
        let fits = match outcome {
            Outcome::Accepted => refusals.is_empty(),
            Outcome::Refused(number) => refusals.contains(&number),
        };
        if !fits {
            return Err(format!("answered {outcome:?}, not {refusals:?}"));
        }
        if outcome != Outcome::Accepted && (self.session != *before || *self.window != self.shadow)
        {
            return Err("a refused call altered the session or the window".into());
        }
        Ok(())
    }

    /// The refusal of an accept with right lengths, by what the replies told.
    fn phase_or_full(&self) -> &'static [u8] {
        if self.closed || self.refused.is_some() {
            &[7]
        } else if self.accepted.len() - self.confirmed >= self.window_blocks {
            &[6]
        } else {
            &[]
        }
    }

    fn accept_block(&mut self, number: u16) -> Result<(), String> {
        let before = self.session.clone();
        let refusals = self.phase_or_full();
        self.window_is_right()?;
        let outcome = self.session.accept_block(block(number), &mut self.window);
        self.counts.accept(outcome);
        if outcome == Outcome::Accepted {
            let start = self.accepted.len() % self.window_blocks * BLOCK_LENGTH;
            if let Some(place) = self.shadow.get_mut(start..start + BLOCK_LENGTH) {
                place.copy_from_slice(block(number));
            }
            self.accepted.push(Element::Block(number));
            self.window_is_right()?;
        }
        self.look(outcome, refusals, &before)
    }

    fn accept_filemark(&mut self) -> Result<(), String> {
        let before = self.session.clone();
        let refusals = self.phase_or_full();
        let outcome = self.session.accept_filemark();
        self.counts.accept(outcome);
        if outcome == Outcome::Accepted {
            self.accepted.push(Element::Filemark);
        }
        self.look(outcome, refusals, &before)
    }
}
