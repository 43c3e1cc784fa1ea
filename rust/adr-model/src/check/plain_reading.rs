//! What a reading of a tape comes to, told from the frames alone.

use crate::fault::Fault;
use crate::frame::{HeaderFields, Kind};
use crate::geometry::{Address, SequenceNumber, FIRST_USER};
use crate::judgement::{judge_with, Expectation, Judgement, Standing};
use crate::tape::{Shared, Tape};

/// What is told of each delivery: its number, its kind and its frame. The
/// answer is whether it was due.
pub(super) type Delivery<'a> = &'a mut dyn FnMut(usize, Kind, &Shared) -> bool;

/// What a reading came to.
#[derive(Clone, Copy, Debug, PartialEq, Eq)]
pub(super) struct CameTo {
    /// The elements delivered.
    pub(super) delivered: usize,
    /// Where EOD ended it.
    pub(super) end: Option<Address>,
    /// The refusal that ended it.
    pub(super) refused: Option<u8>,
}

/// A reading that has gone by the user frames below an address.
#[derive(Clone, Copy, Debug, PartialEq, Eq)]
pub(super) struct PlainReading {
    pub(super) header: HeaderFields,
    /// The first address that it has not gone by.
    pub(super) next: Address,
    came_to: CameTo,
    fault: Fault,
    /// Where what was delivered was not due.
    undue: Option<Address>,
}

impl PlainReading {
    /// A reading on a header that has gone by nothing, with a planted fault.
    pub(super) fn on(header: HeaderFields, fault: Fault) -> PlainReading {
        PlainReading {
            header,
            next: FIRST_USER,
            came_to: CameTo {
                delivered: 0,
                end: None,
                refused: None,
            },
            fault,
            undue: None,
        }
    }

    /// Goes by the user frames below this address, up to an end.
    pub(super) fn read_below(&mut self, tape: &Tape, below: Address, due: Delivery) {
        let last = self.header.last;
        let frames = tape.frames_between(self.next, below);
        for (at, frame) in frames.filter(|(at, _)| at.is_user_frame(last)) {
            if self.is_at_end() {
                break;
            }
            self.take(at, frame, due);
        }
        self.next = self.next.max(below);
    }

    /// Goes on to the end of the tape.
    ///
    /// # Errors
    /// A delivery that was not due.
    pub(super) fn finish(mut self, tape: &Tape, due: Delivery) -> Result<CameTo, String> {
        self.read_below(tape, self.header.last.plus(1), due);
        if !self.is_at_end() {
            self.came_to.refused = Some(12);
        }
        match self.undue {
            Some(at) => Err(format!("what stands at {at:?} was not due")),
            None => Ok(self.came_to),
        }
    }

    fn is_at_end(&self) -> bool {
        self.came_to.end.is_some() || self.came_to.refused.is_some()
    }

    fn take(&mut self, at: Address, frame: &Shared, due: Delivery) {
        let delivered = self.came_to.delivered;
        let expectation = Expectation {
            pass: self.header.pass,
            last: self.header.last,
            number: SequenceNumber(u32::try_from(delivered).unwrap_or(u32::MAX)),
        };
        let standing = Standing {
            at,
            ends_from: self.header.ends_from(),
            eod: self.header.eod,
        };
        match judge_with(&expectation, standing, frame, self.fault) {
            Judgement::PassedOver => {}
            Judgement::Missing => self.came_to.refused = Some(10),
            Judgement::Foreign => self.came_to.refused = Some(11),
            Judgement::Expected(Kind::Eod) => self.came_to.end = Some(at),
            Judgement::Expected(kind) => {
                if !due(delivered, kind, frame) {
                    self.undue = self.undue.or(Some(at));
                }
                self.came_to.delivered += 1;
            }
        }
    }
}
