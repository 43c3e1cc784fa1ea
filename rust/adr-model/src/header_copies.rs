//! The walk over the ten header copies.

use crate::command::Command;
use crate::elements::count;
use crate::geometry::{Address, HEADER_GROUPS};
use crate::reply::{Meaning, Reply, LARGEST_SKIP};
use crate::state::CopiesState;

const COPIES: usize = 5;

/// How a reply left the walk.
#[derive(Clone, Copy, Debug, PartialEq, Eq)]
pub enum Walk {
    /// There is more to do.
    Goes,
    /// All copies are through and at least one is good.
    Through,
    /// This refusal ends the session.
    Refused(u8),
}

/// The state of the walk.
#[derive(Clone, Debug, PartialEq, Eq)]
pub struct HeaderCopies {
    depth: usize,
    group: usize,
    copy: usize,
    outstanding: usize,
    good: usize,
    located: bool,
    /// Copies that the drive took count as good: a planted fault.
    unawaited: bool,
}

impl HeaderCopies {
    /// A walk not begun, with a drive that buffers `depth` frames.
    #[must_use]
    pub fn new(depth: usize) -> HeaderCopies {
        HeaderCopies {
            depth,
            group: 0,
            copy: 0,
            outstanding: 0,
            good: 0,
            located: false,
            unawaited: false,
        }
    }

    /// Plants a fault: the walk goes on without waiting for copies taken.
    pub fn plant_unawaited(&mut self) {
        self.unawaited = true;
    }

    /// Where the walk stands.
    #[must_use]
    pub fn state(&self) -> CopiesState {
        CopiesState {
            group: count(self.group),
            copy: count(self.copy),
            outstanding: count(self.outstanding),
            confirmed: count(self.good),
            locate: !self.located,
        }
    }

    fn next(&self) -> Option<Address> {
        HEADER_GROUPS.get(self.group)?.get(self.copy).copied()
    }

    /// The next command.
    #[must_use]
    pub fn command(&self) -> Command {
        match self.next() {
            Some(address) if !self.located => Command::Locate(address),
            Some(address) if self.outstanding < self.depth => Command::Write(address),
            _ => Command::ReadPosition,
        }
    }

    /// Takes in the reply to `command`, busy ones aside.
    pub fn reply(&mut self, command: Command, reply: &Reply) -> Walk {
        match (command, reply.sense.meaning()) {
            (Command::Locate(_), Meaning::Good) => self.located = true,
            (Command::Write(_), Meaning::Good) => {
                self.copy += 1;
                self.outstanding += 1;
            }
            (Command::ReadPosition, Meaning::Good) => {
                let Some(buffered) = usize::try_from(reply.buffered)
                    .ok()
                    .filter(|buffered| *buffered <= self.outstanding)
                else {
                    return Walk::Refused(8);
                };
                self.good += self.outstanding - buffered;
                self.outstanding = buffered;
            }
            (Command::Write(_) | Command::ReadPosition, Meaning::WriteError) => {
                let Some(failed) = self.outstanding_copy(reply.position) else {
                    return Walk::Refused(8);
                };
                if reply.skip > LARGEST_SKIP {
                    return Walk::Refused(8);
                }
                self.good += failed.saturating_sub(self.copy - self.outstanding);
                self.copy = failed + 1;
                self.outstanding = 0;
                self.located = false;
            }
            _ => return Walk::Refused(8),
        }
        self.go_on()
    }

    /// The copy at `position`, if it is outstanding.
    fn outstanding_copy(&self, position: Address) -> Option<usize> {
        let group = HEADER_GROUPS.get(self.group)?;
        let copy = group.iter().position(|address| *address == position)?;
        (copy < self.copy && copy + self.outstanding >= self.copy).then_some(copy)
    }

    fn go_on(&mut self) -> Walk {
        if self.copy < COPIES || self.outstanding > 0 && !self.unawaited {
            return Walk::Goes;
        }
        self.good += std::mem::take(&mut self.outstanding);
        self.group += 1;
        self.copy = 0;
        self.located = false;
        if self.group < HEADER_GROUPS.len() {
            Walk::Goes
        } else if self.good > 0 {
            Walk::Through
        } else {
            Walk::Refused(12)
        }
    }
}
