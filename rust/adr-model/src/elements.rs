//! Elements and EOD on their way to tape.

use std::collections::{BTreeMap, VecDeque};

use crate::command::{Answer, Command};
use crate::fault::Fault;
use crate::frame::{Kind, Label};
use crate::geometry::{Address, SequenceNumber, FIRST_USER, GAP_END, GAP_FIRST};
use crate::reply::{Meaning, Reply, LARGEST_SKIP};
use crate::state::{ElementsState, Going};

/// What the first element of a recording follows.
#[derive(Clone, Copy, Debug, PartialEq, Eq)]
pub struct Start {
    /// The address it goes to.
    pub at: Address,
    /// Its number.
    pub number: SequenceNumber,
    /// Filemarks before it.
    pub filemarks: u32,
    /// The marker of the latest of these.
    pub latest_marker: Option<Address>,
}

impl Start {
    /// The start of a recording of its own.
    pub const FRESH: Start = Start {
        at: FIRST_USER,
        number: SequenceNumber(0),
        filemarks: 0,
        latest_marker: None,
    };
}

/// The state of a recording between its headers.
#[derive(Clone, Debug, PartialEq, Eq)]
pub struct Elements {
    depth: usize,
    /// T, the frames up to END that no element goes to.
    tail: u32,
    pass: u16,
    last: Address,
    /// END, the last address that may be written.
    end: Address,
    /// The next address.
    next: Address,
    /// The target of a write error noted.
    target: Option<Address>,
    /// Accepted and not known on tape, oldest first; EOD once it is due.
    waiting: VecDeque<Kind>,
    /// The first so many waiting are taken by the drive.
    outstanding: usize,
    /// Elements known on tape, those before the start too.
    confirmed: u32,
    /// Filemarks known on tape, those before the start too.
    filemarks: u32,
    /// The latest marker known on tape.
    latest_marker: Option<Address>,
    /// Where EOD is known on tape.
    eod: Option<Address>,
    fault: Fault,
    /// Marker addresses of first sendings, for the fault that keeps them.
    remembered: BTreeMap<u32, Option<Address>>,
    /// The target of the latest write error, for the fault that keeps it.
    stale_target: Option<Address>,
}

/// A count of frames as a number.
pub(crate) fn count(number: usize) -> u32 {
    u32::try_from(number).unwrap_or(u32::MAX)
}

impl Elements {
    /// No elements yet.
    #[must_use]
    pub fn new(depth: usize, tail: u32, pass: u16, last: Address, start: Start) -> Elements {
        Elements {
            depth,
            tail,
            pass,
            last,
            end: last,
            next: start.at,
            target: None,
            waiting: VecDeque::new(),
            outstanding: 0,
            confirmed: start.number.0,
            filemarks: start.filemarks,
            latest_marker: start.latest_marker,
            eod: None,
            fault: Fault::None,
            remembered: BTreeMap::new(),
            stale_target: None,
        }
    }

    /// Plants a fault, before the first element is accepted.
    pub fn plant(&mut self, fault: Fault) {
        self.fault = fault;
        if fault == Fault::NumberRestarted {
            self.confirmed = 0;
        }
        if fault == Fault::ElementAboveDepth {
            self.depth += 1;
        }
        if fault == Fault::TrailRestarted {
            (self.filemarks, self.latest_marker) = (0, None);
        }
    }

    /// Elements not known on tape.
    #[must_use]
    pub fn unconfirmed(&self) -> usize {
        if self.fault == Fault::WindowReusedEarly {
            return self.waiting.len().saturating_sub(self.outstanding);
        }
        self.waiting.len()
    }

    /// The number the next accepted element gets.
    #[must_use]
    pub fn next_number(&self) -> SequenceNumber {
        SequenceNumber(self.confirmed.saturating_add(count(self.waiting.len())))
    }

    /// Where the next frame goes, but for a write error's target.
    #[must_use]
    pub fn next(&self) -> Address {
        self.next
    }

    /// Where EOD is known on tape.
    #[must_use]
    pub fn eod(&self) -> Option<Address> {
        self.eod
    }

    /// Where they stand. Before the first LOCATE was answered, that is where
    /// they go; EOD that a fetch would make due is due.
    #[must_use]
    pub fn state(&self, located: bool, eod_due: bool) -> ElementsState {
        let mut pending: Vec<Kind> = self.waiting.iter().copied().collect();
        if eod_due && pending.is_empty() {
            pending.push(Kind::Eod);
        }
        ElementsState {
            first: SequenceNumber(self.confirmed),
            pending,
            outstanding: count(self.outstanding),
            going: match self.target {
                Some(target) => Going::Locate(target),
                None if located => Going::Next(self.next),
                None => Going::Locate(self.next),
            },
            end: self.end,
            filemarks: self.filemarks,
            latest_marker: self.latest_marker,
        }
    }

    /// Adds an accepted element.
    pub fn accept(&mut self, kind: Kind) {
        self.waiting.push_back(kind);
    }

    /// Makes EOD due if every element is on tape; close was called.
    pub fn end_if_whole(&mut self) {
        let due = self.waiting.len().saturating_sub(self.outstanding);
        if self.fault == Fault::EodBeforeLastElement && due == 1 {
            self.waiting.truncate(self.outstanding);
            self.waiting.push_back(Kind::Eod);
        }
        if self.waiting.is_empty() && self.eod.is_none() {
            self.waiting.push_back(Kind::Eod);
        }
    }

    /// Whether an element is due before all else.
    #[must_use]
    pub fn element_due(&self) -> bool {
        matches!(self.due(), Some(Kind::Data | Kind::Marker))
    }

    /// Forgets the elements that are not known on tape: EOD is next, with the
    /// number and at the address of the first of them.
    pub fn give_up(&mut self) {
        if self.fault == Fault::EodBehindGivenUp {
            self.confirmed = self.next_number().0;
        }
        if self.fault == Fault::StaleTarget {
            self.target = self.stale_target;
        }
        self.waiting.clear();
        self.outstanding = 0;
    }

    /// What is due first.
    fn due(&self) -> Option<Kind> {
        self.waiting.get(self.outstanding).copied()
    }

    /// Whether this address is above those for what is due first.
    fn is_above(&self, address: Address) -> bool {
        let kept = if self.due() == Some(Kind::Eod) {
            self.fault == Fault::EodOutOfTail
        } else {
            self.fault != Fault::ElementsUpToEnd
        };
        let room = self.end.0.checked_sub(if kept { self.tail } else { 0 });
        room.is_none_or(|highest| address.0 > highest)
    }

    /// The first rule that applies.
    #[must_use]
    pub fn answer(&self) -> Answer {
        if let Some(target) = self.target {
            // Within END when it was noted, unless elements were given up.
            return if target > self.end {
                Answer::Refused(9)
            } else {
                Answer::Command(Command::Locate(target))
            };
        }
        let some = self.outstanding > 0;
        if self.outstanding >= self.waiting.len() {
            return if some {
                Answer::Command(Command::ReadPosition)
            } else {
                Answer::Idle
            };
        }
        let above = self.is_above(self.next);
        let at_gap = self.next == GAP_FIRST;
        let stop_at_gap = at_gap && self.fault != Fault::LocateWhileBuffered;
        Answer::Command(
            if self.outstanding >= self.depth || some && (stop_at_gap || above) {
                Command::ReadPosition
            } else if above {
                return Answer::Refused(9);
            } else if at_gap {
                Command::Locate(GAP_END)
            } else {
                Command::Write(self.next)
            },
        )
    }

    /// The first element due, with its AUX for the next address.
    pub fn sending(&mut self) -> Option<Label> {
        let kind = self.due()?;
        let number = self.confirmed.saturating_add(count(self.outstanding));
        let taken = || self.waiting.iter().take(self.outstanding).enumerate();
        let markers = taken().filter(|(_, kind)| **kind == Kind::Marker);
        let mut latest_marker = markers
            .clone()
            .next_back()
            .map(|(at, _)| self.oldest().plus(count(at)))
            .or(self.latest_marker);
        let mut filemarks = self.filemarks.saturating_add(count(markers.count()));
        if self.fault == Fault::FilemarkCountStuck {
            filemarks = filemarks.min(1);
        }
        if self.fault == Fault::OldMarkerAddress {
            latest_marker = *self.remembered.entry(number).or_insert(latest_marker);
        }
        Some(Label {
            kind,
            pass: self.pass,
            last: self.last,
            number: SequenceNumber(number),
            filemarks,
            latest_marker,
        })
    }

    /// The address of the oldest outstanding frame.
    fn oldest(&self) -> Address {
        self.next.minus(count(self.outstanding))
    }

    fn confirm(&mut self, frames: usize) {
        for _ in 0..frames.min(self.outstanding) {
            let address = self.oldest();
            self.outstanding -= 1;
            match self.waiting.pop_front() {
                Some(Kind::Eod) => self.eod = Some(address),
                Some(Kind::Marker) => {
                    self.filemarks = self.filemarks.saturating_add(1);
                    self.latest_marker = Some(address);
                    self.confirmed = self.confirmed.saturating_add(1);
                }
                Some(Kind::Data) => self.confirmed = self.confirmed.saturating_add(1),
                None => {}
            }
        }
    }

    fn take(&mut self) {
        self.outstanding += 1;
        self.next = self.next.plus(1);
    }

    /// Takes in the reply to `command`, busy ones aside.
    ///
    /// # Errors
    /// The number of the refusal that ends the session.
    pub fn reply(&mut self, command: Command, reply: &Reply) -> Result<(), u8> {
        match (command, reply.sense.meaning()) {
            (Command::Locate(address), Meaning::Good) => {
                self.next = address;
                self.target = None;
                if self.fault == Fault::LocateWhileBuffered {
                    self.confirm(self.outstanding);
                }
            }
            (Command::Write(_), Meaning::Good) => {
                let early = self.fault == Fault::ClosedBeforeEod && self.due() == Some(Kind::Eod);
                self.take();
                if early {
                    self.confirm(self.outstanding);
                }
            }
            (Command::Write(address), Meaning::EarlyEnd) => self.end = address.minus(1),
            (Command::ReadPosition, Meaning::Good) => {
                let buffered = usize::try_from(reply.buffered).map_err(|_| 8)?;
                let confirmed = self.outstanding.checked_sub(buffered).ok_or(8)?;
                if self.fault == Fault::BufferedConfirmed {
                    self.confirm(self.outstanding);
                }
                self.confirm(confirmed);
            }
            (Command::Write(_) | Command::ReadPosition, Meaning::WriteError) => {
                return self.write_error(reply);
            }
            _ => return Err(8),
        }
        Ok(())
    }

    /// A busy WRITE counts as taken: a planted fault.
    pub fn busy(&mut self, command: Command) -> bool {
        let planted = self.fault == Fault::BusyTaken && matches!(command, Command::Write(_));
        if planted {
            self.take();
        }
        planted
    }

    fn write_error(&mut self, reply: &Reply) -> Result<(), u8> {
        let failed = reply.position;
        if failed < self.oldest() || failed >= self.next || reply.skip > LARGEST_SKIP {
            return Err(8);
        }
        let before = failed.0.saturating_sub(self.oldest().0);
        self.confirm(usize::try_from(before).unwrap_or(usize::MAX));
        if self.fault == Fault::FirstResentOnly && self.outstanding > 1 {
            self.waiting.drain(1..self.outstanding);
        }
        self.outstanding = 0;
        self.next = failed;
        let mut target = failed.plus(reply.skip.max(1));
        if self.fault != Fault::JumpIntoDefectMap {
            target = target.out_of_gap();
        }
        self.target = Some(target);
        self.stale_target = Some(target);
        if self.is_above(target) {
            Err(9)
        } else {
            Ok(())
        }
    }
}
