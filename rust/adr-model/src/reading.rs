//! A reading session.

use crate::command::{Command, Outcome, ReadAnswer, ReadOutcome};
use crate::elements::Start;
use crate::fault::Fault;
use crate::frame::{Frame, HeaderFields, Kind};
use crate::geometry::{Address, Geometry, SequenceNumber, FIRST_USER, GAP_END, GAP_FIRST};
use crate::header;
use crate::judgement::{judge_with, Expectation, Judgement, Standing};
use crate::reply::{Meaning, Reply};
use crate::state::{ExchangeState, ReadingState};

/// The addresses that 08/00/05 tells to be blank.
const BLANK_STRETCH: u32 = 32;

/// A reading session.
#[derive(Clone, Debug, PartialEq, Eq)]
pub struct Reading {
    /// What the header says.
    header: HeaderFields,
    /// The number expected.
    expected: SequenceNumber,
    next: Address,
    /// Whether the next address must be located first.
    locate: bool,
    /// Filemarks delivered.
    filemarks: u32,
    /// Where the latest of these was delivered.
    latest_marker: Option<Address>,
    /// Where EOD was read.
    end: Option<Address>,
    ended: bool,
    awaited: Option<Command>,
    /// The command answered busy, which comes again.
    again: Option<Command>,
    fault: Fault,
}

impl Reading {
    /// Opens a session on the newest header; a refused opening returns an
    /// ended session.
    #[must_use]
    pub fn open(geometry: &Geometry, newest: &[u8]) -> (Reading, Outcome) {
        let opened = header::check(geometry, newest);
        let mut session = Reading::of_state(&ReadingState {
            header: opened.unwrap_or(HeaderFields::NONE),
            next: FIRST_USER,
            locate: true,
            expected: SequenceNumber(0),
            filemarks: 0,
            latest_marker: None,
            finished: false,
            exchange: ExchangeState {
                awaited: None,
                again: None,
            },
        });
        session.ended = opened.is_err();
        let outcome = opened.map_or_else(Outcome::Refused, |_| Outcome::Accepted);
        (session, outcome)
    }

    /// A session that stands there, whether or not calls lead to it.
    #[must_use]
    pub fn of_state(state: &ReadingState) -> Reading {
        Reading {
            header: state.header,
            expected: state.expected,
            next: state.next,
            locate: state.locate,
            filemarks: state.filemarks,
            latest_marker: state.latest_marker,
            end: state.finished.then(|| state.next.minus(1)),
            ended: false,
            awaited: state.exchange.awaited,
            again: state.exchange.again,
            fault: Fault::None,
        }
    }

    /// Plants a fault for the checks to find.
    pub fn plant(&mut self, fault: Fault) {
        self.fault = fault;
    }

    /// Where the session stands; none once a refusal has ended it.
    #[must_use]
    pub fn state(&self) -> Option<ReadingState> {
        (!self.ended).then_some(ReadingState {
            header: self.header,
            next: self.next,
            locate: self.locate,
            expected: self.expected,
            filemarks: self.filemarks,
            latest_marker: self.latest_marker,
            finished: self.end.is_some(),
            exchange: ExchangeState {
                awaited: self.awaited,
                again: self.again,
            },
        })
    }

    /// The header read and what a recording at the end goes on with; none
    /// for a session that is not at its end.
    #[must_use]
    pub fn end(&self) -> Option<(HeaderFields, Start)> {
        let busy = self.awaited.is_some() || self.again.is_some();
        let at = self.end.filter(|_| !self.ended && !busy)?;
        let start = Start {
            at,
            number: self.expected,
            filemarks: self.filemarks,
            latest_marker: self.latest_marker,
        };
        Some((self.header, start))
    }

    /// Fetches the next command.
    pub fn fetch(&mut self) -> ReadAnswer {
        if self.ended || self.awaited.is_some() {
            return ReadAnswer::Refused(7);
        }
        if self.end.is_some() {
            return ReadAnswer::End;
        }
        let command = if let Some(command) = self.again {
            command
        } else if self.next > self.header.last {
            self.ended = true;
            return ReadAnswer::Refused(12);
        } else if self.next == GAP_FIRST {
            Command::Locate(GAP_END)
        } else if self.locate {
            Command::Locate(self.next)
        } else {
            Command::Read(self.next)
        };
        self.again = None;
        self.awaited = Some(command);
        ReadAnswer::Command(command)
    }

    /// Brings the reply to the command awaited, with the frame read if the
    /// reply brings one.
    pub fn reply(&mut self, reply: &Reply, frame: &[u8]) -> ReadOutcome {
        let Some(command) = self.awaited.filter(|_| !self.ended) else {
            return ReadOutcome::Refused(7);
        };
        let Ok(frame) = <&Frame>::try_from(frame) else {
            return ReadOutcome::Refused(1);
        };
        self.awaited = None;
        match (command, reply.sense.meaning()) {
            (_, Meaning::Busy) => self.again = Some(command),
            (Command::Locate(address), Meaning::Good) => {
                self.next = address;
                self.locate = false;
            }
            (Command::Read(_), Meaning::Good | Meaning::Recovered) => return self.take_in(frame),
            (Command::Read(_), Meaning::Unreadable) => self.next = self.next.plus(1),
            (Command::Read(_), Meaning::Blank) => {
                self.next = self.next.plus(BLANK_STRETCH).out_of_gap();
                self.locate = true;
            }
            (Command::Read(_), Meaning::EndOfTape) => return self.refuse(12),
            _ => return self.refuse(8),
        }
        ReadOutcome::Nothing
    }

    fn refuse(&mut self, number: u8) -> ReadOutcome {
        self.ended = true;
        ReadOutcome::Refused(number)
    }

    fn take_in(&mut self, frame: &Frame) -> ReadOutcome {
        let at = self.next;
        self.next = at.plus(1);
        let outcome = match self.judge(at, frame) {
            Judgement::PassedOver => return ReadOutcome::Nothing,
            Judgement::Missing => return self.refuse(10),
            Judgement::Foreign => return self.refuse(11),
            Judgement::Expected(Kind::Data) => ReadOutcome::Block,
            Judgement::Expected(Kind::Marker) => {
                self.filemarks = self.filemarks.saturating_add(1);
                self.latest_marker = Some(at);
                ReadOutcome::Filemark
            }
            Judgement::Expected(Kind::Eod) => {
                self.end = Some(at);
                return ReadOutcome::End;
            }
        };
        self.expected = SequenceNumber(self.expected.0.saturating_add(1));
        outcome
    }

    fn judge(&self, at: Address, frame: &Frame) -> Judgement {
        let expectation = Expectation {
            pass: self.header.pass,
            last: self.header.last,
            number: self.expected,
        };
        let standing = Standing {
            at,
            ends_from: self.header.ends_from(),
            eod: self.header.eod,
        };
        judge_with(&expectation, standing, frame, self.fault)
    }
}
