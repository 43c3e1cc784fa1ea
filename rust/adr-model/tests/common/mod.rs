//! Helpers of the tests: sessions driven by hand.
#![allow(dead_code)]

pub mod bench;
pub mod cartridge;

use adr_model::frame::{fill_header, Frame, HeaderFields};
use adr_model::geometry::{BLOCK_LENGTH, FRAME_LENGTH};
use adr_model::reply::GOOD;
use adr_model::state::{ExchangeState, Going, ReadingState};
use adr_model::{Address, Answer, Command, Geometry, Outcome, Recording, Reply, SequenceNumber};

pub const ACCEPTED: Outcome = Outcome::Accepted;

/// The geometry of the edges, LAST 11,999.
pub fn geometry() -> Geometry {
    Geometry::beginning(1_000, 12)
}

pub fn header(pass: u16, update_count: u32, last: u32) -> Frame {
    header_of(&HeaderFields {
        pass,
        update_count,
        last: Address(last),
        eod: Address(0),
        old_end: Address(0),
    })
}

pub fn header_of(fields: &HeaderFields) -> Frame {
    let mut frame = [0; FRAME_LENGTH];
    fill_header(&mut frame, fields);
    frame
}

/// What a reading of pass 7 says that ended at `end` behind three elements, the
/// first of them a filemark at 10, on a tape up to LAST.
pub fn ended_at(end: u32, last: u32) -> ReadingState {
    ReadingState {
        header: HeaderFields {
            pass: 7,
            update_count: 3,
            last: Address(last),
            eod: Address(end),
            old_end: Address(0),
        },
        next: Address(end + 1),
        locate: false,
        expected: SequenceNumber(3),
        filemarks: 1,
        latest_marker: Some(Address(10)),
        finished: true,
        exchange: ExchangeState {
            awaited: None,
            again: None,
        },
    }
}

pub fn locate(address: u32) -> Answer {
    Answer::Command(Command::Locate(Address(address)))
}

pub fn write(address: u32) -> Answer {
    Answer::Command(Command::Write(Address(address)))
}

pub const READ_POSITION: Answer = Answer::Command(Command::ReadPosition);

pub fn error(position: u32, skip: u32) -> Reply {
    Reply::write_error(Address(position), skip)
}

pub fn good() -> Reply {
    Reply::of(GOOD)
}

/// A recording with its window and frame.
#[derive(Clone)]
pub struct Host {
    pub session: Recording,
    pub window: Vec<u8>,
    pub frame: Vec<u8>,
}

impl Host {
    /// Opened on no header, with nothing kept for EOD.
    pub fn open(geometry: &Geometry, depth: u32, window_blocks: u32) -> Host {
        Host::open_with_tail(geometry, depth, window_blocks, 0)
    }

    /// Opened on no header.
    pub fn open_with_tail(geometry: &Geometry, depth: u32, window_blocks: u32, tail: u32) -> Host {
        Host::of(
            Recording::open(geometry, depth, window_blocks, tail, None),
            window_blocks,
        )
    }

    /// Of a session that an opening gave.
    #[track_caller]
    pub fn of((session, outcome): (Recording, Outcome), window_blocks: u32) -> Host {
        assert_eq!(outcome, ACCEPTED);
        Host {
            session,
            window: vec![0; window_blocks as usize * BLOCK_LENGTH],
            frame: vec![0; FRAME_LENGTH],
        }
    }

    /// Opened, with the headers written and 10 located.
    pub fn at_elements(geometry: &Geometry, depth: u32, window_blocks: u32) -> Host {
        Host::at_elements_with_tail(geometry, depth, window_blocks, 0)
    }

    /// Opened, with the headers written and 10 located.
    pub fn at_elements_with_tail(
        geometry: &Geometry,
        depth: u32,
        window_blocks: u32,
        tail: u32,
    ) -> Host {
        let mut host = Host::open_with_tail(geometry, depth, window_blocks, tail);
        host.write_headers();
        host.step(locate(10), good());
        host
    }

    /// Sends the first element to an address; write errors lead there from 10.
    #[track_caller]
    pub fn write_at(&mut self, address: u32) {
        let mut next = 10;
        while next < address {
            // From 2,985 a skip of 15 is needed to get over the gap.
            let skip = match address - next {
                rest if rest < 255 => rest,
                _ if next < 2_985 => (2_985 - next).min(255),
                _ if next == 2_985 => 15,
                _ => 255,
            };
            self.step(write(next), good());
            self.step(READ_POSITION, error(next, skip));
            next += skip;
            self.step(locate(next), good());
        }
        assert_eq!(next, address);
        self.step(write(address), good());
    }

    /// Writes ten good copies with READ POSITION as often as it is wanted.
    pub fn write_headers(&mut self) {
        for group in [5, 2_990] {
            self.step(locate(group), good());
            let mut written = 0;
            while written < 5 {
                match self.fetch() {
                    Answer::Command(Command::Write(address)) => {
                        assert_eq!(address, Address(group + written));
                        written += 1;
                    }
                    answer => assert_eq!(answer, READ_POSITION),
                }
                self.bring(good());
            }
            self.step(READ_POSITION, good());
        }
    }

    pub fn fetch(&mut self) -> Answer {
        self.session.fetch(&self.window, &mut self.frame)
    }

    #[track_caller]
    pub fn bring(&mut self, reply: Reply) {
        assert_eq!(self.session.reply(&reply), ACCEPTED);
    }

    /// Fetches this and brings that.
    #[track_caller]
    pub fn step(&mut self, expected: Answer, reply: Reply) {
        assert_eq!(self.fetch(), expected);
        self.bring(reply);
    }

    /// Fetches this, and the reply is refused and ends the session.
    #[track_caller]
    pub fn refused_step(&mut self, expected: Answer, reply: Reply, number: u8) {
        self.refused_by(expected, reply, number);
        self.is_ended();
    }

    /// Fetches this, and the reply is refused.
    #[track_caller]
    pub fn refused_by(&mut self, expected: Answer, reply: Reply, number: u8) {
        assert_eq!(self.fetch(), expected);
        assert_eq!(self.session.reply(&reply), Outcome::Refused(number));
    }

    #[track_caller]
    pub fn block(&mut self, byte: u8) {
        let block = [byte; BLOCK_LENGTH];
        let outcome = self.session.accept_block(&block, &mut self.window);
        assert_eq!(outcome, ACCEPTED);
    }

    #[track_caller]
    pub fn filemark(&mut self) {
        assert_eq!(self.session.accept_filemark(), ACCEPTED);
    }

    /// Accepts these, F for a filemark.
    #[track_caller]
    pub fn accept(&mut self, elements: &[u8]) {
        for element in elements {
            match element {
                b'F' => self.filemark(),
                byte => self.block(*byte),
            }
        }
    }

    #[track_caller]
    pub fn close(&mut self) {
        assert_eq!(self.session.close(), ACCEPTED);
    }

    /// Only 7 follows, whatever is lent.
    #[track_caller]
    pub fn is_ended(&mut self) {
        let before = self.clone();
        self.all_but_close_are_refused();
        assert_eq!(self.session.close(), Outcome::Refused(7));
        assert_eq!(self.session.state(), None);
        assert!(before.session == self.session && before.window == self.window);
    }

    /// Only 7 follows but for close, whatever is lent; so many elements are
    /// on tape.
    #[track_caller]
    pub fn is_spent(&mut self, on_tape: u32) {
        let before = self.clone();
        self.all_but_close_are_refused();
        assert!(before.session == self.session && before.window == self.window);
        let state = self.session.state().expect("a spent session");
        assert!(state.spent);
        let first = state.elements.expect("elements").first;
        assert_eq!(first, SequenceNumber(on_tape));
    }

    /// A LOCATE of this is due.
    #[track_caller]
    pub fn goes_to(&self, target: u32) {
        let elements = self.session.state().and_then(|state| state.elements);
        let going = elements.map(|elements| elements.going);
        assert_eq!(going, Some(Going::Locate(Address(target))));
    }

    #[track_caller]
    fn all_but_close_are_refused(&mut self) {
        assert_eq!(self.fetch(), Answer::Refused(7));
        assert_eq!(self.session.fetch(&[], &mut []), Answer::Refused(7));
        assert_eq!(self.session.reply(&good()), Outcome::Refused(7));
        assert_eq!(self.session.accept_filemark(), Outcome::Refused(7));
        let outcome = self.session.accept_block(&[], &mut self.window);
        assert_eq!(outcome, Outcome::Refused(7));
    }

    /// The number at this byte of the AUX of the frame.
    pub fn aux(&self, at: usize) -> u32 {
        adr_model::frame::number_at(&self.frame, BLOCK_LENGTH + at)
    }
}
