//! A tape in memory for sessions that are driven by hand.

use std::collections::BTreeMap;

use adr_model::geometry::FRAME_LENGTH;
use adr_model::reply::{GOOD, UNREADABLE};
use adr_model::{Address, Answer, Command, Fault, Geometry, ReadAnswer, ReadOutcome};
use adr_model::{Reading, Reply};

use super::{good, Host, ACCEPTED};

/// What a cartridge holds.
#[derive(Clone)]
pub struct Cartridge {
    pub geometry: Geometry,
    pub header: Vec<u8>,
    pub frames: BTreeMap<u32, Vec<u8>>,
}

impl Cartridge {
    pub fn blank(geometry: Geometry) -> Cartridge {
        Cartridge {
            geometry,
            header: Vec::new(),
            frames: BTreeMap::new(),
        }
    }

    pub fn keep(&mut self, at: u32, frame: &[u8]) {
        if Address(at).is_header_copy() {
            self.header = frame.to_vec();
        } else {
            self.frames.insert(at, frame.to_vec());
        }
    }

    /// Answers good until there is nothing to do and keeps what is written.
    pub fn play(&mut self, host: &mut Host) -> Answer {
        loop {
            match host.fetch() {
                Answer::Command(Command::Write(Address(at))) => self.keep(at, &host.frame),
                Answer::Command(_) => {}
                answer => return answer,
            }
            host.bring(good());
        }
    }

    /// Reads it as far as a reading goes.
    pub fn read(&self) -> (Reading, Vec<u8>, u8) {
        self.read_with(Fault::None)
    }

    /// Reads it with a fault: the reading, what it delivered, F for a filemark,
    /// and the refusal that ended it, 0 for none.
    pub fn read_with(&self, fault: Fault) -> (Reading, Vec<u8>, u8) {
        let (mut session, outcome) = Reading::open(&self.geometry, &self.header);
        assert_eq!(outcome, ACCEPTED);
        session.plant(fault);
        let blank = vec![0; FRAME_LENGTH];
        let mut delivered = Vec::new();
        loop {
            let frame = match session.fetch() {
                ReadAnswer::Command(Command::Read(at)) => self.frames.get(&at.0),
                ReadAnswer::Command(_) => Some(&blank),
                ReadAnswer::End => return (session, delivered, 0),
                ReadAnswer::Refused(number) => return (session, delivered, number),
            };
            let sense = if frame.is_some() { GOOD } else { UNREADABLE };
            let frame = frame.unwrap_or(&blank);
            match session.reply(&Reply::of(sense), frame) {
                ReadOutcome::Block => delivered.push(frame[0]),
                ReadOutcome::Filemark => delivered.push(b'F'),
                ReadOutcome::Refused(number) => return (session, delivered, number),
                ReadOutcome::Nothing | ReadOutcome::End => {}
            }
        }
    }
}
