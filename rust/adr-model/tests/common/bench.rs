//! A cartridge with all its header copies, and a drive that holds one frame, for
//! sessions that are driven by hand and cut.

use std::collections::BTreeMap;

use adr_model::frame::number_at;
use adr_model::geometry::{BLOCK_LENGTH, HEADER_GROUPS};
use adr_model::{Address, Answer, Command, Geometry, Recording};

use super::cartridge::Cartridge;
use super::{error, good, Host, READ_POSITION};

/// What an address reads as where a write failed or was cut.
#[derive(Clone, Copy, Debug, PartialEq, Eq)]
pub enum Reads {
    Before,
    New,
    Nothing,
}

pub const EACH: [Reads; 3] = [Reads::Before, Reads::New, Reads::Nothing];

/// The deliveries of a reading, F for a filemark, and where it ended or the
/// refusal.
pub type CameTo = (Vec<u8>, Result<u32, u8>);

#[derive(Clone)]
pub struct Bench {
    pub cartridge: Cartridge,
    pub copies: BTreeMap<u32, Vec<u8>>,
}

impl Bench {
    pub fn blank(geometry: Geometry) -> Bench {
        Bench {
            cartridge: Cartridge::blank(geometry),
            copies: BTreeMap::new(),
        }
    }

    /// A recording of these elements that came to done.
    pub fn recorded(geometry: Geometry, elements: &[u8]) -> Bench {
        let mut bench = Bench::blank(geometry);
        let mut host = bench.fresh(0);
        host.accept(elements);
        host.close();
        assert_eq!(bench.go_on(&mut host), Answer::Done);
        bench
    }

    /// A host of a recording of its own with such a tail, a drive that holds
    /// one frame and a window of four blocks.
    pub fn fresh(&self, tail: u32) -> Host {
        let newest = self.copies.values().max_by_key(|copy| update_count(copy));
        let newest = newest.map(Vec::as_slice);
        Host::of(
            Recording::open(&self.cartridge.geometry, 1, 4, tail, newest),
            4,
        )
    }

    /// The same of one that adds to what a reading on this copy gave.
    #[track_caller]
    pub fn added(&self, copy: u32) -> Host {
        let (reading, _, refused) = self.with_header(copy).read();
        assert_eq!(refused, 0);
        Host::of(Recording::open_at_end(&reading, 1, 4, 0), 4)
    }

    fn with_header(&self, copy: u32) -> Cartridge {
        Cartridge {
            header: self.copies[&copy].clone(),
            ..self.cartridge.clone()
        }
    }

    /// What a reading on this copy comes to.
    pub fn read_on(&self, copy: u32) -> CameTo {
        let (reading, delivered, refused) = self.with_header(copy).read();
        let end = reading.end().map(|(_, start)| start.at.0);
        (delivered, end.ok_or(refused))
    }

    /// Readings on all copies come to this, and there is one.
    #[track_caller]
    pub fn all_read(&self, delivered: &[u8], end: Result<u32, u8>) {
        assert!(!self.copies.is_empty());
        for copy in self.copies.keys() {
            assert_eq!(self.read_on(*copy), (delivered.to_vec(), end), "{copy}");
        }
    }

    /// The update counts of the copies, by address.
    pub fn counts(&self) -> Vec<Option<u32>> {
        let addresses = HEADER_GROUPS.iter().flatten();
        let copies = addresses.map(|address| self.copies.get(&address.0));
        copies
            .map(|copy| copy.map(|copy| update_count(copy)))
            .collect()
    }

    pub fn keep(&mut self, at: u32, frame: &[u8], reads: Reads) {
        let frames = if Address(at).is_header_copy() {
            &mut self.copies
        } else {
            &mut self.cartridge.frames
        };
        match reads {
            Reads::Before => {}
            Reads::New => {
                frames.insert(at, frame.to_vec());
            }
            Reads::Nothing => {
                frames.remove(&at);
            }
        }
    }

    /// Brings good replies up to the next WRITE, and gives its address.
    fn next_write(&self, host: &mut Host) -> Result<u32, Answer> {
        loop {
            match host.fetch() {
                Answer::Command(Command::Write(Address(at))) => return Ok(at),
                Answer::Command(_) => host.bring(good()),
                answer => return Err(answer),
            }
        }
    }

    /// Writes frames until there is no command.
    pub fn go_on(&mut self, host: &mut Host) -> Answer {
        loop {
            match self.next_write(host) {
                Ok(at) => {
                    self.keep(at, &host.frame, Reads::New);
                    host.bring(good());
                }
                Err(answer) => return answer,
            }
        }
    }

    /// Writes so many frames.
    #[track_caller]
    pub fn write(&mut self, host: &mut Host, frames: usize) {
        for _ in 0..frames {
            self.cut(host, Reads::New);
            host.bring(good());
        }
    }

    /// Cuts the power while the next frame is written, and gives its address.
    #[track_caller]
    pub fn cut(&mut self, host: &mut Host, reads: Reads) -> u32 {
        let at = self.next_write(host).expect("a WRITE");
        self.keep(at, &host.frame, reads);
        at
    }

    /// Fails the next frame, and gives its address; the error is not told yet.
    #[track_caller]
    pub fn fail_untold(&mut self, host: &mut Host, reads: Reads) -> u32 {
        let at = self.cut(host, reads);
        host.bring(good());
        at
    }

    /// Fails the next frame.
    #[track_caller]
    pub fn fail(&mut self, host: &mut Host, reads: Reads, skip: u32) {
        let at = self.fail_untold(host, reads);
        host.step(READ_POSITION, error(at, skip));
    }

    /// Fails the next frames, which read as before, up to this address.
    #[track_caller]
    pub fn fail_up_to(&mut self, host: &mut Host, address: u32) {
        let mut next = 10;
        while next < address {
            let skip = (address - next).min(255);
            self.fail(host, Reads::Before, skip);
            next += skip;
        }
    }
}

fn update_count(copy: &[u8]) -> u32 {
    number_at(copy, BLOCK_LENGTH + 12)
}
