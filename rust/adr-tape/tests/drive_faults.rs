//! A drive that breaks its conduct is found: the recording is refused, or
//! what is read back is not what was recorded.

mod simulated;

use std::convert::Infallible;

use adr_model::drive;
use adr_model::hostility::Hostility;
use adr_model::random::Random;
use adr_model::tape::Tape;
use adr_tape::{
    newest_header, record_all, Address, Drive, Geometry, Reply, Sense, Setup, FRAME_LENGTH,
};
use simulated::{elements, read_back, sent, Simulated};

const GEOMETRY: Geometry = Geometry::beginning(3_020, 1);
/// The seeds within which each fault must be found.
const SEEDS: u64 = 40;

#[derive(Clone, Copy, Debug, PartialEq, Eq)]
enum Planted {
    Nothing,
    /// READ POSITION tells one frame too few.
    TooFewBuffered,
    /// A WRITE is answered good and not taken.
    WriteLost,
    /// A byte of a block is altered on tape.
    ByteAltered,
    /// A write error names the address behind the failed one.
    ErrorElsewhere,
    /// A READ brings the frame of the READ before.
    ReadTwice,
    /// 08/00/05 comes though frames follow.
    BlankTooEarly,
}

const PLANTED: [Planted; 6] = [
    Planted::TooFewBuffered,
    Planted::WriteLost,
    Planted::ByteAltered,
    Planted::ErrorElsewhere,
    Planted::ReadTwice,
    Planted::BlankTooEarly,
];

struct Faulty {
    drive: Simulated,
    planted: Planted,
    random: Random,
    before: Vec<u8>,
}

impl Faulty {
    fn now(&mut self, planted: Planted) -> bool {
        self.planted == planted && self.random.chance(100)
    }
}

impl Drive for Faulty {
    type Error = Infallible;

    fn locate(&mut self, address: Address) -> Result<Reply, Infallible> {
        self.drive.locate(address)
    }

    fn write(&mut self, address: Address, frame: &[u8]) -> Result<Reply, Infallible> {
        if self.now(Planted::WriteLost) {
            return Ok(Reply::good());
        }
        let mut frame = frame.to_vec();
        if self.now(Planted::ByteAltered) {
            frame[1_000] ^= 1;
        }
        let mut reply = self.drive.write(address, &frame)?;
        if self.planted == Planted::ErrorElsewhere && reply.sense == Sense::WRITE_ERROR {
            reply.position.0 += 1;
        }
        Ok(reply)
    }

    fn read(&mut self, address: Address, frame: &mut [u8]) -> Result<Reply, Infallible> {
        if self.now(Planted::BlankTooEarly) {
            return Ok(Reply::sense(Sense::BLANK));
        }
        let reply = self.drive.read(address, frame)?;
        if self.now(Planted::ReadTwice) {
            frame.copy_from_slice(&self.before);
        }
        self.before.copy_from_slice(frame);
        Ok(reply)
    }

    fn read_position(&mut self) -> Result<Reply, Infallible> {
        let mut reply = self.drive.read_position()?;
        match (self.planted, reply.sense) {
            (Planted::TooFewBuffered, Sense::GOOD) => {
                reply.buffered = reply.buffered.saturating_sub(1);
            }
            (Planted::ErrorElsewhere, Sense::WRITE_ERROR) => reply.position.0 += 1,
            _ => {}
        }
        Ok(reply)
    }
}

/// Whether what was recorded comes back.
fn comes_back(seed: u64, planted: Planted) -> bool {
    let hostility = Hostility {
        progress: 500,
        failure: 40,
        skip: 4,
        ..Hostility::NONE
    };
    let mut drive = Faulty {
        drive: Simulated(drive::Drive::new(Tape::default(), 6, hostility, seed)),
        planted,
        random: Random::new(seed),
        before: vec![0; FRAME_LENGTH],
    };
    let elements = elements(&mut Random::new(seed ^ 0xE1E));
    let setup = Setup {
        depth: 6,
        blocks: 8,
        tail: 0,
    };
    let recorded = record_all(&mut drive, GEOMETRY, setup, None, sent(&elements), |_| {});
    let header = newest_header(&mut drive, GEOMETRY).ok().flatten();
    let (Ok(_), Some(header)) = (recorded, header) else {
        return false;
    };
    let read = read_back(&mut drive, GEOMETRY, &header);
    read.is_ok_and(|(delivered, _)| delivered == elements)
}

#[test]
fn planted_faults_are_found() {
    for planted in PLANTED {
        let found = (0..SEEDS).find(|seed| !comes_back(*seed, planted));
        assert!(found.is_some(), "{planted:?} was not found");
        println!("{planted:?}: seed {found:?}");
    }
    assert!((0..SEEDS).all(|seed| comes_back(seed, Planted::Nothing)));
}
