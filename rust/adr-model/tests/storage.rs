//! The drive over storage of another kind.

use adr_model::drive::{Deed, Drive};
use adr_model::geometry::FRAME_LENGTH;
use adr_model::hostility::Hostility;
use adr_model::tape::{Shared, Storage, Tape};
use adr_model::{Address, Command};

/// A tape that keeps what it is told.
#[derive(Default)]
struct Told {
    tape: Tape,
    stored: u64,
    failed: Vec<Address>,
}

impl Storage for Told {
    fn frame(&mut self, address: Address) -> Option<Shared> {
        self.tape.frame(address)
    }

    fn store(&mut self, address: Address, frame: Shared) {
        self.stored += 1;
        self.tape.store(address, frame);
    }

    fn spoil(&mut self, address: Address) {
        Storage::spoil(&mut self.tape, address);
    }

    fn failed(&mut self, address: Address) {
        self.failed.push(address);
    }

    fn is_blank(&self, from: Address, count: u32) -> bool {
        Storage::is_blank(&self.tape, from, count)
    }

    fn is_blank_from(&self, from: Address) -> bool {
        Storage::is_blank_from(&self.tape, from)
    }
}

/// Storage is told of every frame and every failure, and a drive over it
/// does what one over a tape does.
#[test]
fn told_of_everything() {
    let hostility = Hostility {
        failure: 200,
        reads_new: 300,
        reads_nothing: 500,
        skip: 5,
        ..Hostility::NONE
    };
    let mut failures = 0;
    for seed in 0..50 {
        let mut over_tape = Drive::new(Tape::default(), 4, hostility, seed);
        let mut over_told = Drive::new(Told::default(), 4, hostility, seed);
        for turn in 0..60u8 {
            let command = match turn % 15 {
                0 => Command::Locate(Address(u32::from(turn))),
                7 => Command::ReadPosition,
                _ => Command::Write(over_tape.next()),
            };
            let frame = [turn; FRAME_LENGTH];
            let reply = over_tape.record(command, &frame);
            assert_eq!(over_told.record(command, &frame), reply);
        }
        assert_eq!(over_told.log(), over_tape.log());
        let deeds = over_tape.log().deeds;
        let of = |deed: Deed| deeds[deed as usize];
        let failed = of(Deed::FailedAsNew) + of(Deed::FailedAsNothing) + of(Deed::FailedAsBefore);
        let written = over_tape.log().written.len() as u64;
        let told = over_told.eject();
        assert_eq!(told.tape, over_tape.eject());
        assert_eq!(told.failed.len() as u64, failed);
        let good = written - failed;
        assert_eq!(told.stored, good + of(Deed::FailedAsNew));
        failures += failed;
    }
    assert!(failures > 100, "{failures}");
}
