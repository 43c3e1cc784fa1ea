//! Recordings of one pass, each added at the end of the one before.

use super::case::{calls_of_length, tail, Call, Case, Setup};
use super::elsewhere::Elsewhere;
use super::layer::{Layer, Model};
use super::reading_back::{due_of, read};
use super::{
    drive_with, record_plainly, recorded_on, run_from, run_to_end, run_with, Before, Host, Left,
    Opening, Tally, Turns, PLAIN,
};
use crate::fault::Fault;
use crate::random::Random;

/// The most recordings of a chain.
const LONGEST: u32 = 5;

/// What tells the seed of another cartridge.
const OTHER: u64 = 0x07E4;

/// A cartridge that recordings are added to.
#[derive(Clone, Debug, PartialEq, Eq)]
pub struct Chain {
    /// The cartridge, the drive and the recordings. The first is one of its
    /// own, and so is each behind one that did not report done.
    pub case: Case,
    /// What each is opened with.
    pub setups: Vec<Setup>,
}

impl Chain {
    /// The chain of a seed.
    #[must_use]
    pub fn of_seed(seed: u64, fault: Fault) -> Chain {
        Chain::of_case(Case::of_seed(seed, fault))
    }

    /// The chain of a seed in which something may be kept for EOD: by all
    /// recordings alike, or not, or so that those that add find little room.
    #[must_use]
    pub fn with_tail(seed: u64, fault: Fault) -> Chain {
        let mut chain = Chain::of_case(Case::with_tail(seed, fault));
        let mut random = Random::new(seed ^ 0x00C4_7A11);
        let geometry = chain.case.geometry;
        for setup in chain.setups.iter_mut().skip(1) {
            match random.below(4) {
                0 => {}
                1 => setup.tail = tail(&mut random, geometry),
                _ => setup.room = Some(random.below(3)),
            }
        }
        chain
    }

    /// The same with the power cut at every frame.
    #[must_use]
    pub fn with_cuts(self) -> Chain {
        Chain {
            case: self.case.with_cuts(),
            ..self
        }
    }

    fn of_case(mut case: Case) -> Chain {
        let mut random = Random::new(case.seed ^ 0x00C4_A100);
        let recordings = random.between(2, LONGEST);
        case.recordings = (0..recordings).map(|_| calls(&mut random)).collect();
        // Most chains are long only where the drive keeps to what is listed.
        if random.chance(700) {
            case.hostility.unlisted = 0;
        }
        // The cartridge is read on every newest header: long readings are rare.
        case.hostility.busy = case.hostility.busy.min(300);
        if random.chance(800) {
            case.hostility.blank = case.hostility.blank.max(300);
        }
        let windows = case.recordings.iter().map(|_| match random.below(10) {
            0 => random.between(9, 64),
            _ => random.between(1, 8),
        });
        let tail = case.setup.tail;
        let setups = windows.map(|window_blocks| Setup::of(window_blocks, tail));
        let setups = setups.collect();
        Chain { case, setups }
    }
}

fn calls(random: &mut Random) -> Vec<Call> {
    let length = match random.below(10) {
        0 => 0,
        1..=8 => random.below(60),
        _ => random.between(60, 250),
    };
    calls_of_length(random, length)
}

/// Runs a chain. Each recording is opened at the end of a reading on a newest
/// header; after each that reported done, the cartridge is read on every
/// newest header, and all that was accepted since the first must be delivered.
/// Every answer, frame and buffer is looked at.
///
/// # Errors
/// What was found wrong.
pub fn run_chain_on<L: Layer>(chain: &Chain) -> Result<Tally, String> {
    run_with(&chain.case, Turns::Added(&chain.setups), &Host::<L>::EXACT)
}

/// Runs a chain on the model.
///
/// # Errors
/// What was found wrong.
pub fn run_chain(chain: &Chain) -> Result<Tally, String> {
    run_chain_on::<Model>(chain)
}

/// Runs a chain as [`run_chain`] does, but looks at nothing but what the
/// demand speaks of.
///
/// # Errors
/// What was found wrong.
pub fn run_chain_demand_only(chain: &Chain) -> Result<Tally, String> {
    run_with(&chain.case, Turns::Added(&chain.setups), &PLAIN)
}

/// Runs a chain as [`run_chain_demand_only`] does, and looks at the frames sent
/// besides: which element each is, and what it names of filemarks.
///
/// # Errors
/// What was found wrong.
pub fn run_chain_demand_and_frames(chain: &Chain) -> Result<Tally, String> {
    let host = Host {
        record: record_plainly::<true>,
        ..PLAIN
    };
    run_with(&chain.case, Turns::Added(&chain.setups), &host)
}

/// Runs a chain as [`run_chain_demand_only`] does, and looks at what stands on
/// tape besides: where the end is, and what the frames name of filemarks.
///
/// # Errors
/// What was found wrong.
pub fn run_chain_demand_and_tape(chain: &Chain) -> Result<Tally, String> {
    let host = Host {
        closely: true,
        ..PLAIN
    };
    run_with(&chain.case, Turns::Added(&chain.setups), &host)
}

/// Runs a chain whose first recording is added to what another program closed.
/// What stands on tape besides what is delivered is not looked at.
///
/// # Errors
/// What was found wrong.
pub fn run_behind_others_on<L: Layer>(chain: &Chain) -> Result<Tally, String> {
    let (case, turns) = (&chain.case, Turns::Added(&chain.setups));
    let last = case.geometry.last().ok_or("a geometry without frames")?;
    let others = Elsewhere::of_seed(case.seed, last);
    let mut drive = drive_with(others.tape, case, case.seed);
    let due = due_of(&others.elements);
    let back = read::<L::Reading>(case, &others.newest, &mut drive, &due, case.seed)?;
    if back.end != Some(back.header.eod) || back.elements != others.elements {
        return Err("what others closed is not read as they recorded it".into());
    }
    let left = Left {
        tape: drive.eject(),
        end: Some(back),
    };
    let host = Host {
        closely: false,
        ..Host::<L>::EXACT
    };
    run_from(left, case, turns, &host).map(|ran| ran.tally)
}

/// Runs a chain, and then adds to another cartridge of the same geometry than
/// the one that was read. What that one then reads as is not promised, but
/// only header addresses and user frames may be written. Tells whether there
/// was an end to add at.
///
/// # Errors
/// What was found wrong.
pub fn run_astray_on<L: Layer>(chain: &Chain) -> Result<bool, String> {
    let (case, turns) = (&chain.case, Turns::Added(&chain.setups));
    let ran = run_to_end(case, turns, &Host::<L>::EXACT)?;
    let (Some(end), Some(last)) = (ran.end, case.geometry.last()) else {
        return Ok(false);
    };
    let other = Case {
        seed: case.seed ^ OTHER,
        ..case.clone()
    };
    let drive = drive_with(other.cartridge(last), &other, other.seed);
    let before = Before {
        case: &other,
        last,
        opening: Opening::AtEnd(end),
        astray: true,
        setup: case.setup,
        calls: case.recordings.first().map_or(&[], Vec::as_slice),
    };
    recorded_on::<L>(&before, drive).map(|_| true)
}
