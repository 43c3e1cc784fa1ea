//! What stands at each address.

use std::collections::BTreeMap;

use adr_tape::Refusal;

use super::counts::Counts;
use crate::cut_session::CutSession;

/// What stands at an address, the worst first.
#[derive(Clone, Copy, Debug, PartialEq, Eq, PartialOrd, Ord)]
pub enum Spot {
    /// A frame whose checksum does not hold.
    Damaged,
    /// The last write failed, and nothing is read from here.
    Bad,
    /// The end of data.
    End,
    /// A filemark.
    Filemark,
    /// A copy of the newest header.
    Header,
    /// A block.
    Block,
    /// A frame that is passed over: of an earlier recording, or sent again.
    Stale,
    /// A defect map, never written.
    DefectMap,
    /// Nothing reads here.
    Unused,
}

/// Every kind of spot, in the order above.
pub const KINDS: [Spot; 9] = [
    Spot::Damaged,
    Spot::Bad,
    Spot::End,
    Spot::Filemark,
    Spot::Header,
    Spot::Block,
    Spot::Stale,
    Spot::DefectMap,
    Spot::Unused,
];

/// How a reading of the cartridge ends.
#[derive(Clone, Copy, Debug, PartialEq, Eq)]
pub enum Reading {
    /// At the end of data.
    Whole,
    /// There, behind an element that was given up when the tape was full.
    GivenUp,
    /// Before it starts, for nothing was recorded.
    Empty,
    /// Before it starts, for there are frames but no header.
    NoHeader,
    /// Where the last session stops that was not closed.
    Cut(CutSession),
    /// Before the end of data.
    Stopped(Refusal),
}

/// A cartridge, spot by spot.
#[derive(Debug)]
pub struct Spots {
    /// What it is called.
    pub title: String,
    /// The highest address.
    pub last: u32,
    /// What is known; elsewhere are defect maps and unused addresses.
    pub known: BTreeMap<u32, Spot>,
    /// How a reading ends.
    pub reading: Reading,
}

impl Spots {
    /// The addresses of a kind, as far as they are known.
    pub fn addresses(&self, kind: Spot) -> impl Iterator<Item = u32> + '_ {
        let of_kind = self.known.iter().filter(move |(_, spot)| **spot == kind);
        of_kind.map(|(address, _)| *address)
    }

    /// What stands at the addresses from `start` to before `stop`.
    pub fn counts(&self, start: u64, stop: u64) -> Counts {
        let [low, high] = [start, stop].map(|at| u32::try_from(at).unwrap_or(u32::MAX));
        let known = self.known.range(low..high).map(|(_, spot)| *spot);
        let mut counts: Counts = known.collect();
        let within = |address: &u32| (low..high).contains(address);
        let unknown = |address: &u32| !self.known.contains_key(address);
        let defect_maps = defect_map_addresses().filter(within).filter(unknown);
        defect_maps.for_each(|_| counts.add(Spot::DefectMap, 1));
        let unused = stop.saturating_sub(start).saturating_sub(counts.all());
        counts.add(Spot::Unused, unused);
        counts
    }

    /// What stands on the whole cartridge.
    pub fn all_counts(&self) -> Counts {
        self.counts(0, u64::from(self.last) + 1)
    }
}

/// The addresses of the two defect maps.
pub fn defect_map_addresses() -> impl Iterator<Item = u32> {
    (0..5).chain(2_995..3_000)
}
