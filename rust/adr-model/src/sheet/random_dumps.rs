//! Random dumps, faulty ones among them.

use super::dumps::{dump_of, fields, AuxField};
use super::{SheetState, LAST_JOB};
use crate::frame::{Kind, HEADER_TYPE};
use crate::geometry::AUX_LENGTH;
use crate::random::Random;

/// Most random dumps have fewer elements than this, the others fewer than that.
const ELEMENTS: [u32; 2] = [12, 300];
/// Sheets that stand far on stand nearer than this to an edge.
const NEAR: u32 = 6;
/// The most bytes behind EOD.
const BEHIND: u32 = 1_100;

/// The dump of a seed.
#[must_use]
pub fn dump_of_seed(seed: u64) -> Vec<u8> {
    RandomDump::new(seed).from(0)
}

/// A sheet that stands far on, and the rest of its dump.
#[must_use]
pub fn far_on_of_seed(seed: u64) -> (SheetState, Vec<u8>) {
    let mut dump = RandomDump::new(seed);
    let state = dump.state();
    (state, dump.from(state.next))
}

struct RandomDump {
    seed: u64,
    random: Random,
}

impl RandomDump {
    fn new(seed: u64) -> RandomDump {
        RandomDump {
            seed,
            random: Random::new(seed ^ 0x5EE7),
        }
    }

    /// A state that a sheet can come to: each job before took an element.
    fn state(&mut self) -> SheetState {
        let near = self.random.below(NEAR);
        let job = self.one_of(&[1, near + 1, LAST_JOB - near, LAST_JOB, LAST_JOB + 1]);
        let edge: u64 = self.one_of(&[1 << 16, 1 << 31, 1 << 32, 1 << 32]);
        let next = edge - u64::from(self.random.below(NEAR));
        let any = self.random.word();
        let blocks = self.one_of(&[0, 1, near, any]);
        let fewest = u64::from(job - 1);
        SheetState {
            job,
            first: next.saturating_sub(blocks.into()).max(fewest),
            next: next.max(fewest),
        }
    }

    /// A dump from this number on.
    fn from(&mut self, next: u64) -> Vec<u8> {
        let mut listed = fields(next, &self.kinds());
        if self.random.chance(500) {
            self.spoil_fields(&mut listed, next);
        }
        let mut dump = dump_of(&listed, self.seed);
        if self.random.chance(300) {
            self.spoil_bytes(&mut dump);
        }
        dump
    }

    /// Blocks and filemarks, and EOD.
    fn kinds(&mut self) -> String {
        let [few, many] = ELEMENTS;
        let most = if self.random.chance(50) { many } else { few };
        let filemarks = self.one_of(&[50, 300, 500, 800]);
        let count = self.random.below(most);
        let element = |random: &mut Random| match random.chance(filemarks) {
            true => '/',
            false => 'b',
        };
        let mut kinds: String = (0..count).map(|_| element(&mut self.random)).collect();
        kinds.push(if self.random.chance(300) { '<' } else { 'e' });
        kinds
    }

    /// Alters a field, leaves one out or puts one in.
    fn spoil_fields(&mut self, listed: &mut Vec<AuxField>, next: u64) {
        let eod = listed.len() - 1;
        let at = self.index(listed.len());
        match self.random.below(8) {
            0 => listed[at].number = self.other_number(listed[at].number),
            1 => listed[at].type_bytes = self.other_type(listed[at].type_bytes),
            2 => drop(listed.pop()),
            3 => listed[eod].number = self.other_number(listed[eod].number),
            4 => {
                let eod = AuxField {
                    type_bytes: Kind::Eod.type_bytes(),
                    number: listed[at].number.wrapping_sub(self.random.below(3)),
                };
                listed.insert(at, eod);
            }
            5 => listed.insert(at, listed[at]),
            6 => drop(listed.remove(at)),
            _ => {
                let behind = next + u64::try_from(eod).unwrap_or(0);
                listed.extend(fields(behind, &self.kinds()));
            }
        }
    }

    fn other_number(&mut self, number: u32) -> u32 {
        let any = self.random.word();
        self.one_of(&[
            number.wrapping_add(1),
            number.wrapping_sub(1),
            number.wrapping_sub(2),
            number.swap_bytes(),
            number ^ (1 << 16),
            number ^ (1 << 24),
            0,
            u32::MAX,
            any,
        ])
    }

    fn other_type(&mut self, [first, second]: [u8; 2]) -> [u8; 2] {
        let any = self.random.byte();
        self.one_of(&[
            [0, 0],
            [0x82, 0],
            HEADER_TYPE,
            [second, first],
            [first, 1],
            [first, any],
            [any, second],
        ])
    }

    /// Cuts a dump short, or puts bytes behind it.
    fn spoil_bytes(&mut self, dump: &mut Vec<u8>) {
        match self.random.below(3) {
            0 => dump.truncate(self.index(dump.len())),
            1 => {
                let cut = 1 + self.index(AUX_LENGTH);
                dump.truncate(dump.len().saturating_sub(cut));
            }
            _ => {
                let behind = self.random.between(1, BEHIND);
                dump.extend((0..behind).map(|_| self.random.byte()));
            }
        }
    }

    fn index(&mut self, length: usize) -> usize {
        let length = u32::try_from(length).unwrap_or(u32::MAX);
        usize::try_from(self.random.below(length)).unwrap_or(0)
    }

    fn one_of<T: Copy + Default>(&mut self, several: &[T]) -> T {
        self.random.one_of(several).copied().unwrap_or_default()
    }
}
