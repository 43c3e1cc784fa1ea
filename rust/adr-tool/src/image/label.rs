//! The label of a cell: which frame it holds, for when no index leads to it.
//!
//! It stands behind the frame, where a cell has room. An index is never
//! written from labels, and readers that have an index do without them.

use adr_tape::FRAME_LENGTH;

use super::layout::{bytes, number, put};
use crate::checksum::checksum;

const MAGIC: [u8; 8] = *b"ADRLABEL";
const ADDRESS: usize = 8;
const GENERATION: usize = 16;
const FRAME_SUM: usize = 24;
const LABEL_SUM: usize = 32;
const LENGTH: usize = 40;

/// What a cell tells of its frame.
#[derive(Clone, Copy, Debug, PartialEq, Eq)]
pub struct Label {
    /// The frame's address.
    pub address: u32,
    /// The generation of the content that it was written for.
    pub generation: u64,
    /// The checksum of the frame.
    pub sum: u64,
}

impl Label {
    /// Puts this label into a cell.
    pub fn put(&self, cell: &mut [u8]) {
        let mut label = [0; LENGTH];
        put(&mut label, 0, &MAGIC);
        put(&mut label, ADDRESS, &self.address.to_be_bytes());
        put(&mut label, GENERATION, &self.generation.to_be_bytes());
        put(&mut label, FRAME_SUM, &self.sum.to_be_bytes());
        let sum = checksum(label.split_at(LABEL_SUM).0);
        put(&mut label, LABEL_SUM, &sum.to_be_bytes());
        put(cell, FRAME_LENGTH, &label);
    }

    /// The label of a cell, none if it has none or a damaged one.
    pub fn read(cell: &[u8]) -> Option<Label> {
        let label: &[u8; LENGTH] = cell.get(FRAME_LENGTH..)?.first_chunk()?;
        let sum = checksum(label.split_at(LABEL_SUM).0);
        let whole = label.starts_with(&MAGIC) && sum == number(label, LABEL_SUM);
        whole.then(|| Label {
            address: u32::from_be_bytes(bytes(label, ADDRESS)),
            generation: number(label, GENERATION),
            sum: number(label, FRAME_SUM),
        })
    }
}

#[cfg(test)]
mod tests {
    use super::super::layout::CELL;
    use super::*;

    #[test]
    fn label_and_back() {
        let label = Label {
            address: 2_990,
            generation: u64::MAX,
            sum: 7,
        };
        let mut cell = vec![0; CELL];
        assert_eq!(Label::read(&cell), None);
        label.put(&mut cell);
        assert_eq!(Label::read(&cell), Some(label));
        assert!(cell.iter().take(FRAME_LENGTH).all(|byte| *byte == 0));
        for at in FRAME_LENGTH..FRAME_LENGTH + LENGTH {
            let mut damaged = cell.clone();
            damaged[at] ^= 4;
            assert_eq!(Label::read(&damaged), None, "byte {at}");
        }
        assert_eq!(Label::read(&cell[..FRAME_LENGTH + LENGTH - 1]), None);
    }
}
