//! The index: which cell holds the frame of an address.

use std::collections::BTreeMap;

use super::layout::{bytes, number, put, CELL};
use crate::checksum::Checksum;

/// Bytes of an index cell before its entries: the next index cell.
const LINK: usize = 8;
/// Bytes of an entry.
const ENTRY: usize = 24;
/// Entries in one cell.
const PER_CELL: usize = (CELL - LINK) / ENTRY;

/// Marks an entry whose address reads as its frame.
const READS: u32 = 1;
/// Marks an entry at whose address the last write failed.
const FAILED: u32 = 2;

/// Where a frame is kept.
#[derive(Clone, Copy, Debug, PartialEq, Eq)]
pub struct Place {
    /// The cell.
    pub cell: u64,
    /// The checksum of the frame.
    pub sum: u64,
}

/// What is known of an address.
#[derive(Clone, Copy, Debug, Default, PartialEq, Eq)]
pub struct Entry {
    /// Its frame, if it reads.
    pub place: Option<Place>,
    /// Whether the last write to it failed.
    pub failed: bool,
}

/// What is known of each address; nothing reads at one that is not named.
pub type Index = BTreeMap<u32, Entry>;

/// The cells that frames are kept in.
pub fn frame_cells(index: &Index) -> impl Iterator<Item = u64> + '_ {
    let places = index.values().filter_map(|entry| entry.place);
    places.map(|place| place.cell)
}

/// The cells that this many entries take.
pub fn cells_for(entries: u64) -> u64 {
    entries.div_ceil(u64::try_from(PER_CELL).unwrap_or(u64::MAX))
}

/// The contents of the index cells, for the cells with these numbers, and
/// their checksum.
pub fn written(index: &Index, cells: &[u64]) -> (Vec<Box<[u8]>>, u64) {
    let entries: Vec<(&u32, &Entry)> = index.iter().collect();
    let mut sum = Checksum::new();
    let mut contents = Vec::new();
    for (turn, part) in entries.chunks(PER_CELL).enumerate() {
        let mut content = vec![0; CELL].into_boxed_slice();
        let next = cells.get(turn + 1).copied().unwrap_or(0);
        put(&mut content, 0, &next.to_be_bytes());
        for (turn, (address, entry)) in part.iter().enumerate() {
            put(
                &mut content,
                LINK + turn * ENTRY,
                &of_entry(**address, entry),
            );
        }
        sum.add(&content);
        contents.push(content);
    }
    (contents, sum.value())
}

fn of_entry(address: u32, entry: &Entry) -> [u8; ENTRY] {
    let mut content = [0; ENTRY];
    let mut marks = 0;
    if entry.failed {
        marks |= FAILED;
    }
    if let Some(place) = entry.place {
        marks |= READS;
        put(&mut content, 8, &place.cell.to_be_bytes());
        put(&mut content, 16, &place.sum.to_be_bytes());
    }
    put(&mut content, 0, &address.to_be_bytes());
    put(&mut content, 4, &marks.to_be_bytes());
    content
}

/// An index read cell by cell.
#[derive(Debug)]
pub struct Reading {
    index: Index,
    missing: u64,
    sum: Checksum,
}

impl Reading {
    /// An index of so many entries.
    pub fn new(entries: u64) -> Reading {
        Reading {
            index: Index::new(),
            missing: entries,
            sum: Checksum::new(),
        }
    }

    /// Takes in a cell and gives the number of the next one.
    pub fn take(&mut self, content: &[u8]) -> u64 {
        self.sum.add(content);
        let here = usize::try_from(self.missing).unwrap_or(usize::MAX);
        let entries = content.get(LINK..).unwrap_or(&[]);
        for entry in entries.chunks_exact(ENTRY).take(here.min(PER_CELL)) {
            let marks = u32::from_be_bytes(bytes(entry, 4));
            let place = Place {
                cell: number(entry, 8),
                sum: number(entry, 16),
            };
            let known = Entry {
                place: (marks & READS != 0).then_some(place),
                failed: marks & FAILED != 0,
            };
            self.index
                .insert(u32::from_be_bytes(bytes(entry, 0)), known);
            self.missing -= 1;
        }
        number(content, 0)
    }

    /// The index, if its checksum is this one.
    pub fn finish(self, sum: u64) -> Option<Index> {
        (self.sum.value() == sum).then_some(self.index)
    }
}

#[cfg(test)]
mod tests {
    use super::*;

    #[test]
    fn written_and_read() {
        for count in [0, 1, 1_534, 1_535, 1_536, 5_000u32] {
            let mut index = Index::new();
            for number in 0..count {
                let place = Place {
                    cell: u64::from(number) * 3,
                    sum: u64::MAX - u64::from(number),
                };
                let entry = Entry {
                    place: (number % 5 > 0).then_some(place),
                    failed: number % 7 == 0,
                };
                index.insert(number * 2, entry);
            }
            let cells: Vec<u64> = (0..cells_for(u64::from(count)))
                .map(|n| n * 10 + 7)
                .collect();
            let (contents, sum) = written(&index, &cells);
            assert_eq!(contents.len(), cells.len());
            let mut reading = Reading::new(u64::from(count));
            for (turn, content) in contents.iter().enumerate() {
                let next = reading.take(content);
                assert_eq!(next, cells.get(turn + 1).copied().unwrap_or(0));
            }
            assert_eq!(reading.missing, 0);
            assert_eq!(reading.finish(sum), Some(index));
        }
    }
}
