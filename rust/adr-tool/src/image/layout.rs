//! The bytes of an image file.
//!
//! | Bytes | Content |
//! |---|---|
//! | 0 to 4,095 | head: magic, version, geometry, checksum; written once |
//! | 4,096 to 8,191, 8,192 to 12,287 | two roots |
//! | from 12,288 | cells of 36,864 bytes: a frame and its label, or a part of the index |
//!
//! A root names a generation of the content: where its index starts, how many
//! entries it has and their checksum. The index tells for each address the
//! cell that holds its frame, and the frame's checksum. Numbers are
//! big-endian, as on tape. Every part starts at a multiple of 4,096 bytes, so
//! no sector holds bytes of two parts.

use std::fs::File;
use std::os::unix::fs::FileExt;

use adr_tape::{Geometry, LoadPoint};

use crate::checksum::checksum;

/// Bytes of a head or a root.
pub const PAGE: usize = 4_096;
/// Bytes of a cell.
pub const CELL: usize = 9 * PAGE;
/// Where the first cell starts.
const FIRST_CELL: u64 = 3 * 4_096;
/// Where the checksum of a page stands.
const PAGE_SUM: usize = PAGE - 8;

const IMAGE_MAGIC: [u8; 8] = *b"ADRIMAGE";
const ROOT_MAGIC: [u8; 8] = *b"ADR-ROOT";
/// The version of this layout.
pub const VERSION: u32 = 1;

/// Where a root stands.
pub const ROOTS: [u64; 2] = [4_096, 8_192];

/// Where a cell stands, none if no file is that long.
pub fn cell_offset(cell: u64) -> Option<u64> {
    let length = u64::try_from(CELL).ok()?;
    cell.checked_mul(length)?.checked_add(FIRST_CELL)
}

/// The cells that a file of this length has, the last perhaps in part.
pub fn cells_within(length: u64) -> u64 {
    let length = length.saturating_sub(FIRST_CELL);
    length.div_ceil(u64::try_from(CELL).unwrap_or(u64::MAX))
}

/// The bytes at `at`, or zeros where there are none.
pub fn bytes<const N: usize>(from: &[u8], at: usize) -> [u8; N] {
    let part = from.get(at..).and_then(|rest| rest.first_chunk::<N>());
    part.copied().unwrap_or([0; N])
}

/// The 64-bit number at `at`.
pub fn number(from: &[u8], at: usize) -> u64 {
    u64::from_be_bytes(bytes(from, at))
}

/// Puts bytes at `at`, if there is room.
pub fn put(into: &mut [u8], at: usize, part: &[u8]) {
    let place = into.get_mut(at..);
    if let Some(place) = place.and_then(|rest| rest.get_mut(..part.len())) {
        place.copy_from_slice(part);
    }
}

fn seal(page: &mut [u8; PAGE]) {
    let sum = checksum(page.split_at(PAGE_SUM).0);
    put(page, PAGE_SUM, &sum.to_be_bytes());
}

fn is_sealed(page: &[u8; PAGE]) -> bool {
    checksum(page.split_at(PAGE_SUM).0) == number(page, PAGE_SUM)
}

/// Why an image's first page is no head.
#[derive(Clone, Copy, Debug, PartialEq, Eq)]
pub enum WrongHead {
    /// An image of a later layout.
    Version(u32),
    /// An image's head, but damaged.
    Damaged,
}

/// Whether a file is an image, whole or not: one of its first pages is
/// enough.
pub fn is_image_file(file: &File) -> bool {
    let starts = |magic: [u8; 8], offset: u64| {
        let mut start = [0; 8];
        file.read_exact_at(&mut start, offset).is_ok() && start == magic
    };
    let root = |offset: &u64| starts(ROOT_MAGIC, *offset);
    starts(IMAGE_MAGIC, 0) || ROOTS.iter().any(root)
}

/// The head of an image.
pub fn head_page(geometry: Geometry) -> [u8; PAGE] {
    let mut page = [0; PAGE];
    let load: u32 = match geometry.load {
        LoadPoint::Beginning => 0,
        LoadPoint::Centre => 1,
    };
    put(&mut page, 0, &IMAGE_MAGIC);
    put(&mut page, 8, &VERSION.to_be_bytes());
    put(&mut page, 12, &geometry.segtrk.to_be_bytes());
    put(&mut page, 16, &geometry.trks.to_be_bytes());
    put(&mut page, 20, &load.to_be_bytes());
    seal(&mut page);
    page
}

/// The geometry that a head tells.
pub fn read_head(page: &[u8; PAGE]) -> Result<Geometry, WrongHead> {
    let word = |at| u32::from_be_bytes(bytes(page, at));
    if !page.starts_with(&IMAGE_MAGIC) || !is_sealed(page) {
        return Err(WrongHead::Damaged);
    }
    if word(8) != VERSION {
        return Err(WrongHead::Version(word(8)));
    }
    let load = match word(20) {
        0 => LoadPoint::Beginning,
        1 => LoadPoint::Centre,
        _ => return Err(WrongHead::Damaged),
    };
    Ok(Geometry {
        segtrk: word(12),
        trks: word(16),
        load,
    })
}

/// A generation of an image's content.
#[derive(Clone, Copy, Debug, PartialEq, Eq)]
pub struct Root {
    /// Counts the generations; the newer root has the higher one.
    pub generation: u64,
    /// The cells in use lie below this one.
    pub cells: u64,
    /// The first cell of the index, if it has entries.
    pub index: u64,
    /// The entries of the index.
    pub entries: u64,
    /// The checksum of the index.
    pub sum: u64,
}

impl Root {
    /// The bytes of this root.
    pub fn page(&self) -> [u8; PAGE] {
        let mut page = [0; PAGE];
        put(&mut page, 0, &ROOT_MAGIC);
        put(&mut page, 8, &self.generation.to_be_bytes());
        put(&mut page, 16, &self.cells.to_be_bytes());
        put(&mut page, 24, &self.index.to_be_bytes());
        put(&mut page, 32, &self.entries.to_be_bytes());
        put(&mut page, 40, &self.sum.to_be_bytes());
        seal(&mut page);
        page
    }

    /// Whether another root leads to the same content.
    pub fn leads_where(&self, other: &Root) -> bool {
        let same_generation = Root {
            generation: self.generation,
            ..*other
        };
        *self == same_generation
    }

    /// The root with these bytes, none if they are damaged.
    pub fn read(page: &[u8; PAGE]) -> Option<Root> {
        let whole = page.starts_with(&ROOT_MAGIC) && is_sealed(page);
        whole.then(|| Root {
            generation: number(page, 8),
            cells: number(page, 16),
            index: number(page, 24),
            entries: number(page, 32),
            sum: number(page, 40),
        })
    }
}

#[cfg(test)]
mod tests {
    use super::*;

    #[test]
    fn head_and_back() {
        for geometry in [
            Geometry {
                segtrk: 19_239,
                trks: 24,
                load: LoadPoint::Beginning,
            },
            Geometry {
                segtrk: 65_535,
                trks: 1,
                load: LoadPoint::Centre,
            },
        ] {
            let page = head_page(geometry);
            assert_eq!(read_head(&page), Ok(geometry));
            for at in 0..PAGE {
                let mut damaged = page;
                damaged[at] ^= 0x10;
                assert!(read_head(&damaged).is_err(), "byte {at}");
            }
        }
        assert_eq!(read_head(&[0; PAGE]), Err(WrongHead::Damaged));
    }

    #[test]
    fn root_and_back() {
        let root = Root {
            generation: 1,
            cells: 2,
            index: 3,
            entries: 4,
            sum: 5,
        };
        let page = root.page();
        assert_eq!(Root::read(&page), Some(root));
        for at in 0..PAGE {
            let mut damaged = page;
            damaged[at] ^= 1;
            assert_eq!(Root::read(&damaged), None);
        }
    }

    #[test]
    fn places_of_cells() {
        assert_eq!(cell_offset(0), Some(12_288));
        assert_eq!(cell_offset(2), Some(12_288 + 2 * 36_864));
        assert_eq!(cell_offset(u64::MAX), None);
        let cells = [0, 12_288, 12_289, 49_152, 49_153].map(cells_within);
        assert_eq!(cells, [0, 0, 1, 1, 2]);
    }
}
