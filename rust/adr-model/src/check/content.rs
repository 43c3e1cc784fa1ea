//! What the accepted blocks hold.

use std::sync::OnceLock;

use crate::geometry::BLOCK_LENGTH;
use crate::random::Random;

/// An element of a recording; a block is named by a number.
#[derive(Clone, Copy, Debug, PartialEq, Eq)]
pub enum Element {
    /// A block of the content that belongs to this number.
    Block(u16),
    /// A filemark.
    Filemark,
}

/// The bytes of a block; 0 is a block of zeros, every other number has bytes
/// of its own.
#[must_use]
pub fn block(number: u16) -> &'static [u8] {
    static NOISE: OnceLock<Vec<u8>> = OnceLock::new();
    let noise = NOISE.get_or_init(|| {
        let mut random = Random::new(0xAD12);
        let mut bytes = vec![0; BLOCK_LENGTH];
        bytes.extend((0..65_535 + BLOCK_LENGTH).map(|_| random.byte()));
        bytes
    });
    let start = match usize::from(number) {
        0 => 0,
        number => BLOCK_LENGTH + number - 1,
    };
    noise.get(start..start + BLOCK_LENGTH).unwrap_or(&[])
}
