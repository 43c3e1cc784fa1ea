//! Blocks and frames in bytes.

use adr_tape::{BLOCK_LENGTH, FRAME_LENGTH};

const BLOCK: u64 = BLOCK_LENGTH as u64;
const FRAME: u64 = FRAME_LENGTH as u64;

/// The bytes of so many blocks.
pub fn bytes_in(blocks: u64) -> u64 {
    blocks.saturating_mul(BLOCK)
}

/// The bytes of so many frames.
pub fn bytes_in_frames(frames: u64) -> u64 {
    frames.saturating_mul(FRAME)
}

/// The blocks that so many bytes take.
pub fn blocks_for(bytes: u64) -> u64 {
    bytes.div_ceil(BLOCK)
}
