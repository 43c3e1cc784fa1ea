//! How much a cartridge holds, and how much of that is free.

use std::fmt;
use std::ops::Range;

use adr_tape::{Address, Geometry, Refusal};

use crate::size::{blocks_for, bytes_in};
use crate::text::amount;

/// The first user frame.
const FIRST: u64 = 10;
/// The addresses between the user frames.
const GAP: Range<u64> = 2_990..3_000;
/// The frame that tells the end of data.
const END_OF_DATA: u32 = 1;
/// A job's first block, its last block and its filemark.
const AROUND_DATA: u64 = 3;

/// The frames that a job of so many bytes takes.
pub fn frames_of_job(length: u64) -> u64 {
    blocks_for(length).saturating_add(AROUND_DATA)
}

/// The frames of a cartridge that jobs may take. Bad spots make them fewer.
#[derive(Clone, Copy, Debug, PartialEq, Eq)]
pub struct Room {
    /// All of them.
    frames: u64,
    /// Those before the end of data.
    used: u64,
    /// Whether a header names no end of data: then nothing can be added.
    unclosed: bool,
}

impl Room {
    /// The room of a cartridge whose data end at this address, if it has any,
    /// for a recording that keeps so many frames for the end of data.
    pub fn new(geometry: Geometry, end: Option<Address>, tail: u32) -> Result<Room, Refusal> {
        let behind_last = u64::from(geometry.last()?.0) + 1;
        let unclosed = end == Some(Address(0));
        let end = end.map_or(0, |end| u64::from(end.0));
        // The highest address is a user frame: the end of data has room there.
        let tail = u64::from(tail.max(END_OF_DATA));
        let used = user_frames_below(end);
        let frames = user_frames_below(behind_last.saturating_sub(tail));
        // A recording that kept less may have gone further.
        Ok(Room {
            frames: frames.max(used),
            used,
            unclosed,
        })
    }

    /// Whether nothing stands before the end of data.
    pub fn is_empty(&self) -> bool {
        self.used == 0
    }

    /// The frames behind the end of data.
    pub fn free(&self) -> u64 {
        self.frames.saturating_sub(self.used)
    }
}

impl fmt::Display for Room {
    fn fmt(&self, formatter: &mut fmt::Formatter<'_>) -> fmt::Result {
        let capacity = amount(bytes_in(self.frames));
        if self.unclosed {
            return write!(formatter, "capacity at most {capacity} for a new recording");
        }
        write!(
            formatter,
            "capacity at most {capacity}: {} used, at most {} free",
            amount(bytes_in(self.used)),
            amount(bytes_in(self.free())),
        )
    }
}

fn user_frames_below(address: u64) -> u64 {
    let in_gap = address.clamp(GAP.start, GAP.end) - GAP.start;
    address.saturating_sub(FIRST + in_gap)
}

#[cfg(test)]
mod tests {
    use super::*;

    #[test]
    fn frames() {
        for (below, frames) in [
            (0, 0),
            (10, 0),
            (11, 1),
            (2_990, 2_980),
            (2_995, 2_980),
            (3_000, 2_980),
            (3_001, 2_981),
        ] {
            assert_eq!(user_frames_below(below), frames, "below {below}");
        }
        let geometry = Geometry::beginning(3_001, 1);
        for (end, free) in [(None, 2_980), (Some(10), 2_980), (Some(3_000), 0)] {
            let room = Room::new(geometry, end.map(Address), 0).expect("a cartridge");
            assert_eq!((room.free(), room.is_empty()), (free, free > 0));
        }
        let free = |tail| Room::new(geometry, None, tail).map(|room| room.free());
        // The addresses up to 2,999 that a tail takes first are none of theirs.
        for (tail, frames) in [(1, 2_980), (11, 2_980), (12, 2_979), (255, 2_736)] {
            assert_eq!(free(tail), Ok(frames), "a tail of {tail}");
        }
        let longer = Geometry::beginning(3_020, 1);
        let used = Room::new(longer, Some(Address(3_015)), 8).expect("a cartridge");
        assert_eq!((used.free(), used.frames, used.used), (0, 2_995, 2_995));
        for (length, frames) in [(0, 3), (1, 4), (32_768, 4), (32_769, 5)] {
            assert_eq!(frames_of_job(length), frames, "{length} bytes");
        }
    }
}
