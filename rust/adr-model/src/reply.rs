//! Replies of the drive and what their sense triples mean.

use crate::geometry::Address;

/// A sense triple: key, ASC and ASCQ.
#[derive(Clone, Copy, Debug, PartialEq, Eq, Hash)]
pub struct Sense {
    /// Sense key.
    pub key: u8,
    /// Additional sense code.
    pub asc: u8,
    /// Additional sense code qualifier.
    pub ascq: u8,
}

/// The furthest that a drive advises to skip.
pub const LARGEST_SKIP: u32 = 255;

/// A reply. Numbers that do not belong to its meaning are not looked at.
#[derive(Clone, Copy, Debug, PartialEq, Eq, Hash)]
pub struct Reply {
    /// What the drive says.
    pub sense: Sense,
    /// f, the frames still buffered: with good on READ POSITION.
    pub buffered: u32,
    /// p, the failed address: with a write error.
    pub position: Address,
    /// The skip, 0 to [`LARGEST_SKIP`]: with a write error.
    pub skip: u32,
}

impl Reply {
    /// A reply whose numbers are all 0.
    #[must_use]
    pub const fn of(sense: Sense) -> Reply {
        Reply {
            sense,
            buffered: 0,
            position: Address(0),
            skip: 0,
        }
    }

    /// Good, with the frames still buffered.
    #[must_use]
    pub const fn position(buffered: u32) -> Reply {
        Reply {
            buffered,
            ..Reply::of(GOOD)
        }
    }

    /// A write error at `position`.
    #[must_use]
    pub const fn write_error(position: Address, skip: u32) -> Reply {
        Reply {
            position,
            skip,
            ..Reply::of(WRITE_ERROR)
        }
    }
}

/// What a triple means.
#[derive(Clone, Copy, Debug, PartialEq, Eq, Hash)]
pub enum Meaning {
    /// The command was carried out.
    Good,
    /// The command was not taken; it comes again.
    Busy,
    /// A buffered frame could not be written.
    WriteError,
    /// The tape ends before this address.
    EarlyEnd,
    /// A frame was read after a correction.
    Recovered,
    /// One address could not be read.
    Unreadable,
    /// Nothing readable on the next 32 addresses.
    Blank,
    /// Nothing readable from here on.
    EndOfTape,
    /// Not in the table.
    Unlisted,
}

/// 00/00/00.
pub const GOOD: Sense = sense(0x00, 0x00, 0x00);
/// 02/04/01.
pub const BECOMING_READY: Sense = sense(0x02, 0x04, 0x01);
/// 02/04/08.
pub const LONG_WRITE: Sense = sense(0x02, 0x04, 0x08);
/// 03/0C/00.
pub const WRITE_ERROR: Sense = sense(0x03, 0x0C, 0x00);
/// 0D/00/02.
pub const EARLY_END: Sense = sense(0x0D, 0x00, 0x02);
/// 01/17/01.
pub const RECOVERED: Sense = sense(0x01, 0x17, 0x01);
/// 03/11/00.
pub const UNREADABLE: Sense = sense(0x03, 0x11, 0x00);
/// 08/00/05.
pub const BLANK: Sense = sense(0x08, 0x00, 0x05);
/// 00/00/02.
pub const END_OF_TAPE: Sense = sense(0x00, 0x00, 0x02);

/// The table of triples.
pub const SENSES: [(Sense, Meaning); 9] = [
    (GOOD, Meaning::Good),
    (BECOMING_READY, Meaning::Busy),
    (LONG_WRITE, Meaning::Busy),
    (WRITE_ERROR, Meaning::WriteError),
    (EARLY_END, Meaning::EarlyEnd),
    (RECOVERED, Meaning::Recovered),
    (UNREADABLE, Meaning::Unreadable),
    (BLANK, Meaning::Blank),
    (END_OF_TAPE, Meaning::EndOfTape),
];

const fn sense(key: u8, asc: u8, ascq: u8) -> Sense {
    Sense { key, asc, ascq }
}

impl Sense {
    /// What this triple means.
    #[must_use]
    pub fn meaning(self) -> Meaning {
        SENSES
            .iter()
            .find(|(sense, _)| *sense == self)
            .map_or(Meaning::Unlisted, |(_, meaning)| *meaning)
    }
}
