//! Replies of the drive.

use std::fmt;

use crate::ffi;
use crate::geometry::Address;

/// A sense triple of the drive: key, additional sense code and its qualifier.
#[derive(Clone, Copy, Debug, PartialEq, Eq, Hash)]
pub struct Sense {
    /// Sense key.
    pub key: u8,
    /// Additional sense code, ASC.
    pub code: u8,
    /// Additional sense code qualifier, ASCQ.
    pub qualifier: u8,
}

impl Sense {
    /// 00/00/00: the command was carried out.
    pub const GOOD: Sense = Sense::new(0x00, 0x00, 0x00);
    /// 02/04/01: the drive is becoming ready, the command comes again.
    pub const BECOMING_READY: Sense = Sense::new(0x02, 0x04, 0x01);
    /// 02/04/08: a long write goes on, the command comes again.
    pub const LONG_WRITE: Sense = Sense::new(0x02, 0x04, 0x08);
    /// 03/0C/00: a buffered frame could not be written.
    pub const WRITE_ERROR: Sense = Sense::new(0x03, 0x0C, 0x00);
    /// 0D/00/02: the tape ends before this address.
    pub const EARLY_END: Sense = Sense::new(0x0D, 0x00, 0x02);
    /// 01/17/01: a frame was read after a correction.
    pub const RECOVERED: Sense = Sense::new(0x01, 0x17, 0x01);
    /// 03/11/00: this address could not be read.
    pub const UNREADABLE: Sense = Sense::new(0x03, 0x11, 0x00);
    /// 08/00/05: nothing readable on the next 32 addresses.
    pub const BLANK: Sense = Sense::new(0x08, 0x00, 0x05);
    /// 00/00/02: nothing readable from here on.
    pub const END_OF_TAPE: Sense = Sense::new(0x00, 0x00, 0x02);

    /// A triple.
    #[must_use]
    pub const fn new(key: u8, code: u8, qualifier: u8) -> Sense {
        Sense {
            key,
            code,
            qualifier,
        }
    }

    /// Whether the command was not taken and comes again.
    #[must_use]
    pub fn is_busy(self) -> bool {
        self == Sense::BECOMING_READY || self == Sense::LONG_WRITE
    }

    /// Whether a READ with this sense brings a frame.
    #[must_use]
    pub fn brings_frame(self) -> bool {
        self == Sense::GOOD || self == Sense::RECOVERED
    }
}

impl fmt::Display for Sense {
    /// In hexadecimal, as 03/0C/00.
    fn fmt(&self, formatter: &mut fmt::Formatter<'_>) -> fmt::Result {
        let Sense {
            key,
            code,
            qualifier,
        } = self;
        write!(formatter, "{key:02X}/{code:02X}/{qualifier:02X}")
    }
}

/// What the drive answered to a command. Numbers that do not belong to the
/// triple's meaning are not looked at. A write error's skip above 255 is
/// refused with [`Refusal::Reply`](crate::Refusal::Reply).
#[derive(Clone, Copy, Debug, PartialEq, Eq, Hash)]
pub struct Reply {
    /// What the drive says.
    pub sense: Sense,
    /// Frames still buffered: with good on READ POSITION.
    pub buffered: u32,
    /// The address of the failed frame: with a write error.
    pub position: Address,
    /// The skip that the drive advises, 0 to 255: with a write error.
    pub skip: u32,
}

impl Reply {
    /// The command was carried out.
    #[must_use]
    pub const fn good() -> Reply {
        Reply::sense(Sense::GOOD)
    }

    /// Good on READ POSITION, with so many frames still buffered.
    #[must_use]
    pub const fn buffered(frames: u32) -> Reply {
        Reply {
            buffered: frames,
            ..Reply::good()
        }
    }

    /// A triple that comes with no numbers.
    #[must_use]
    pub const fn sense(sense: Sense) -> Reply {
        Reply {
            sense,
            buffered: 0,
            position: Address(0),
            skip: 0,
        }
    }

    /// The buffered frame for `position` could not be written.
    #[must_use]
    pub const fn write_error(position: Address, skip: u32) -> Reply {
        Reply {
            position,
            skip,
            ..Reply::sense(Sense::WRITE_ERROR)
        }
    }
}

impl From<Reply> for ffi::Reply {
    fn from(reply: Reply) -> ffi::Reply {
        ffi::Reply {
            buffered: reply.buffered,
            position: reply.position.0,
            skip: reply.skip,
            key: reply.sense.key,
            asc: reply.sense.code,
            ascq: reply.sense.qualifier,
        }
    }
}
