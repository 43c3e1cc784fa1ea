//! Addresses and the size of a cartridge.

use std::fmt;

use crate::ffi;
use crate::refusal::Refusal;

/// Bytes of a block, and of the data in a frame.
pub const BLOCK_LENGTH: usize = 32_768;
/// Bytes of a whole frame: as many data bytes as a block has, then 512 of AUX.
pub const FRAME_LENGTH: usize = 33_280;
/// Bytes of an AUX field: the last ones of a frame.
pub const AUX_LENGTH: usize = FRAME_LENGTH - BLOCK_LENGTH;

/// The AUX field of a frame.
///
/// ```
/// let mut frame = [0; adr_tape::FRAME_LENGTH];
/// frame[adr_tape::BLOCK_LENGTH] = 7;
/// assert_eq!(adr_tape::aux_of(&frame)[..2], [7, 0]);
/// ```
#[must_use]
pub fn aux_of(frame: &[u8; FRAME_LENGTH]) -> &[u8; AUX_LENGTH] {
    // A frame is longer than its AUX.
    frame.last_chunk().unwrap_or(&[0; AUX_LENGTH])
}

/// A frame address: a place on tape, counted from 0.
#[derive(Clone, Copy, Debug, Default, PartialEq, Eq, PartialOrd, Ord, Hash)]
pub struct Address(pub u32);

impl Address {
    /// Whether this is a user frame of a cartridge whose highest address is
    /// `last`: 10 to 2,989, or 3,000 to `last`.
    ///
    /// ```
    /// use adr_tape::Address;
    /// assert!(Address(3_000).is_user_frame(Address(3_000)));
    /// assert!(!Address(2_990).is_user_frame(Address(3_000)));
    /// ```
    #[must_use]
    pub fn is_user_frame(self, last: Address) -> bool {
        ffi::is_user(last.0, self.0) == 1
    }

    /// Whether this is the address of a header copy, on any cartridge: 5 to 9,
    /// or 2,990 to 2,994.
    ///
    /// ```
    /// use adr_tape::Address;
    /// assert!(Address(2_994).is_header());
    /// assert!(!Address(2_995).is_header());
    /// ```
    #[must_use]
    pub fn is_header(self) -> bool {
        header_addresses().contains(&self)
    }
}

impl fmt::Display for Address {
    fn fmt(&self, formatter: &mut fmt::Formatter<'_>) -> fmt::Result {
        self.0.fmt(formatter)
    }
}

/// Where a cartridge is loaded.
#[derive(Clone, Copy, Debug, PartialEq, Eq, Hash)]
pub enum LoadPoint {
    /// At its beginning.
    Beginning,
    /// At its centre: 99 frames of each track are not used.
    Centre,
}

/// The size of a cartridge, as the drive tells it.
#[derive(Clone, Copy, Debug, PartialEq, Eq, Hash)]
pub struct Geometry {
    /// SEGTRK, frames on a track; at most 65,535.
    pub segtrk: u32,
    /// TRKS, tracks; at most 65,535.
    pub trks: u32,
    /// Where the cartridge is loaded.
    pub load: LoadPoint,
}

impl Geometry {
    /// A cartridge that is loaded at the beginning.
    #[must_use]
    pub const fn beginning(segtrk: u32, trks: u32) -> Geometry {
        Geometry {
            segtrk,
            trks,
            load: LoadPoint::Beginning,
        }
    }

    /// A cartridge loaded at its centre.
    #[must_use]
    pub const fn centre(segtrk: u32, trks: u32) -> Geometry {
        Geometry {
            segtrk,
            trks,
            load: LoadPoint::Centre,
        }
    }

    /// The frames on tape; 0 for numbers that are no cartridge's.
    ///
    /// ```
    /// use adr_tape::Geometry;
    /// assert_eq!(Geometry::beginning(1_000, 12).frames(), 12_000);
    /// assert_eq!(Geometry::centre(1_000, 12).frames(), 10_812);
    /// ```
    #[must_use]
    pub fn frames(self) -> u32 {
        ffi::frames(self.into())
    }

    /// LAST, the highest address.
    ///
    /// ```
    /// use adr_tape::{Address, Geometry, Refusal};
    /// assert_eq!(Geometry::beginning(3_001, 1).last(), Ok(Address(3_000)));
    /// assert_eq!(Geometry::beginning(3_000, 1).last(), Err(Refusal::Geometry));
    /// ```
    ///
    /// # Errors
    /// [`Refusal::Geometry`]: fewer than 3,001 frames.
    pub fn last(self) -> Result<Address, Refusal> {
        let place = ffi::last(self.into());
        Refusal::check(place.number)?;
        Ok(Address(place.address))
    }
}

impl From<Geometry> for ffi::Geometry {
    fn from(geometry: Geometry) -> ffi::Geometry {
        ffi::Geometry {
            segtrk: geometry.segtrk,
            trks: geometry.trks,
            load: match geometry.load {
                LoadPoint::Beginning => 0,
                LoadPoint::Centre => 1,
            },
        }
    }
}

/// The addresses of the ten header copies, group by group.
///
/// ```
/// let addresses = adr_tape::header_addresses().map(|address| address.0);
/// assert_eq!(addresses, [5, 6, 7, 8, 9, 2_990, 2_991, 2_992, 2_993, 2_994]);
/// ```
#[must_use]
pub fn header_addresses() -> [Address; 10] {
    let place = |group, copy| Address(ffi::header_address(group, copy));
    [
        place(0, 0),
        place(0, 1),
        place(0, 2),
        place(0, 3),
        place(0, 4),
        place(1, 0),
        place(1, 1),
        place(1, 2),
        place(1, 3),
        place(1, 4),
    ]
}
