//! Addresses, sequence numbers and the areas of a cartridge.

/// Bytes of data in a frame, and of a block.
pub const BLOCK_LENGTH: usize = 32_768;
/// Bytes of AUX in a frame.
pub const AUX_LENGTH: usize = 512;
/// Bytes of a whole frame.
pub const FRAME_LENGTH: usize = BLOCK_LENGTH + AUX_LENGTH;
/// The first user frame.
pub const FIRST_USER: Address = Address(10);
/// The first address of the second header group.
pub const GAP_FIRST: Address = Address(2_990);
/// The last address of the second defect map.
pub const GAP_LAST: Address = Address(2_999);
/// The first user frame behind the second header group and defect map.
pub const GAP_END: Address = Address(3_000);
/// The fewest frames a cartridge may have.
pub const FEWEST_FRAMES: u32 = 3_001;
/// The addresses of the ten header copies, group by group.
pub const HEADER_GROUPS: [[Address; 5]; 2] = [
    [Address(5), Address(6), Address(7), Address(8), Address(9)],
    [
        Address(2_990),
        Address(2_991),
        Address(2_992),
        Address(2_993),
        Address(2_994),
    ],
];

/// A frame address: a place on tape.
#[derive(Clone, Copy, Debug, PartialEq, Eq, PartialOrd, Ord, Hash)]
pub struct Address(pub u32);

/// A frame sequence number: the place of an element in a recording.
#[derive(Clone, Copy, Debug, PartialEq, Eq, PartialOrd, Ord, Hash)]
pub struct SequenceNumber(pub u32);

impl Address {
    /// The address `count` further on.
    #[must_use]
    pub fn plus(self, count: u32) -> Address {
        Address(self.0.saturating_add(count))
    }

    /// The address `count` before.
    #[must_use]
    pub fn minus(self, count: u32) -> Address {
        Address(self.0.saturating_sub(count))
    }

    /// This address, or 3,000 if it lies in 2,990 to 2,999.
    #[must_use]
    pub fn out_of_gap(self) -> Address {
        if (GAP_FIRST..=GAP_LAST).contains(&self) {
            GAP_END
        } else {
            self
        }
    }

    /// Whether this is one of the ten addresses of a header copy.
    #[must_use]
    pub fn is_header_copy(self) -> bool {
        HEADER_GROUPS.iter().flatten().any(|copy| *copy == self)
    }

    /// Whether this is a user frame of a cartridge that ends at `last`.
    #[must_use]
    pub fn is_user_frame(self, last: Address) -> bool {
        (FIRST_USER..GAP_FIRST).contains(&self) || (GAP_END..=last).contains(&self)
    }
}

/// What the drive tells of a cartridge.
#[derive(Clone, Copy, Debug, PartialEq, Eq, Hash)]
pub struct Geometry {
    /// SEGTRK, frames per track.
    pub frames_per_track: u16,
    /// TRKS, tracks.
    pub tracks: u16,
    /// Where it is loaded: 0 the beginning, 1 the centre; any other value
    /// describes a cartridge without frames.
    pub load_point: u8,
}

impl Geometry {
    /// A cartridge that is loaded at the beginning.
    #[must_use]
    pub fn beginning(frames_per_track: u16, tracks: u16) -> Geometry {
        Geometry {
            frames_per_track,
            tracks,
            load_point: 0,
        }
    }

    /// A cartridge loaded at its centre.
    #[must_use]
    pub fn centre(frames_per_track: u16, tracks: u16) -> Geometry {
        Geometry {
            frames_per_track,
            tracks,
            load_point: 1,
        }
    }

    /// The frames on tape.
    #[must_use]
    pub fn frames(&self) -> u32 {
        let frames_per_track = match self.load_point {
            0 => self.frames_per_track,
            1 => self.frames_per_track.saturating_sub(99),
            _ => 0,
        };
        u32::from(frames_per_track).saturating_mul(u32::from(self.tracks))
    }

    /// LAST, or none if there are fewer than 3,001 frames (refusal 2).
    #[must_use]
    pub fn last(&self) -> Option<Address> {
        let frames = self.frames();
        (frames >= FEWEST_FRAMES).then(|| Address(frames.saturating_sub(1)))
    }
}

#[cfg(test)]
mod tests {
    use super::*;

    #[test]
    fn last_of_both_load_points() {
        assert_eq!(Geometry::beginning(1_000, 12).last(), Some(Address(11_999)));
        assert_eq!(Geometry::centre(1_000, 12).last(), Some(Address(10_811)));
        assert_eq!(Geometry::beginning(3_001, 1).last(), Some(Address(3_000)));
        assert_eq!(Geometry::beginning(3_000, 1).last(), None);
        let largest = Geometry::beginning(65_535, 65_535);
        assert_eq!(largest.last(), Some(Address(4_294_836_224)));
    }

    #[test]
    fn no_frames() {
        for frames_per_track in [0, 1, 98, 99] {
            let geometry = Geometry::centre(frames_per_track, 65_535);
            assert_eq!((geometry.frames(), geometry.last()), (0, None));
        }
        assert_eq!(Geometry::centre(100, 3_001).last(), Some(Address(3_000)));
        assert_eq!(Geometry::centre(100, 3_000).last(), None);
        for load_point in 2..=255 {
            let geometry = Geometry {
                load_point,
                ..Geometry::beginning(65_535, 65_535)
            };
            assert_eq!(geometry.last(), None);
        }
    }

    #[test]
    fn areas() {
        let last = Address(3_005);
        let user: Vec<u32> = (0..3_010)
            .filter(|a| Address(*a).is_user_frame(last))
            .collect();
        let expected: Vec<u32> = (10..2_990).chain(3_000..3_006).collect();
        assert_eq!(user, expected);
        let copies: Vec<u32> = (0..3_010)
            .filter(|a| Address(*a).is_header_copy())
            .collect();
        assert_eq!(
            copies,
            [5, 6, 7, 8, 9, 2_990, 2_991, 2_992, 2_993, 2_994].to_vec()
        );
    }

    #[test]
    fn out_of_gap() {
        assert_eq!(Address(2_989).out_of_gap(), Address(2_989));
        for address in 2_990..=3_000 {
            assert_eq!(Address(address).out_of_gap(), GAP_END);
        }
        assert_eq!(Address(3_001).out_of_gap(), Address(3_001));
    }
}
