//! Why a call is refused.

use std::error::Error;
use std::fmt;

/// Why a call was refused.
///
/// The first seven leave the session as it was: the call counts for nothing.
/// The others end it: whatever is called then is refused with
/// [`Refusal::Phase`], but for one close after a [`Refusal::TapeFull`] that left
/// a recording [spent](crate::Recorder::is_spent). A refused opening gives no
/// session; the last refusal comes from an opening alone.
#[derive(Clone, Copy, Debug, PartialEq, Eq, Hash)]
pub enum Refusal {
    /// 1: a buffer has the wrong length.
    Length,
    /// 2: no geometry of a cartridge, or fewer than 3,001 frames.
    Geometry,
    /// 3: no valid header, or two of equal update counts and unlike data.
    Header,
    /// 4: the drive's buffer is not of 1 to 255 frames, the window not of 1 to
    /// 64 blocks, or the tail of more than 255 frames.
    Capacity,
    /// 5: the cartridge's write passes or update counts are used up.
    Exhausted,
    /// 6: every block of the window holds an element not yet on tape.
    WindowFull,
    /// 7: the call does not fit the session's phase.
    Phase,
    /// 8: the reply is unlawful for its command.
    Reply,
    /// 9: the tape is full. [`Recorder::close`](crate::Recorder::close) tells what
    /// can be done.
    TapeFull,
    /// 10: an element is missing.
    Missing,
    /// 11: a frame is not of this use model.
    Foreign,
    /// 12: no header copy could be written, or no end was found.
    NotFound,
    /// 13: the header does not name the end that the reading found.
    EndElsewhere,
}

/// Every refusal, by its number less one.
const REFUSALS: [Refusal; 13] = [
    Refusal::Length,
    Refusal::Geometry,
    Refusal::Header,
    Refusal::Capacity,
    Refusal::Exhausted,
    Refusal::WindowFull,
    Refusal::Phase,
    Refusal::Reply,
    Refusal::TapeFull,
    Refusal::Missing,
    Refusal::Foreign,
    Refusal::NotFound,
    Refusal::EndElsewhere,
];

impl Refusal {
    /// The refusal's number, 1 to 13.
    ///
    /// ```
    /// assert_eq!(adr_tape::Refusal::TapeFull.number(), 9);
    /// ```
    #[must_use]
    pub const fn number(self) -> u8 {
        match self {
            Refusal::Length => 1,
            Refusal::Geometry => 2,
            Refusal::Header => 3,
            Refusal::Capacity => 4,
            Refusal::Exhausted => 5,
            Refusal::WindowFull => 6,
            Refusal::Phase => 7,
            Refusal::Reply => 8,
            Refusal::TapeFull => 9,
            Refusal::Missing => 10,
            Refusal::Foreign => 11,
            Refusal::NotFound => 12,
            Refusal::EndElsewhere => 13,
        }
    }

    /// Whether this refusal ends its session. [`Refusal::EndElsewhere`] counts
    /// among these: what it is given by is an opening, and no session goes on. So
    /// does [`Refusal::TapeFull`], though a spent recording can be closed.
    #[must_use]
    pub const fn ends_session(self) -> bool {
        self.number() >= 8
    }

    /// What a number of the layer says; 0 is no refusal.
    pub(crate) fn check(number: u8) -> Result<(), Refusal> {
        match usize::from(number).checked_sub(1) {
            None => Ok(()),
            // The layer gives no other number; as a refusal it would be one
            // of a call that does not fit.
            Some(index) => Err(REFUSALS.get(index).copied().unwrap_or(Refusal::Phase)),
        }
    }

    /// What it means and what to do about it: the words of `adr_refusal_text`
    /// in `include/adr.h`.
    #[must_use]
    pub const fn text(self) -> &'static str {
        match self {
            Refusal::Length => {
                "a buffer has the wrong length: lend 32,768 bytes for a block, \
                 33,280 for a frame or header, 32,768 for each block of the window"
            }
            Refusal::Geometry => {
                "the geometry is no cartridge's, or has fewer than 3,001 frames: \
                 check frames per track, tracks and load point"
            }
            Refusal::Header => {
                "the header is not valid, or two headers of the same age differ: \
                 read the ten copies again, or use another cartridge"
            }
            Refusal::Capacity => {
                "give 1 to 255 frames for the drive's buffer and 1 to 64 blocks for the window"
            }
            Refusal::Exhausted => {
                "the cartridge was recorded as often as its format can count: use another"
            }
            Refusal::WindowFull => {
                "the window is full: fetch and reply until an element is on tape, then try again"
            }
            Refusal::Phase => {
                "the call does not fit here: bring a reply once after each command, \
                 accept nothing after close, and open anew after a session has ended"
            }
            Refusal::Reply => {
                "the drive's reply is unlawful for its command: check the transport and the drive"
            }
            Refusal::TapeFull => "the tape is full: record on another cartridge",
            Refusal::Missing => {
                "an element is missing on tape: what was delivered so far is whole, the rest is not"
            }
            Refusal::Foreign => {
                "a frame on tape was not written in this format: \
                 what was delivered so far is whole, the rest is not"
            }
            Refusal::NotFound => {
                "no header copy could be written, or no end of data was found: \
                 clean the drive and read again, or record on another cartridge"
            }
            Refusal::EndElsewhere => {
                "the header does not name the end that was read to, as after a recording \
                 that was not closed: read again on the newest header, \
                 or record on another cartridge"
            }
        }
    }
}

impl fmt::Display for Refusal {
    fn fmt(&self, formatter: &mut fmt::Formatter<'_>) -> fmt::Result {
        write!(formatter, "{} (refusal {})", self.text(), self.number())
    }
}

impl Error for Refusal {}

#[cfg(test)]
mod tests {
    use super::*;

    #[test]
    fn numbers_and_back() {
        for (refusal, number) in REFUSALS.into_iter().zip(1..) {
            assert_eq!(refusal.number(), number);
            assert_eq!(Refusal::check(number), Err(refusal));
            assert_eq!(refusal.ends_session(), number > 7);
            assert!(refusal
                .to_string()
                .ends_with(&format!("(refusal {number})")));
        }
        assert_eq!(Refusal::check(0), Ok(()));
    }

    /// `c/check` compares the same file with what `adr.h` says.
    #[test]
    fn the_words_of_the_c_header() {
        let words = include_str!("../../../c/texts.expected");
        for refusal in REFUSALS {
            let line = format!("refusal {}: {}", refusal.number(), refusal.text());
            assert!(words.lines().any(|word| word == line), "{line}");
        }
    }
}
