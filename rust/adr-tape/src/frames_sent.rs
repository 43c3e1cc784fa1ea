//! Frames sent: the most that a recording can send, and what one did send.

use crate::command::Command;
use crate::ffi;
use crate::geometry::Address;
use crate::reply::{Reply, Sense};
use crate::setup::Setup;

/// The most frames of elements and the end of data that a drive takes in one
/// recording of so many elements, if these and the end of data meet so many
/// write errors: each once, and at each error up to as many again as the smaller
/// of the drive's buffer and the window holds. Frames of headers
/// [are apart](header_frames_sent_at_most).
///
/// Elements are those accepted in the recording, also if they were given up on a
/// full tape. Each 03/0C/00 is an error. It holds whatever the drive does, at any
/// point of the recording too, with the counts so far; the tail makes no
/// difference. On enough tape some drive reaches it, if there are at least as
/// many elements as that smaller one; what is added just before 2,990 may not.
///
/// ```
/// use adr_tape::{frames_sent_at_most, Setup};
/// let setup = Setup { depth: 8, blocks: 16, tail: 8 };
/// assert_eq!(frames_sent_at_most(1_000, 0, setup), 1_001);
/// assert_eq!(frames_sent_at_most(1_000, 25, setup), 1_201);
/// ```
#[must_use]
pub fn frames_sent_at_most(elements: u32, errors: u32, setup: Setup) -> u64 {
    ffi::frames_sent_at_most(elements, errors, setup.depth, setup.blocks)
}

/// The most frames of headers that a drive takes in one recording, if these meet
/// so many write errors: ten copies at its opening and ten at its close, and at
/// each error those that the drive buffers behind the failed one; that one is not
/// sent again.
///
/// ```
/// use adr_tape::{header_frames_sent_at_most, Setup};
/// let setup = Setup { depth: 8, blocks: 16, tail: 8 };
/// assert_eq!(header_frames_sent_at_most(0, setup), 20);
/// assert_eq!(header_frames_sent_at_most(2, setup), 28);
/// assert_eq!(header_frames_sent_at_most(2, Setup { depth: 1, ..setup }), 20);
/// ```
#[must_use]
pub fn header_frames_sent_at_most(errors: u32, setup: Setup) -> u64 {
    ffi::header_frames_sent_at_most(errors, setup.depth)
}

/// Frames that the drive took in a recording (WRITEs answered good), and the
/// write errors that they met (each 03/0C/00): of elements and the end of data,
/// and of headers.
#[derive(Clone, Copy, Debug, Default, PartialEq, Eq)]
pub struct FramesSent {
    /// Frames of elements and the end of data.
    pub elements: u64,
    /// Write errors that these met.
    pub errors: u64,
    /// Frames of headers.
    pub headers: u64,
    /// Write errors that these met.
    pub header_errors: u64,
}

impl FramesSent {
    /// Counts a command and its reply.
    pub(crate) fn count(&mut self, command: Command, reply: &Reply) {
        match (command, reply.sense) {
            (Command::Write(address), Sense::GOOD) => {
                let (frames, _) = self.at(address);
                *frames += 1;
            }
            // It tells of an earlier frame, not of what was sent just now.
            (Command::Write(_) | Command::ReadPosition, Sense::WRITE_ERROR) => {
                let (_, errors) = self.at(reply.position);
                *errors += 1;
            }
            _ => {}
        }
    }

    /// Frames and errors of what goes to an address. No element and no end of data
    /// ever goes to a header's, so the address is enough, and the session's stage
    /// need not be known.
    fn at(&mut self, address: Address) -> (&mut u64, &mut u64) {
        if address.is_header() {
            (&mut self.headers, &mut self.header_errors)
        } else {
            (&mut self.elements, &mut self.errors)
        }
    }
}
