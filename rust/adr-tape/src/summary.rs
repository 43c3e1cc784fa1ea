//! What came of a recording or reading, or has come of it so far.

use crate::command::Command;
use crate::frames_sent::{frames_sent_at_most, header_frames_sent_at_most, FramesSent};
use crate::geometry::Address;
use crate::reply::{Reply, Sense};
use crate::setup::Setup;

/// Counts of a whole recording or reading; while it goes on, counts so far.
#[derive(Clone, Copy, Debug, Default, PartialEq, Eq)]
pub struct Summary {
    /// Blocks accepted or delivered.
    pub blocks: u64,
    /// Filemarks accepted or delivered.
    pub filemarks: u64,
    /// Commands sent to the drive.
    pub commands: u64,
    /// Commands answered busy.
    pub busy: u64,
    /// Write errors reported.
    pub write_errors: u64,
    /// Frames that the drive took, and the write errors that they met; none in a
    /// reading.
    pub sent: FramesSent,
    /// Addresses that could not be read.
    pub unreadable: u64,
    /// The address of the latest command that had one.
    pub address: Address,
}

impl Summary {
    /// Blocks and filemarks together.
    #[must_use]
    pub fn elements(&self) -> u64 {
        self.blocks.saturating_add(self.filemarks)
    }

    /// The most that [`FramesSent::elements`] can be in a recording with these
    /// sizes, for so many elements and errors.
    #[must_use]
    pub fn frames_at_most(&self, setup: Setup) -> u64 {
        frames_sent_at_most(fitting(self.elements()), fitting(self.sent.errors), setup)
    }

    /// The most that [`FramesSent::headers`] can be, for so many errors.
    #[must_use]
    pub fn header_frames_at_most(&self, setup: Setup) -> u64 {
        header_frames_sent_at_most(fitting(self.sent.header_errors), setup)
    }

    /// Counts a command and its reply.
    pub(crate) fn count(&mut self, command: Command, reply: &Reply) {
        self.commands += 1;
        if let Some(address) = command.address() {
            self.address = address;
        }
        self.sent.count(command, reply);
        match reply.sense {
            Sense::WRITE_ERROR => self.write_errors += 1,
            Sense::UNREADABLE => self.unreadable += 1,
            sense if sense.is_busy() => self.busy += 1,
            _ => {}
        }
    }
}

/// A count as the layer takes it. No tape has so many addresses that one is
/// higher.
fn fitting(count: u64) -> u32 {
    u32::try_from(count).unwrap_or(u32::MAX)
}
