//! Commands to the drive and the answers of the calls.

use crate::geometry::Address;

/// A command for the drive. WRITE and READ name the address at which the
/// drive stands, which the drive itself is not told.
#[derive(Clone, Copy, Debug, PartialEq, Eq, Hash)]
pub enum Command {
    /// Go to an address.
    Locate(Address),
    /// Take the lent frame for this address.
    Write(Address),
    /// Tell how many frames are still buffered.
    ReadPosition,
    /// Read the frame at this address.
    Read(Address),
}

/// What accepting an element, closing, a reply to a recording or an opening
/// answers.
#[derive(Clone, Copy, Debug, PartialEq, Eq, Hash)]
pub enum Outcome {
    /// The call was accepted.
    Accepted,
    /// The call was refused with this number.
    Refused(u8),
}

/// What a recording's fetch answers.
#[derive(Clone, Copy, Debug, PartialEq, Eq, Hash)]
pub enum Answer {
    /// The next command, whose reply is now awaited.
    Command(Command),
    /// Nothing to do until the host accepts or closes.
    Idle,
    /// The recording is closed and whole.
    Done,
    /// The call was refused with this number.
    Refused(u8),
}

/// What a reading's fetch answers.
#[derive(Clone, Copy, Debug, PartialEq, Eq, Hash)]
pub enum ReadAnswer {
    /// The next command, whose reply is now awaited.
    Command(Command),
    /// EOD was read.
    End,
    /// The call was refused with this number.
    Refused(u8),
}

/// What a reply to a reading answers.
#[derive(Clone, Copy, Debug, PartialEq, Eq, Hash)]
pub enum ReadOutcome {
    /// Nothing is delivered.
    Nothing,
    /// The data of the lent frame are the next block.
    Block,
    /// The next element is a filemark.
    Filemark,
    /// EOD was read.
    End,
    /// The call was refused with this number.
    Refused(u8),
}
