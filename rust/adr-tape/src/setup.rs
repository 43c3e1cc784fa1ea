//! The sizes a recording is opened with.

/// The sizes a recording is opened with.
///
/// ```
/// use adr_tape::{Geometry, Recorder, Refusal, Setup};
///
/// let geometry = Geometry::beginning(3_001, 1);
/// let setup = Setup { depth: 8, blocks: 16, tail: 8 };
/// let recorder = Recorder::open(geometry, setup, None)?;
/// let too_long = Setup { tail: 256, ..setup };
/// assert_eq!(Recorder::open(geometry, too_long, None).err(), Some(Refusal::Capacity));
/// # recorder.abandon();
/// # Ok::<(), Refusal>(())
/// ```
#[derive(Clone, Copy, Debug, PartialEq, Eq, Hash)]
pub struct Setup {
    /// Frames that the drive buffers, 1 to 255.
    pub depth: u32,
    /// Blocks that may wait in the window, 1 to 64; at least `depth`, or the
    /// drive's buffer is never filled.
    pub blocks: u32,
    /// Addresses at the end of the tape, 0 to 255, that no element goes to, so
    /// that the end of data finds a place there. With 0 a tape that fills up can't
    /// be closed; with more it can, and [`Full`](crate::Full) tells what is on it.
    pub tail: u32,
}
