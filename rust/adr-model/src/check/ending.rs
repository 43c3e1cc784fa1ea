//! How recordings that keep a tail for EOD come to their end, counted.

/// What can become of such a recording.
#[derive(Clone, Copy, Debug, PartialEq, Eq, Hash)]
pub enum Ending {
    /// Spent by the target of a write error.
    SpentByTarget,
    /// Spent since the next address was no element's.
    SpentByAddress,
    /// Spent after close was called.
    SpentClosed,
    /// Spent before close was called.
    SpentOpen,
    /// Spent, and not closed again.
    LeftSpent,
    /// Given up behind elements of its own.
    GivenUp,
    /// Given up without an element of its own, in a recording that adds.
    GivenUpAtFirst,
    /// Given up, and no room for EOD.
    NoRoomForEod,
    /// An early end of tape was told for an EOD in the tail.
    EarlyEndInTail,
    /// Closed with EOD in the tail.
    EodInTail,
    /// A block given up that is delivered.
    BlockDelivered,
    /// A filemark given up that is delivered.
    FilemarkDelivered,
    /// The first element of a recording that adds, given up and delivered.
    FirstDelivered,
    /// Added behind a recording that was given up.
    Added,
    /// Added behind an element given up that is delivered.
    AddedBehindDelivered,
}

/// The number of different endings.
pub const ENDINGS: usize = Ending::AddedBehindDelivered as usize + 1;

/// How often each came about.
#[derive(Clone, Copy, Debug, Default, PartialEq, Eq)]
pub struct Endings(pub [u64; ENDINGS]);

impl Endings {
    /// Counts one.
    pub(super) fn note(&mut self, ending: Ending) {
        if let Some(count) = self.0.get_mut(ending as usize) {
            *count += 1;
        }
    }
}
