//! What the drive wrote of one recording, frame by frame.

use crate::drive::{Act, Drive};

/// A frame that was written.
#[derive(Clone, Debug, PartialEq, Eq)]
pub struct Moment {
    /// What the drive did.
    pub act: Act,
    /// How many elements were accepted by then, those before the recording too.
    pub accepted: usize,
}

/// The frames written, in order; none where the drive keeps none.
#[derive(Clone, Debug, Default, PartialEq, Eq)]
pub struct History(pub Vec<Moment>);

impl History {
    /// Adds what the drive wrote since the last time.
    pub(super) fn note(&mut self, drive: &mut Drive, accepted: usize) {
        let acts = drive.take_acts().into_iter();
        self.0.extend(acts.map(|act| Moment { act, accepted }));
    }

    /// Adds what a drive goes on to write that gets no more commands.
    pub(super) fn note_held(&mut self, drive: &Drive, accepted: usize) {
        if drive.keeps_acts() && drive.buffered() > 0 {
            let mut alone = drive.clone();
            alone.write_held();
            self.note(&mut alone, accepted);
        }
    }
}
