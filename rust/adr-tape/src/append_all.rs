//! Adding to a cartridge, over a drive.

use std::convert::Infallible;
use std::ops::ControlFlow;

use crate::drive::Drive;
use crate::element::Element;
use crate::error::{AppendError, ReadError, RecordError};
use crate::geometry::Geometry;
use crate::read_all::read_with;
use crate::reader::Reader;
use crate::record_all::record_with;
use crate::recorder::Recorder;
use crate::setup::Setup;
use crate::summary::Summary;

/// What was read on the way to the end of data, and what was recorded behind
/// it; while that goes on, so far.
#[derive(Clone, Copy, Debug, Default, PartialEq, Eq)]
pub struct Appended {
    /// The reading.
    pub read: Summary,
    /// The recording.
    pub recorded: Summary,
}

/// Reads a cartridge to its end, records elements behind what is there until
/// there are no more, closes, and returns when the recording is whole. A reading
/// then gives what was there and the new elements.
///
/// `header` is the cartridge's newest, as [`newest_header`](crate::newest_header)
/// finds it. `progress` is called after each reply.
///
/// Only add to a cartridge whose last recording was reported whole and was
/// itself made as it should be, on the newest header: a fresh one where no user
/// frame bore its write pass, an added one where none did behind the end. Else
/// frames of that pass may stand behind the end and be read among the new
/// elements, and no call notices. Where a recording was cut short, the header
/// mostly names no end, and nothing can be added: [`RecordError`] tells when
/// something can. Blocks at the end that no filemark closes are one run with the
/// new ones. [`Recorder::open_at_end`] tells more.
///
/// # Errors
/// What the reading failed with, and then nothing was written; or what the
/// recording failed with, as [`record_all`](crate::record_all). What was on the
/// cartridge before can be read then, too. The layer's refusal is
/// [`Refusal::EndElsewhere`] where the header does not name the end that was found.
///
/// [`Refusal::EndElsewhere`]: crate::Refusal::EndElsewhere
pub fn append_all<'a, D: Drive, S>(
    drive: &mut D,
    geometry: Geometry,
    setup: Setup,
    header: &[u8],
    elements: impl IntoIterator<Item = Result<Element<'a>, S>>,
    mut progress: impl FnMut(&Appended),
) -> Result<Appended, AppendError<D::Error, S>> {
    let mut reader = Reader::open(geometry, header).map_err(ReadError::from)?;
    let read = read_with(drive, &mut reader, pass_by, |read| {
        let recorded = Summary::default();
        progress(&Appended {
            read: *read,
            recorded,
        });
    })?;
    let recorder = Recorder::open_at_end(&reader, setup).map_err(RecordError::from)?;
    let recorded = record_with(drive, recorder, elements, |recorded| {
        progress(&Appended {
            read,
            recorded: *recorded,
        });
    })?;
    Ok(Appended { read, recorded })
}

/// Takes an element and goes on.
fn pass_by(_: Element<'_>) -> Result<ControlFlow<()>, Infallible> {
    Ok(ControlFlow::Continue(()))
}
