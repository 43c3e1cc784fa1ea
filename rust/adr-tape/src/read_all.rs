//! A whole reading over a drive.

use std::ops::ControlFlow;

use crate::command::Command;
use crate::drive::Drive;
use crate::element::Element;
use crate::error::ReadError;
use crate::geometry::{aux_of, Geometry, AUX_LENGTH, FRAME_LENGTH};
use crate::reader::{Delivery, ReadNext, Reader};
use crate::reply::Reply;
use crate::summary::Summary;

/// Reads a cartridge and hands each element to `sink`, to the end of data or
/// until the sink breaks.
///
/// `header` is the cartridge's newest, as [`newest_header`](crate::newest_header)
/// finds it. `progress` is called after each reply. Where the AUX fields are wanted
/// too, [`read_deliveries`] hands them on.
///
/// # Errors
/// The layer's refusal, or what the drive or the sink failed with. What was
/// handed to the sink before is what was recorded. Where the last recording was
/// cut short, [`Refusal::NotFound`](crate::Refusal::NotFound) may come behind all
/// that stands: [`RecordError`](crate::RecordError) tells what that is.
pub fn read_all<D: Drive, S>(
    drive: &mut D,
    geometry: Geometry,
    header: &[u8],
    sink: impl FnMut(Element<'_>) -> Result<ControlFlow<()>, S>,
    progress: impl FnMut(&Summary),
) -> Result<Summary, ReadError<D::Error, S>> {
    let mut reader = Reader::open(geometry, header)?;
    read_with(drive, &mut reader, sink, progress)
}

/// [`read_all`] with a reader that is open, which is then at its end unless the
/// sink broke: [`Recorder::open_at_end`](crate::Recorder::open_at_end) goes on
/// from there.
///
/// # Errors
/// As [`read_all`].
pub fn read_with<D: Drive, S>(
    drive: &mut D,
    reader: &mut Reader,
    mut sink: impl FnMut(Element<'_>) -> Result<ControlFlow<()>, S>,
    progress: impl FnMut(&Summary),
) -> Result<Summary, ReadError<D::Error, S>> {
    let elements = |delivery: Delivery<'_>, _: &[u8; AUX_LENGTH]| match delivery {
        Delivery::Nothing | Delivery::End => Ok(ControlFlow::Continue(())),
        Delivery::Block(block) => sink(Element::from(block)),
        Delivery::Filemark => sink(Element::Filemark),
    };
    read_deliveries(drive, reader, elements, progress)
}

/// [`read_with`] whose sink is handed each delivery with the AUX field of its
/// frame: blocks, filemarks and, at last, the end of data. A
/// [`ShelfSheet`](crate::ShelfSheet) is made from these fields.
///
/// # Errors
/// As [`read_all`].
pub fn read_deliveries<D: Drive, S>(
    drive: &mut D,
    reader: &mut Reader,
    mut sink: impl FnMut(Delivery<'_>, &[u8; AUX_LENGTH]) -> Result<ControlFlow<()>, S>,
    mut progress: impl FnMut(&Summary),
) -> Result<Summary, ReadError<D::Error, S>> {
    let mut frame = Box::new([0; FRAME_LENGTH]);
    let mut summary = Summary::default();
    while let ReadNext::Send(command) = reader.fetch()? {
        let reply = send(drive, command, &mut *frame).map_err(ReadError::Drive)?;
        summary.count(command, &reply);
        let delivery = reader.reply(reply, &*frame)?;
        match delivery {
            Delivery::Nothing | Delivery::End => {}
            Delivery::Block(_) => summary.blocks += 1,
            Delivery::Filemark => summary.filemarks += 1,
        }
        progress(&summary);
        if delivery == Delivery::Nothing {
            continue;
        }
        let flow = sink(delivery, aux_of(&frame)).map_err(ReadError::Sink)?;
        if flow.is_break() {
            break;
        }
    }
    Ok(summary)
}

fn send<D: Drive>(drive: &mut D, command: Command, frame: &mut [u8]) -> Result<Reply, D::Error> {
    match command {
        Command::Read(address) => drive.read(address, frame),
        Command::Locate(address) => drive.locate(address),
        // A reading sends neither.
        Command::ReadPosition | Command::Write(_) => drive.read_position(),
    }
}
