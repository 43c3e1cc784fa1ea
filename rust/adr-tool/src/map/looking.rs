//! Finding out what stands at each address.

use adr_model::frame::{aux_of, number_at, Frame, Kind};
use adr_model::header::fields_of;
use adr_tape::{
    header_addresses, newer, newest_header, Address, Command, Delivery, Drive, HeaderError,
    ReadNext, Reader, Refusal, Sense, BLOCK_LENGTH, FRAME_LENGTH,
};

use super::aux_drive::AuxDrive;
use super::spots::{Reading, Spot, Spots};
use crate::cut_session::CutSession;
use crate::failure::Failure;
use crate::frame_checksums;
use crate::image::Image;
use crate::lone_frame::{self, LoneFrame};

/// Looks at an image as a reading does, and tests every frame.
pub fn look_at(image: &mut Image, quiet: bool) -> Result<Spots, Failure> {
    let path = image.path().to_path_buf();
    let geometry = image.geometry();
    let refused = |refusal: Refusal| Failure::new(format!("{}: {refusal}", path.display()));
    let last = geometry.last().map_err(refused)?;
    let header = newest_header(&mut AuxDrive::new(image), geometry);
    let header = header.map_err(|error| match error {
        HeaderError::Refused(refusal) => refused(refusal),
        HeaderError::Drive(failure) => failure,
    })?;
    if header.is_none() {
        image.require_blank_headers()?;
    }
    let frames = frame_checksums::test_all(image, quiet)?;
    let mut spots = Spots {
        title: path
            .file_name()
            .unwrap_or_default()
            .to_string_lossy()
            .into_owned(),
        last: last.0,
        known: image
            .known()
            .filter(|(_, reads, failed)| *reads || *failed)
            .map(|(address, _, failed)| {
                let spot = if failed { Spot::Bad } else { Spot::Stale };
                (address, spot)
            })
            .collect(),
        reading: match frames {
            0 => Reading::Empty,
            _ => Reading::NoHeader,
        },
    };
    if let Some(header) = header {
        mark_headers(&mut AuxDrive::new(image), &header, &mut spots)?;
        spots.reading = mark_elements(&mut AuxDrive::new(image), &header, &mut spots)?;
        if let Reading::Stopped(_) = spots.reading {
            mark_beyond(image, &header, &mut spots)?;
        }
    }
    let damaged = image.damaged().map(|address| (address, Spot::Damaged));
    spots.known.extend(damaged);
    Ok(spots)
}

/// Marks the copies that are as new as the newest.
fn mark_headers(drive: &mut AuxDrive<'_>, header: &[u8], spots: &mut Spots) -> Result<(), Failure> {
    let geometry = drive.geometry();
    let update_count = |frame: &[u8]| {
        frame
            .get(BLOCK_LENGTH + 12..BLOCK_LENGTH + 16)
            .map(<[u8]>::to_vec)
    };
    let mut frame = vec![0; FRAME_LENGTH];
    for address in header_addresses() {
        drive.locate(address)?;
        let reply = drive.read(address, &mut frame)?;
        if reply.sense == Sense::GOOD
            && newer(geometry, &frame, &frame).is_ok()
            && update_count(&frame) == update_count(header)
        {
            spots.known.insert(address.0, Spot::Header);
        }
    }
    Ok(())
}

/// Marks what a reading delivers.
fn mark_elements(
    drive: &mut AuxDrive<'_>,
    header: &[u8],
    spots: &mut Spots,
) -> Result<Reading, Failure> {
    let mut frame: Frame = [0; FRAME_LENGTH];
    let mut reader = match Reader::open(drive.geometry(), header) {
        Ok(reader) => reader,
        Err(refusal) => return Ok(Reading::Stopped(refusal)),
    };
    let mut delivered = 0;
    let mut cut = CutSession::of(header, Address(spots.last));
    // A damaged frame may be the end that is missing.
    let undamaged = drive.is_undamaged();
    loop {
        let (address, reply) = match reader.fetch() {
            Ok(ReadNext::Send(Command::Read(address))) => {
                (address, drive.read(address, &mut frame)?)
            }
            Ok(ReadNext::Send(Command::Locate(address))) => (address, drive.locate(address)?),
            Ok(ReadNext::Send(_) | ReadNext::End) => {
                return Ok(cut.map_or(whole(delivered, &frame), Reading::Cut))
            }
            Err(refusal) => return Ok(stopped(refusal, cut.filter(|_| undamaged))),
        };
        let spot = match reader.reply(reply, &frame) {
            Ok(Delivery::Nothing) => continue,
            Ok(Delivery::Block(_)) => Spot::Block,
            Ok(Delivery::Filemark) => Spot::Filemark,
            Ok(Delivery::End) => Spot::End,
            Err(refusal) => return Ok(stopped(refusal, cut.filter(|_| undamaged))),
        };
        match (&mut cut, spot) {
            (None, _) => {}
            (Some(session), Spot::End) => session.end(address),
            (Some(session), _) => session.take(address, spot == Spot::Filemark),
        }
        delivered += u64::from(spot != Spot::End);
        spots.known.insert(address.0, spot);
    }
}

/// How a reading stopped that was refused, in a session that was not closed if it
/// is one.
fn stopped(refusal: Refusal, cut: Option<CutSession>) -> Reading {
    match (refusal, cut) {
        (Refusal::NotFound, Some(session)) => Reading::Cut(session),
        _ => Reading::Stopped(refusal),
    }
}

/// How a reading came to its end that delivered so many elements before this
/// end of data.
fn whole(delivered: u64, end: &Frame) -> Reading {
    if delivered > u64::from(number_at(aux_of(end), lone_frame::NUMBER)) {
        Reading::GivenUp
    } else {
        Reading::Whole
    }
}

/// Marks the recording's elements beyond one that is missing too, where the
/// layer rightly delivers nothing: each frame is judged by itself.
fn mark_beyond(image: &mut Image, header: &[u8], spots: &mut Spots) -> Result<(), Failure> {
    let last = adr_model::Address(spots.last);
    let fields = <&Frame>::try_from(header).ok();
    let Some(fields) = fields.and_then(|header| fields_of(header, last)) else {
        return Ok(());
    };
    let ends_from = fields.ends_from();
    let mut frame: Frame = [0; FRAME_LENGTH];
    let mut next = 0;
    for (address, spot) in &mut spots.known {
        let read = image.aux(*address, frame.split_at_mut(BLOCK_LENGTH).1);
        if let Some(failure) = image.take_error() {
            return Err(failure);
        }
        let lone = LoneFrame::of(&frame).filter(|_| read);
        let of_recording = |lone: &LoneFrame| lone.pass == fields.pass && lone.last == last;
        // Where something was added, the end before that may still read.
        let earlier_end = |lone: &LoneFrame| lone.kind == Kind::Eod && *address < ends_from.0;
        // Where a tape was full, an element that was given up may still read.
        let given_up = |lone: &LoneFrame| {
            let is_end = lone.kind == Kind::Eod && *address == fields.eod.0;
            is_end && lone.number.checked_add(1) == Some(next)
        };
        // An element that was sent again is in force where it came first.
        let in_force = |lone: &LoneFrame| {
            let comes_next = lone.number >= next || given_up(lone);
            of_recording(lone) && !earlier_end(lone) && comes_next
        };
        let Some(lone) = lone.filter(in_force) else {
            continue;
        };
        *spot = match lone.kind {
            Kind::Data => Spot::Block,
            Kind::Marker => Spot::Filemark,
            Kind::Eod => Spot::End,
        };
        if lone.kind == Kind::Eod {
            return Ok(());
        }
        next = lone.number.saturating_add(1);
    }
    Ok(())
}
