//! The choice of the newest header.

use crate::drive::Drive;
use crate::error::HeaderError;
use crate::ffi;
use crate::geometry::{header_addresses, Address, Geometry, FRAME_LENGTH};
use crate::refusal::Refusal;
use crate::reply::Sense;

/// The newer of two header frames, by update count. If one is not valid,
/// the other is the newer.
///
/// ```
/// use adr_tape::{newer, Geometry, Refusal};
///
/// let neither = [0; adr_tape::FRAME_LENGTH];
/// let chosen = newer(Geometry::beginning(3_001, 1), &neither, &neither);
/// assert_eq!(chosen, Err(Refusal::Header));
/// ```
///
/// # Errors
/// [`Refusal::Length`], [`Refusal::Geometry`], or [`Refusal::Header`] where
/// neither is valid or both have the same count and unlike data.
pub fn newer<'a>(
    geometry: Geometry,
    first: &'a [u8],
    second: &'a [u8],
) -> Result<&'a [u8], Refusal> {
    let choice = ffi::choose(geometry.into(), first, second);
    Refusal::check(choice.number)?;
    Ok(if choice.which == 2 { second } else { first })
}

/// Reads the ten header copies and gives the newest, or none if no copy is
/// valid.
///
/// # Errors
/// The drive's, or a [`Refusal`]: the geometry is no cartridge's, the newest
/// copies have the same update count and unlike data, or a reply is unlawful.
pub fn newest_header<D: Drive>(
    drive: &mut D,
    geometry: Geometry,
) -> Result<Option<Vec<u8>>, HeaderError<D::Error>> {
    geometry.last()?;
    let mut newest: Option<Newest> = None;
    let mut frame = vec![0; FRAME_LENGTH];
    for address in header_addresses() {
        if read_at(drive, address, &mut frame)? && is_valid(geometry, &frame) {
            newest = Some(match newest {
                None => Newest::only(&frame),
                Some(newest) => newest.or_newer(geometry, &frame)?,
            });
        }
    }
    match newest {
        Some(newest) if newest.disputed => Err(Refusal::Header.into()),
        newest => Ok(newest.map(|newest| newest.frame)),
    }
}

/// The newest copy so far, and whether another of its count differs from it.
struct Newest {
    frame: Vec<u8>,
    disputed: bool,
}

impl Newest {
    fn only(frame: &[u8]) -> Newest {
        Newest {
            frame: frame.to_vec(),
            disputed: false,
        }
    }

    fn or_newer(self, geometry: Geometry, other: &[u8]) -> Result<Newest, Refusal> {
        match newer(geometry, &self.frame, other) {
            Ok(chosen) if std::ptr::eq(chosen, other) => Ok(Newest::only(other)),
            Ok(_) => Ok(self),
            // Both are valid, so they are of the same count and unlike.
            Err(Refusal::Header) => Ok(Newest {
                disputed: true,
                ..self
            }),
            Err(refusal) => Err(refusal),
        }
    }
}

/// A header chosen against itself is refused only if it is not valid.
fn is_valid(geometry: Geometry, frame: &[u8]) -> bool {
    newer(geometry, frame, frame).is_ok()
}

/// Reads one address; whether a frame came.
fn read_at<D: Drive>(
    drive: &mut D,
    address: Address,
    frame: &mut [u8],
) -> Result<bool, HeaderError<D::Error>> {
    loop {
        let reply = drive.locate(address).map_err(HeaderError::Drive)?;
        match reply.sense {
            Sense::GOOD => break,
            sense if sense.is_busy() => {}
            _ => return Err(Refusal::Reply.into()),
        }
    }
    loop {
        let reply = drive.read(address, frame).map_err(HeaderError::Drive)?;
        match reply.sense {
            sense if sense.brings_frame() => return Ok(true),
            sense if sense.is_busy() => {}
            Sense::UNREADABLE | Sense::BLANK | Sense::END_OF_TAPE => return Ok(false),
            _ => return Err(Refusal::Reply.into()),
        }
    }
}
