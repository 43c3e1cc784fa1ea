//! Frames found on a cartridge, and the recording that they belong to.

use std::cmp::Reverse;
use std::collections::BTreeMap;

use adr_model::frame::{data_of, number_at, Frame, Kind};
use adr_model::header::fields_of;
use adr_model::Address;

use crate::image::Origin;
use crate::lone_frame::LoneFrame;

/// Where a header's data tell LAST.
const HEADER_LAST: usize = 28;

/// A frame that is as the format has it.
#[derive(Clone, Copy, Debug, PartialEq, Eq)]
pub struct Found {
    /// What it stands for.
    pub kind: Kind,
    /// Its sequence number.
    pub number: u32,
    /// Filemarks before it.
    pub filemarks: u32,
    /// Where it was found.
    pub origin: Origin,
    pass: u16,
    last: Address,
}

/// A recording on a cartridge.
#[derive(Clone, Copy, Debug, PartialEq, Eq)]
pub struct Recording {
    /// Its write pass.
    pub pass: u16,
    last: Address,
    /// Where its end of data stands, if a header tells it.
    eod: Option<Address>,
    /// Ends below here are those that it had before something was added.
    ends_from: Address,
}

/// What a header tells. Its update count stands first: it orders headers.
#[derive(Clone, Copy, Debug, PartialEq, Eq, PartialOrd, Ord)]
struct Header {
    update_count: u32,
    pass: u16,
    last: Address,
    eod: Address,
    ends_from: Address,
}

/// Everything that was found.
#[derive(Debug, Default)]
pub struct Finds {
    /// Headers, with how many copies tell the same.
    headers: BTreeMap<Header, u64>,
    frames: Vec<Found>,
}

impl Finds {
    /// Takes in a frame of a cartridge that ends at `last`, if that is known.
    pub fn take(&mut self, origin: Origin, frame: &Frame, last: Option<u32>) {
        let of_cartridge = |told: Address| last.is_none_or(|last| told.0 == last);
        if let Some(header) = header(origin, frame).filter(|header| of_cartridge(header.last)) {
            *self.headers.entry(header).or_default() += 1;
        }
        let found = found(origin, frame);
        self.frames
            .extend(found.filter(|found| of_cartridge(found.last)));
    }

    /// The recording of the newest header, of which most copies tell the
    /// same. Among frames that may not be in force, only the header of a
    /// recording that was closed counts.
    pub fn by_header(&self, in_force: bool) -> Option<Recording> {
        let headers = self.headers.iter();
        let counting = headers.filter(|(header, _)| in_force || header.eod != Address(0));
        let newest = counting.max_by_key(|(header, copies)| (header.update_count, **copies));
        newest.map(|(header, _)| Recording {
            pass: header.pass,
            last: header.last,
            eod: Some(header.eod).filter(|eod| *eod != Address(0)),
            ends_from: header.ends_from,
        })
    }

    /// The newest recording by its frames, one with an end of data before
    /// others.
    pub fn by_frames(&self) -> Option<Recording> {
        let key = |found: &&Found| (found.kind == Kind::Eod, found.pass);
        let newest = self.frames.iter().max_by_key(key)?;
        Some(Recording {
            pass: newest.pass,
            last: newest.last,
            eod: None,
            ends_from: Address(0),
        })
    }

    /// Whether there are frames of a later recording than this one.
    pub fn has_later(&self, recording: &Recording) -> bool {
        let later = |found: &Found| found.pass > recording.pass;
        self.frames.iter().any(later)
    }

    /// The frames of a recording, job by job, number by number; those of one
    /// number in the order of their addresses, as a reading meets them.
    pub fn of(self, recording: &Recording) -> Vec<Found> {
        let mut frames = self.frames;
        frames.retain(|found| recording.has(found));
        let end = end_of(&frames, recording);
        let counts = end.map(|end| (end.number, end.filemarks));
        frames.retain(|found| match (found.kind, end) {
            (Kind::Eod, _) => Some((found.number, found.filemarks)) == counts,
            (_, Some(end)) => recording.is_before(found, &end) && found.filemarks <= end.filemarks,
            (_, None) => true,
        });
        frames.sort_unstable_by_key(order);
        frames
    }
}

/// The end of data: at its address, or else the one behind most elements, for
/// each time that something was added the recording got a later one. Where no
/// header names its address, one that elements follow is an earlier one.
fn end_of(frames: &[Found], recording: &Recording) -> Option<Found> {
    let (ends, elements): (Vec<&Found>, Vec<&Found>) =
        frames.iter().partition(|found| found.kind == Kind::Eod);
    let last = elements.iter().map(|found| found.number).max();
    let counts = |found: &&Found| recording.eod.is_some() || Some(found.number) > last;
    let ends = ends.into_iter().filter(counts);
    let elsewhere = |found: &&Found| found.origin.address != recording.eod.map(|eod| eod.0);
    ends.min_by_key(|found| (elsewhere(found), Reverse(found.number), order(found)))
        .copied()
}

fn order(found: &Found) -> impl Ord {
    let Origin {
        cell,
        address,
        generation,
    } = found.origin;
    let address = address.unwrap_or(u32::MAX);
    let newest_first = Reverse(generation);
    (found.filemarks, found.number, address, newest_first, cell)
}

impl Recording {
    /// Whether an element comes before this end. Where a tape was full, an
    /// element that was given up may still read, and has the number of the end.
    fn is_before(&self, found: &Found, end: &Found) -> bool {
        let named = self.eod.is_some() && end.origin.address.map(Address) == self.eod;
        found.number < end.number || (named && found.number == end.number)
    }

    fn has(&self, found: &Found) -> bool {
        let end = self.eod.unwrap_or(self.last);
        let address = found.origin.address.map(Address);
        let stands = address.is_none_or(|at| at.is_user_frame(self.last) && at <= end);
        let is_end = found.kind == Kind::Eod;
        let earlier_end = is_end && address.is_some_and(|at| at < self.ends_from);
        found.pass == self.pass && found.last == self.last && stands && !earlier_end
    }
}

/// What a frame tells that is a header.
fn header(origin: Origin, frame: &Frame) -> Option<Header> {
    let fields = fields_of(frame, Address(number_at(data_of(frame), HEADER_LAST)))?;
    let header = Header {
        update_count: fields.update_count,
        pass: fields.pass,
        last: fields.last,
        eod: fields.eod,
        ends_from: fields.ends_from(),
    };
    let address = origin.address.map(Address);
    address
        .is_none_or(Address::is_header_copy)
        .then_some(header)
}

/// The frame, if it is an element's or EOD's.
fn found(origin: Origin, frame: &Frame) -> Option<Found> {
    let LoneFrame {
        kind,
        number,
        filemarks,
        pass,
        last,
    } = LoneFrame::of(frame)?;
    // Each filemark before a frame has a number of its own.
    (filemarks <= number).then_some(Found {
        kind,
        number,
        filemarks,
        origin,
        pass,
        last,
    })
}
