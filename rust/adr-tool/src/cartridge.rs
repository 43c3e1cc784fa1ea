//! An image in the simulated drive.

mod fields;
mod reading;

use std::path::Path;

use adr_model::drive::Drive as SimulatedDrive;
use adr_model::frame::{aux_of, number_at, Frame};
use adr_tape::{
    newest_header, record_with, Address, Element, Geometry, HeaderError, RecordError, Recorder,
    Refusal, Reply, Sense, Setup, Summary, FRAME_LENGTH,
};

use crate::failure::Failure;
use crate::faults::hostility;
use crate::image::{Access, Image};
use crate::interruption;
use crate::lone_frame;
use crate::mains::Mains;
use crate::room::Room;

pub use reading::{End, ReadJobs};

/// Where an EOD address stands in a header.
const EOD_ADDRESS: std::ops::Range<usize> = 32..36;

/// What helps where the header does not name the end that was read to. The
/// newest header was taken, so reading again gives the same.
const IF_END_ELSEWHERE: &str =
    "nothing can be added here: restore what can be read, and use another cartridge, \
     or record afresh with '--overwrite'";

/// What helps where the end of data found no place.
const IF_FULL: &str = "a longer '--tail' keeps more room for the end of data";

/// What helps where a cartridge cannot be read.
const IF_UNREADABLE: &str = "use a copy of the file, or 'adr salvage' for what is left";

/// The address of the end of data that a header tells.
fn end_of_data(header: &[u8]) -> Address {
    let end = header
        .get(EOD_ADDRESS)
        .and_then(|part| part.try_into().ok());
    Address(u32::from_be_bytes(end.unwrap_or([0; 4])))
}

/// Refuses sizes that no recording takes, before there is one.
pub fn require_sizes(geometry: Geometry, setup: Setup) -> Result<(), Failure> {
    match Recorder::open(geometry, setup, None) {
        Err(Refusal::Capacity) => Err(Failure::usage(Refusal::Capacity)),
        _ => Ok(()),
    }
}

/// A write error that the drive reported.
#[derive(Clone, Copy, Debug, PartialEq, Eq)]
pub struct WriteError {
    /// The address that failed.
    pub position: Address,
    /// How far the drive advised to skip.
    pub skip: u32,
}

impl WriteError {
    /// Where an element that failed is sent again.
    pub fn target(self) -> Address {
        let position = adr_model::Address(self.position.0);
        Address(position.plus(self.skip.max(1)).out_of_gap().0)
    }
}

/// What came of a recording.
pub struct Recorded {
    /// Counts of it; none where the mains went.
    pub summary: Summary,
    /// How many of its elements are on tape, if the tape was full before all were.
    pub full: Option<u64>,
    /// What became of its frames.
    pub frames: Frames,
}

/// The frames that a drive took in a session.
#[derive(Clone, Copy, Debug, PartialEq, Eq)]
pub struct Frames {
    /// Those that reached the tape.
    pub on_tape: u64,
    /// Those that the drive still held when the mains went, if they did.
    pub lost: Option<u64>,
}

/// A cartridge in the drive.
pub struct Cartridge {
    drive: SimulatedDrive<Mains>,
    /// The frames of a session behind which the mains go, if they do.
    cut_after: Option<u64>,
    geometry: Geometry,
    write_errors: Vec<WriteError>,
    /// The sequence number in the frame that was read last.
    latest_number: u32,
}

impl Cartridge {
    /// Loads an image into a drive that buffers `depth` frames, with faults
    /// if there is a seed.
    pub fn load(
        path: &Path,
        access: Access,
        depth: u32,
        seed: Option<u64>,
    ) -> Result<Cartridge, Failure> {
        let image = Image::open(path, access)?;
        let geometry = image.geometry();
        let depth = usize::try_from(depth).unwrap_or(usize::MAX);
        let mains = Mains::new(image);
        Ok(Cartridge {
            drive: SimulatedDrive::new(mains, depth, hostility(seed), seed.unwrap_or(0)),
            cut_after: None,
            geometry,
            write_errors: Vec::new(),
            latest_number: 0,
        })
    }

    /// Lets the mains go behind so many frames of each session.
    pub fn cut_after(&mut self, frames: Option<u64>) {
        self.cut_after = frames;
    }

    /// The image.
    pub fn image(&self) -> &Image {
        self.drive.tape().image()
    }

    /// The image, to be read from beside the drive.
    pub fn image_mut(&mut self) -> &mut Image {
        self.drive.tape_mut().image_mut()
    }

    /// The write errors reported so far.
    pub fn write_errors(&self) -> &[WriteError] {
        &self.write_errors
    }

    /// The newest header, none where no copy is valid.
    pub fn header(&mut self) -> Result<Option<Vec<u8>>, Failure> {
        let geometry = self.geometry;
        let header = newest_header(self, geometry).map_err(|error| match error {
            HeaderError::Refused(refusal) => self.refused("no header was found", refusal),
            HeaderError::Drive(failure) => failure,
        })?;
        if header.is_none() {
            self.image().require_blank_headers()?;
        }
        Ok(header)
    }

    /// The newest header, none where nothing was recorded. A cartridge that
    /// holds frames but no header is refused, with what is to be done.
    fn header_of_frames(&mut self, remedy: &str) -> Result<Option<Vec<u8>>, Failure> {
        let header = self.header()?;
        if header.is_none() && self.holds_frames() {
            return Err(Failure::new(format!(
                "{}: the cartridge holds frames but no header; nothing was changed: {remedy}",
                self.image().path().display()
            )));
        }
        Ok(header)
    }

    /// The header that a recording opens on. Only on the newest of all, or on
    /// none where nothing was recorded, is a recording's write pass a new
    /// one; so every copy must be whole.
    fn header_for_recording(&mut self) -> Result<Option<Vec<u8>>, Failure> {
        let header = self.header_of_frames("'adr format --overwrite' makes an empty one")?;
        self.image().require_whole_headers()?;
        Ok(header)
    }

    /// The header of a recording that can be added to. Only the newest of all
    /// tells where it ends; so every copy must be whole.
    pub fn header_for_appending(&mut self) -> Result<Vec<u8>, Failure> {
        let header = self.header_of_frames(IF_UNREADABLE)?;
        self.image().require_whole_headers()?;
        let cannot = |why: &str| {
            let path = self.image().path().display();
            Failure::new(format!("{path}: {why}"))
        };
        let header = header.ok_or_else(|| {
            cannot("the cartridge holds no recording to add to: record without '--append'")
        })?;
        // The layer would refuse it too, but only when all was read.
        if end_of_data(&header) == Address(0) {
            return Err(cannot(
                "the last recording was not closed, and nothing can be added behind it; \
                 nothing was changed: restore what can be read, and use another cartridge, \
                 or record afresh with '--overwrite'; 'adr list' tells what stands",
            ));
        }
        Ok(header)
    }

    /// How much the cartridge holds, and how much of that is free, with so many
    /// frames kept for the end of data.
    pub fn room(&mut self, tail: u32) -> Result<Room, Failure> {
        let end = self.header()?.as_deref().map(end_of_data);
        Room::new(self.geometry, end, tail).map_err(Failure::new)
    }

    /// Whether anything was ever recorded.
    pub fn holds_frames(&self) -> bool {
        self.image().known().any(|(_, reads, _)| reads)
    }

    /// Records elements from the beginning, up to where the tape is full. It is
    /// to be put in force.
    pub fn record(
        &mut self,
        setup: Setup,
        elements: impl Iterator<Item = Result<Element<'static>, Failure>>,
        progress: impl FnMut(&Summary),
    ) -> Result<Recorded, Failure> {
        let header = self.header_for_recording()?;
        let opened = Recorder::open(self.geometry, setup, header.as_deref());
        self.record_with(opened, elements, progress)
    }

    /// Records elements behind what was read, to be put in force with it. A job
    /// there that has no filemark gets one first: it would go on with the new
    /// blocks.
    pub fn append(
        &mut self,
        end: &End,
        setup: Setup,
        elements: impl Iterator<Item = Result<Element<'static>, Failure>>,
        progress: impl FnMut(&Summary),
    ) -> Result<Recorded, Failure> {
        let opened = Recorder::open_at_end(end.reader(), setup);
        let filemark = (!end.is_closed()).then_some(Ok(Element::Filemark));
        let all = filemark.into_iter().chain(elements);
        let recorded = self.record_with(opened, all, progress)?;
        let of_elements = |on_tape: u64| on_tape.saturating_sub(u64::from(!end.is_closed()));
        Ok(Recorded {
            full: recorded.full.map(of_elements),
            ..recorded
        })
    }

    fn record_with(
        &mut self,
        opened: Result<Recorder, Refusal>,
        elements: impl Iterator<Item = Result<Element<'static>, Failure>>,
        progress: impl FnMut(&Summary),
    ) -> Result<Recorded, Failure> {
        self.image_mut().give_back_leavings();
        let cut_after = self.cut_after;
        self.drive.tape_mut().cut_after(cut_after);
        let opened = opened.map_err(RecordError::from);
        let recorded = opened.and_then(|recorder| record_with(self, recorder, elements, progress));
        let (summary, full) = match recorded {
            Ok(summary) => (summary, None),
            Err(RecordError::Full(full)) => (full.summary, Some(full.on_tape)),
            Err(RecordError::Drive(_)) if self.drive.tape().are_gone() => {
                (Summary::default(), None)
            }
            Err(error) => return Err(self.unrecorded(error)),
        };
        Ok(Recorded {
            summary,
            full,
            frames: self.frames(),
        })
    }

    /// What became of the frames of the present session.
    fn frames(&self) -> Frames {
        let mains = self.drive.tape();
        let held = u64::try_from(self.drive.buffered()).unwrap_or(u64::MAX);
        Frames {
            on_tape: mains.written(),
            lost: mains.are_gone().then_some(held),
        }
    }

    /// Why nothing was recorded.
    fn unrecorded(&self, error: RecordError<Failure, Failure>) -> Failure {
        let stopped = |refusal| self.refused("recording stopped", refusal);
        let failure = match error {
            RecordError::Refused(Refusal::Capacity) => Failure::usage(Refusal::Capacity),
            RecordError::Refused(refusal @ Refusal::EndElsewhere) => {
                stopped(refusal).with(IF_END_ELSEWHERE)
            }
            RecordError::Refused(refusal @ Refusal::TapeFull) => stopped(refusal).with(IF_FULL),
            RecordError::Refused(refusal) => stopped(refusal),
            RecordError::Drive(failure) | RecordError::Source(failure) => failure,
            RecordError::Full(_) => stopped(Refusal::TapeFull),
        };
        failure.unrecorded()
    }

    /// Puts what was recorded in force. A recording that is not is given up with
    /// the cartridge.
    pub fn put_in_force(&mut self) -> Result<(), Failure> {
        interruption::check().map_err(Failure::unrecorded)?;
        self.image_mut().commit()
    }

    fn refused(&self, what: &str, refusal: Refusal) -> Failure {
        let path = self.image().path().display();
        Failure::new(format!("{path}: {what}: {refusal}{}", self.damage()))
    }

    /// What was found damaged, for the end of a message.
    fn damage(&self) -> String {
        match self.image().damaged().next() {
            None => String::new(),
            Some(address) => format!("; the image is damaged at address {address}"),
        }
    }

    /// The reply, unless the mains went or the image failed meanwhile.
    fn checked(&mut self, reply: adr_model::Reply) -> Result<Reply, Failure> {
        if self.drive.tape().are_gone() {
            // If the image failed too, it is told so when it is put in force.
            return Err(Failure::new("the mains are gone"));
        }
        match self.image_mut().take_error() {
            Some(failure) => Err(failure),
            None => Ok(of_model(reply)),
        }
    }

    fn send(&mut self, command: adr_model::Command, frame: &Frame) -> Result<Reply, Failure> {
        let reply = self.drive.record(command, frame);
        self.checked(reply)
    }
}

static NO_FRAME: Frame = [0; FRAME_LENGTH];

impl adr_tape::Drive for Cartridge {
    type Error = Failure;

    fn locate(&mut self, address: Address) -> Result<Reply, Failure> {
        let command = adr_model::Command::Locate(adr_model::Address(address.0));
        self.send(command, &NO_FRAME)
    }

    fn write(&mut self, address: Address, frame: &[u8]) -> Result<Reply, Failure> {
        let command = adr_model::Command::Write(adr_model::Address(address.0));
        let frame = <&Frame>::try_from(frame).unwrap_or(&NO_FRAME);
        let reply = self.send(command, frame)?;
        self.note(reply);
        Ok(reply)
    }

    fn read(&mut self, address: Address, frame: &mut [u8]) -> Result<Reply, Failure> {
        let command = adr_model::Command::Read(adr_model::Address(address.0));
        let Ok(frame) = <&mut Frame>::try_from(frame) else {
            return Err(Failure::new("a frame of the wrong length was lent"));
        };
        let reply = self.drive.read(command, frame);
        let reply = self.checked(reply)?;
        if reply.sense.brings_frame() {
            self.latest_number = number_at(aux_of(frame), lone_frame::NUMBER);
        }
        Ok(reply)
    }

    fn read_position(&mut self) -> Result<Reply, Failure> {
        let reply = self.send(adr_model::Command::ReadPosition, &NO_FRAME)?;
        self.note(reply);
        Ok(reply)
    }
}

impl Cartridge {
    fn note(&mut self, reply: Reply) {
        if reply.sense == Sense::WRITE_ERROR {
            self.write_errors.push(WriteError {
                position: reply.position,
                skip: reply.skip,
            });
        }
    }
}

fn of_model(reply: adr_model::Reply) -> Reply {
    Reply {
        sense: Sense::new(reply.sense.key, reply.sense.asc, reply.sense.ascq),
        buffered: reply.buffered,
        position: Address(reply.position.0),
        skip: reply.skip,
    }
}
