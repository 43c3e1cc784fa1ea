//! The simulated drive as a host's, with elements to record.
#![allow(dead_code)]

use std::convert::Infallible;
use std::ops::ControlFlow;

use adr_model::check::content::block;
use adr_model::drive;
use adr_model::random::Random;
use adr_tape::{
    newest_header, read_all, Address, Drive, Element, Full, Geometry, ReadError, Reply, Sense,
    Summary, FRAME_LENGTH,
};

/// The simulated drive as a host's.
pub struct Simulated(pub drive::Drive);

fn reply_of(reply: &adr_model::Reply) -> Reply {
    Reply {
        sense: Sense::new(reply.sense.key, reply.sense.asc, reply.sense.ascq),
        buffered: reply.buffered,
        position: Address(reply.position.0),
        skip: reply.skip,
    }
}

fn at(address: Address) -> adr_model::Address {
    adr_model::Address(address.0)
}

impl Drive for Simulated {
    type Error = Infallible;

    fn locate(&mut self, address: Address) -> Result<Reply, Infallible> {
        let command = adr_model::Command::Locate(at(address));
        Ok(reply_of(&self.0.record(command, &[0; FRAME_LENGTH])))
    }

    fn write(&mut self, address: Address, frame: &[u8]) -> Result<Reply, Infallible> {
        let command = adr_model::Command::Write(at(address));
        let frame = frame.try_into().expect("a whole frame");
        Ok(reply_of(&self.0.record(command, frame)))
    }

    fn read(&mut self, address: Address, frame: &mut [u8]) -> Result<Reply, Infallible> {
        let command = adr_model::Command::Read(at(address));
        let frame = frame.try_into().expect("a whole frame");
        Ok(reply_of(&self.0.read(command, frame)))
    }

    fn read_position(&mut self) -> Result<Reply, Infallible> {
        let command = adr_model::Command::ReadPosition;
        Ok(reply_of(&self.0.record(command, &[0; FRAME_LENGTH])))
    }
}

/// Blocks and filemarks.
pub fn elements(random: &mut Random) -> Vec<Element<'static>> {
    let count = random.below(60);
    (0..count)
        .map(|_| match random.below(5) {
            0 => Element::Filemark,
            _ => Element::from(block(u16::from(random.byte()))),
        })
        .collect()
}

/// The elements as a source.
pub fn sent<'e>(
    elements: &'e [Element<'static>],
) -> impl Iterator<Item = Result<Element<'static>, Infallible>> + 'e {
    elements.iter().cloned().map(Ok)
}

/// Reads everything.
pub fn read_back<D: Drive>(
    drive: &mut D,
    geometry: Geometry,
    header: &[u8],
) -> Result<(Vec<Element<'static>>, Summary), ReadError<D::Error, Infallible>> {
    let mut delivered = Vec::new();
    let take = |element: Element<'_>| {
        delivered.push(element.into_owned());
        Ok(ControlFlow::Continue(()))
    };
    let summary = read_all(drive, geometry, header, take, |_| {})?;
    Ok((delivered, summary))
}

/// The newest header of a cartridge that has one.
#[track_caller]
pub fn newest<D: Drive<Error = Infallible>>(drive: &mut D, geometry: Geometry) -> Vec<u8> {
    let header = newest_header(drive, geometry).expect("the headers agree");
    header.expect("a header")
}

/// Reads everything on the newest header.
#[track_caller]
pub fn read_newest<D: Drive<Error = Infallible>>(
    drive: &mut D,
    geometry: Geometry,
) -> Vec<Element<'static>> {
    let header = newest(drive, geometry);
    let (delivered, _) = read_back(drive, geometry, &header).expect("it can be read");
    delivered
}

/// Reads a tape that was full: what is on it of these elements comes back, and at
/// most the one that follows. How many come.
#[track_caller]
pub fn read_back_full<D: Drive<Error = Infallible>>(
    drive: &mut D,
    geometry: Geometry,
    elements: &[Element<'static>],
    full: &Full,
) -> usize {
    let on_tape = usize::try_from(full.on_tape).expect("few");
    let delivered = read_newest(drive, geometry);
    assert!(elements.starts_with(&delivered));
    assert!((on_tape..=on_tape + 1).contains(&delivered.len()));
    // What follows is handed back, as far as it was taken.
    assert!(elements[on_tape..].starts_with(&full.not_on_tape));
    delivered.len()
}
