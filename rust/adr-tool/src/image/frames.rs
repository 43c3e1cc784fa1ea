//! The frames of an image, each by itself: by its index, or where that is
//! damaged by the cells' own labels.

use std::fs::File;
use std::os::unix::fs::FileExt;
use std::path::Path;

use adr_model::frame::Frame;
use adr_tape::FRAME_LENGTH;

use super::content::Content;
use super::file::{self, Access};
use super::index::Place;
use super::label::Label;
use super::layout::{self, Root, WrongHead, CELL, PAGE, ROOTS};
use crate::checksum::checksum;
use crate::failure::Failure;

/// Where a frame was found.
#[derive(Clone, Copy, Debug, PartialEq, Eq)]
pub struct Origin {
    /// The cell that holds it.
    pub cell: u64,
    /// Its address, if the index or a label tells it. A checksum then proves
    /// that the frame is the one that was written.
    pub address: Option<u32>,
    /// The generation that its label tells.
    pub generation: u64,
}

/// The frames of an image.
#[derive(Debug)]
pub struct Frames {
    file: File,
    last: Option<u32>,
    source: Source,
}

#[derive(Debug)]
enum Source {
    /// The index in force.
    Index(Vec<(u32, Place)>),
    /// So many cells, and the generation in force if a root tells it.
    Cells(u64, Option<u64>),
}

impl Frames {
    /// Opens any file; only one of a later layout is refused.
    pub fn open(path: &Path) -> Result<Frames, Failure> {
        let (file, length) = file::open(path, Access::Read)?;
        let head = page_at(&file, 0).map(|page| layout::read_head(&page));
        let source = match Content::read(path, &file, length) {
            Ok((content, _)) => Source::Index(
                content
                    .index
                    .into_iter()
                    .filter_map(|(address, entry)| Some((address, entry.place?)))
                    .collect(),
            ),
            Err(failure) if matches!(head, Some(Err(WrongHead::Version(_)))) => {
                return Err(failure);
            }
            Err(_) => cells_of(&file, length),
        };
        let geometry = head.and_then(Result::ok);
        let last = geometry.and_then(|geometry| geometry.last().ok());
        Ok(Frames {
            file,
            last: last.map(|last| last.0),
            source,
        })
    }

    /// LAST, if the head tells it.
    pub fn last(&self) -> Option<u32> {
        self.last
    }

    /// Whether an index leads to the frames in force, and to no others.
    pub fn has_index(&self) -> bool {
        matches!(self.source, Source::Index(_))
    }

    /// The places where a frame may be.
    pub fn count(&self) -> u64 {
        match &self.source {
            Source::Index(places) => u64::try_from(places.len()).unwrap_or(u64::MAX),
            Source::Cells(count, _) => *count,
        }
    }

    /// Hands on every frame that is not known to be damaged, and the number
    /// of places that were looked at before. A place that cannot be read is
    /// one that holds nothing.
    pub fn each(&self, mut take: impl FnMut(u64, Option<(Origin, &Frame)>)) {
        let mut content = vec![0; CELL];
        match &self.source {
            Source::Index(places) => {
                for (turn, (address, place)) in (0..).zip(places) {
                    let cell = self.cell(place.cell, &mut content);
                    take(turn, indexed(*address, place, cell));
                }
            }
            Source::Cells(count, newest) => {
                for number in 0..*count {
                    let cell = self.cell(number, &mut content);
                    take(number, labelled(number, *newest, cell));
                }
            }
        }
    }

    /// Reads a frame again.
    pub fn read(&self, origin: &Origin) -> Option<Box<Frame>> {
        let mut frame = Box::new([0; FRAME_LENGTH]);
        let whole = self.cell(origin.cell, frame.as_mut_slice()).len() == FRAME_LENGTH;
        whole.then_some(frame)
    }

    /// As much of a cell as the file has.
    fn cell<'c>(&self, number: u64, content: &'c mut [u8]) -> &'c [u8] {
        let offset = layout::cell_offset(number);
        let length = offset.map_or(0, |offset| fill(&self.file, offset, content));
        content.get(..length).unwrap_or(&[])
    }
}

fn cells_of(file: &File, length: u64) -> Source {
    let root = ROOTS
        .into_iter()
        .filter_map(|offset| Root::read(&page_at(file, offset)?))
        .max_by_key(|root| root.generation);
    let there = layout::cells_within(length);
    // Cells in force lie below the one that the root names.
    let count = root.map_or(there, |root| root.cells.min(there));
    Source::Cells(count, root.map(|root| root.generation))
}

fn page_at(file: &File, offset: u64) -> Option<[u8; PAGE]> {
    let mut page = [0; PAGE];
    (fill(file, offset, &mut page) == PAGE).then_some(page)
}

/// Reads until the end of the file or of what can be read.
fn fill(file: &File, offset: u64, content: &mut [u8]) -> usize {
    let mut filled = 0;
    while let Some(rest) = content.get_mut(filled..).filter(|rest| !rest.is_empty()) {
        let behind = offset.saturating_add(u64::try_from(filled).unwrap_or(u64::MAX));
        match file.read_at(rest, behind) {
            Ok(count) if count > 0 => filled = filled.saturating_add(count),
            Err(error) if error.kind() == std::io::ErrorKind::Interrupted => {}
            _ => break,
        }
    }
    filled
}

fn frame_in(cell: &[u8]) -> Option<&Frame> {
    cell.first_chunk()
}

/// The frame that the index names, if it is whole.
fn indexed<'c>(address: u32, place: &Place, cell: &'c [u8]) -> Option<(Origin, &'c Frame)> {
    let frame = frame_in(cell)?;
    let origin = Origin {
        cell: place.cell,
        address: Some(address),
        generation: 0,
    };
    (checksum(frame) == place.sum).then_some((origin, frame))
}

/// The frame of a cell, unless its label tells that it is damaged, or that it
/// was written for a generation that did not come into force.
fn labelled(number: u64, newest: Option<u64>, cell: &[u8]) -> Option<(Origin, &Frame)> {
    let frame = frame_in(cell)?;
    let label = Label::read(cell);
    let ruled_out = label.is_some_and(|label| {
        label.sum != checksum(frame) || newest.is_some_and(|newest| label.generation > newest)
    });
    let origin = Origin {
        cell: number,
        address: label.map(|label| label.address),
        generation: label.map_or(0, |label| label.generation),
    };
    (!ruled_out).then_some((origin, frame))
}
