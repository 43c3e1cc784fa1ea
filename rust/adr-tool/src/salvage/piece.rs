//! What is left of a job: its frames, and what they tell of where it starts
//! and ends.

use adr_model::frame::{data_of, Kind};

use super::found::Found;
use crate::image::Frames;
use crate::job::{Closing, Description};
use crate::size::blocks_for;

/// The frames with one count of filemarks before them.
#[derive(Debug)]
pub struct Piece<'f> {
    /// The filemarks before this job.
    pub filemarks: u64,
    /// Its blocks, each with the frames that bear its number.
    pub blocks: Vec<&'f [Found]>,
    /// The number of the filemark at its end.
    pub filemark: Option<u64>,
    /// What the first of these blocks describes.
    pub description: Option<Description>,
    /// What the last of these blocks closes.
    pub closing: Option<Closing>,
}

impl<'f> Piece<'f> {
    /// The piece that these frames make, which are sorted by number.
    pub fn of(found: &'f [Found], frames: &Frames) -> Option<Piece<'f>> {
        let of_kind = |kind| {
            let numbers = found.chunk_by(|one, other| one.number == other.number);
            numbers.filter(move |same| same.first().is_some_and(|first| first.kind == kind))
        };
        let filemark = of_kind(Kind::Marker).next().and_then(number_of);
        let behind = |block: &&[Found]| filemark.is_some_and(|end| number_of(block) > Some(end));
        let blocks = of_kind(Kind::Data).filter(|block| !behind(block));
        let blocks: Vec<&[Found]> = blocks.collect();
        if blocks.is_empty() && filemark.is_none() {
            return None;
        }
        Some(Piece {
            filemarks: u64::from(found.first()?.filemarks),
            description: read(blocks.first().copied(), frames, Description::read),
            closing: read(blocks.last().copied(), frames, Closing::read),
            blocks,
            filemark,
        })
    }

    /// The number of the first block found.
    pub fn first(&self) -> Option<u64> {
        self.blocks.first().copied().and_then(number_of)
    }

    /// The number of the last block found.
    pub fn last(&self) -> Option<u64> {
        self.blocks.last().copied().and_then(number_of)
    }

    /// The number of the job's first block, as this piece alone tells it.
    pub fn own_start(&self) -> Option<u64> {
        let at_beginning = (self.filemarks == 0).then_some(0);
        let described = self.description.as_ref().and(self.first());
        let counted = self.closing.zip(self.last()).and_then(|(closing, last)| {
            let before = blocks_for(closing.length).saturating_add(1);
            last.checked_sub(before)
        });
        at_beginning.or(described).or(counted)
    }

    /// The number of the job's last block, as this piece alone tells it.
    pub fn own_end(&self) -> Option<u64> {
        let marked = self.filemark.and_then(|filemark| filemark.checked_sub(1));
        let closed = self.closing.and(self.last());
        let counted = self.counted_end();
        marked.or(closed).or(counted)
    }

    fn counted_end(&self) -> Option<u64> {
        let length = self.description.as_ref()?.length?;
        let end = self
            .first()?
            .checked_add(blocks_for(length))?
            .checked_add(1);
        end.filter(|end| self.last() <= Some(*end))
    }
}

/// The number of a block.
pub fn number_of(same: &[Found]) -> Option<u64> {
    same.first().map(|found| u64::from(found.number))
}

/// What a block tells, by the first of its frames that tells anything.
fn read<T>(
    block: Option<&[Found]>,
    frames: &Frames,
    tells: impl Fn(&[u8]) -> Option<T>,
) -> Option<T> {
    block?.iter().find_map(|found| {
        let frame = frames.read(&found.origin)?;
        tells(data_of(&frame))
    })
}
