//! Jobs judged by what is left of them.

use adr_model::frame::Kind;

use super::found::Found;
use super::missing::Missing;
use super::piece::{number_of, Piece};
use crate::image::Frames;
use crate::job::{Cut, Description};

/// What stands on a cartridge, in turn.
#[derive(Debug)]
pub enum Entry<'f> {
    /// A job of which something is left.
    Job(Job<'f>),
    /// Jobs of which nothing is left, from one number to another, and the
    /// elements that are missing there.
    Gone {
        first: u64,
        last: u64,
        elements: (u64, u64),
    },
}

/// A job of which something is left.
#[derive(Debug)]
pub struct Job<'f> {
    /// Its number, from 1 on.
    pub number: u64,
    /// What its first block tells.
    pub description: Option<Description>,
    /// Its blocks, each with the frames that bear its number.
    pub blocks: Vec<&'f [Found]>,
    /// What can be done with it.
    pub state: State,
    /// Whether the filemark behind it is missing.
    pub lacks_filemark: bool,
}

/// What can be done with a job.
#[derive(Debug)]
pub enum State {
    /// Its blocks are all there.
    Complete,
    /// Some are missing.
    Incomplete(Missing),
    /// The tape was full in it.
    Cut(Cut),
    /// It was not recorded by this tool.
    Foreign,
}

/// The jobs that the frames of a recording make, which are sorted.
pub fn entries<'f>(found: &'f [Found], frames: &Frames) -> Vec<Entry<'f>> {
    let groups = found.chunk_by(|one, other| one.filemarks == other.filemarks);
    let pieces: Vec<Piece<'f>> = groups
        .filter_map(|group| Piece::of(group, frames))
        .collect();
    let end = found.iter().find(|found| found.kind == Kind::Eod);
    let mut entries = Vec::new();
    let mut reached = Reached::default();
    let mut pieces = pieces.into_iter().peekable();
    while let Some(piece) = pieces.next() {
        let first = piece.first().or(piece.filemark);
        entries.extend(reached.gone_before(piece.filemarks, first.unwrap_or(0)));
        let extent = Extent {
            start: reached.start_of(&piece),
            end: end_of(&piece, pieces.peek(), end),
        };
        reached = Reached::behind(&piece);
        let ends_tape = end.is_some_and(|end| u64::from(end.filemarks) == piece.filemarks);
        entries.push(Entry::Job(extent.judge(piece, ends_tape)));
    }
    entries
        .extend(end.and_then(|end| reached.gone_before(end.filemarks.into(), end.number.into())));
    entries
}

/// How far a recording has been gone through.
#[derive(Default)]
struct Reached {
    /// The jobs before here.
    jobs: u64,
    /// The number behind the last element found before here.
    element: u64,
    /// Where the next job starts, if the filemark before it was found.
    start: Option<u64>,
}

impl Reached {
    fn behind(piece: &Piece<'_>) -> Reached {
        let number_behind = |last: u64| last.saturating_add(1);
        Reached {
            jobs: piece.filemarks.saturating_add(1),
            element: piece.filemark.max(piece.last()).map_or(0, number_behind),
            start: piece.filemark.map(number_behind),
        }
    }

    fn start_of(&self, piece: &Piece<'_>) -> Option<u64> {
        let start = self.start.filter(|_| self.jobs == piece.filemarks);
        start.or(piece.own_start())
    }

    /// The jobs between here and a frame of this number, with so many
    /// filemarks before it.
    fn gone_before<'f>(&self, filemarks: u64, number: u64) -> Option<Entry<'f>> {
        (self.jobs < filemarks).then(|| Entry::Gone {
            first: self.jobs.saturating_add(1),
            last: filemarks,
            elements: (self.element, number.saturating_sub(1)),
        })
    }
}

/// The number of a job's last block.
fn end_of(piece: &Piece<'_>, after: Option<&Piece<'_>>, end: Option<&Found>) -> Option<u64> {
    let behind = piece.filemarks.saturating_add(1);
    let next = after.filter(|after| after.filemarks == behind);
    let next = next.and_then(Piece::own_start);
    let next = next.or(end
        .filter(|end| u64::from(end.filemarks) == behind)
        .map(|end| u64::from(end.number)));
    let before_next = next.and_then(|next| next.checked_sub(2));
    let unmarked = end.filter(|end| u64::from(end.filemarks) == piece.filemarks);
    let unmarked = unmarked.and_then(|end| u64::from(end.number).checked_sub(1));
    // A block that was given up and still reads has the number of the end.
    let unmarked = unmarked.map(|last| piece.last().unwrap_or(last).max(last));
    let marked = piece.filemark.and(piece.own_end());
    marked.or(before_next).or(unmarked).or(piece.own_end())
}

/// The numbers of a job's first and last block, as far as they are known.
struct Extent {
    start: Option<u64>,
    end: Option<u64>,
}

impl Extent {
    fn judge<'f>(&self, piece: Piece<'f>, ends_tape: bool) -> Job<'f> {
        let described = self.start.is_some() && self.start == piece.first();
        let closed = self.end.is_some() && self.end == piece.last();
        let description = piece.description.filter(|_| described);
        let closing = piece.closing.filter(|_| closed);
        let length = closing.map(|closing| closing.length);
        let length = length.or(description.as_ref().and_then(|told| told.length));
        let within = |block: &&[Found]| {
            let number = number_of(block);
            self.start.is_none_or(|start| number >= Some(start))
                && self.end.is_none_or(|end| number <= Some(end))
        };
        let blocks: Vec<&[Found]> = piece.blocks.into_iter().filter(within).collect();
        let empty = piece.filemark.is_some() && self.start == piece.filemark;
        let foreign = (described || empty) && description.is_none() && closing.is_none();
        let numbers = blocks.iter().copied().filter_map(number_of);
        let missing = Missing::beside(numbers, self.start, self.end, length);
        let cut = piece.filemark.is_none() && ends_tape && closing.is_none();
        let data = u64::try_from(blocks.len()).unwrap_or(u64::MAX);
        let data = data.saturating_sub(u64::from(description.is_some()));
        Job {
            number: piece.filemarks.saturating_add(1),
            description,
            blocks,
            state: match missing {
                _ if foreign => State::Foreign,
                None if cut => State::Cut(Cut::behind(data, length)),
                None => State::Complete,
                Some(missing) => State::Incomplete(missing),
            },
            lacks_filemark: piece.filemark.is_none() && !ends_tape,
        }
    }
}
