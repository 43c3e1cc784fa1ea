//! The shelf sheet: a header line and a line for each job, of a dump of the AUX
//! fields that a reading delivered and of EOD.
//!
//! A sheet is told from its whole dump: first what was delivered and how that
//! ends, then the runs that filemarks part, then the lines.

pub mod dumps;
pub mod fault;
mod fields;
mod lines;
pub mod random_dumps;

use std::iter::{once, repeat};

use fault::SheetFault;
use fields::{delivered, Delivered, Ending};
use lines::{asterisks, header_line, line_of, Job};

use crate::frame::Kind;

/// The last job that has a line.
pub const LAST_JOB: u32 = 99_999;

/// Where a sheet stands between two fields, unless it has ended.
#[derive(Clone, Copy, Debug, PartialEq, Eq)]
pub struct SheetState {
    /// The open job.
    pub job: u32,
    /// The number of its first element, be it delivered yet or not.
    pub first: u64,
    /// The number that comes next.
    pub next: u64,
}

impl SheetState {
    /// At the beginning of a dump.
    pub const NEW: SheetState = SheetState {
        job: 1,
        first: 0,
        next: 0,
    };
}

/// The sheet of a dump.
#[must_use]
pub fn sheet_of(dump: &[u8]) -> String {
    sheet_with(dump, SheetFault::None)
}

/// The sheet of a dump, with a planted fault.
#[must_use]
pub fn sheet_with(dump: &[u8], fault: SheetFault) -> String {
    let mut sheet = header_line(fault);
    sheet += &rest_with(SheetState::NEW, dump, fault);
    if fault == SheetFault::LineFeedMissing {
        sheet.pop();
    }
    sheet
}

/// What a sheet that stands here goes on with, if this is the rest of its dump.
#[must_use]
pub fn rest_of_sheet(state: SheetState, rest: &[u8]) -> String {
    rest_with(state, rest, SheetFault::None)
}

/// What [`rest_of_sheet`] gives, with a planted fault.
#[must_use]
pub fn rest_with(state: SheetState, rest: &[u8], fault: SheetFault) -> String {
    let (mut text, ending) = lines_of(state, rest, fault);
    let noticed = ending == Ending::BrokenOff || fault != SheetFault::CutUnnoticed;
    if ending != Ending::Eod && noticed {
        text += &asterisks(fault);
    }
    text
}

/// What a sheet that stands here has gone on with behind these fields, if more
/// may follow.
#[must_use]
pub fn printed_behind(state: SheetState, fields: &[u8]) -> String {
    let (mut text, ending) = lines_of(state, fields, SheetFault::None);
    if ending == Ending::BrokenOff {
        text += &asterisks(SheetFault::None);
    }
    text
}

/// The lines of the jobs, and how they end.
fn lines_of(state: SheetState, rest: &[u8], fault: SheetFault) -> (String, Ending) {
    let delivered = delivered(rest, state.next, fault);
    let mut jobs = jobs_of(state, &delivered, fault);
    let all = jobs.len();
    jobs.retain(|job| has_line(job, fault));
    let lines = jobs.iter().map(|job| line_of(job, fault)).collect();
    let above = jobs.len() < all;
    let behind = fault == SheetFault::AsterisksBehindLastJob
        && jobs
            .last()
            .is_some_and(|job| job.closed && job.number == u64::from(LAST_JOB));
    if above || behind {
        (lines, Ending::BrokenOff)
    } else {
        (lines, delivered.ending)
    }
}

fn has_line(job: &Job, fault: SheetFault) -> bool {
    let last = u64::from(LAST_JOB);
    match fault {
        SheetFault::LastJobNotCompared => true,
        SheetFault::LastJobNotComparedAtEod => job.number <= last || !job.closed,
        SheetFault::AsterisksAtLastJob => job.number < last,
        _ => job.number <= last,
    }
}

/// Elements up to a filemark, or up to where the deliveries end.
struct Run {
    first: u64,
    blocks: u64,
    /// Whether a filemark closes it.
    closed: bool,
}

/// The runs of what was delivered. No filemark closes the last, which may have
/// no elements.
fn runs_of(state: SheetState, kinds: &[Kind]) -> Vec<Run> {
    let filemarks = kinds.iter().filter(|kind| **kind == Kind::Marker).count();
    let pieces = kinds.split(|kind| *kind == Kind::Marker);
    let lengths = pieces.map(|piece| u64::try_from(piece.len()).unwrap_or(u64::MAX));
    // The open run has the blocks from before, too.
    let before = once(state.next.saturating_sub(state.first)).chain(repeat(0));
    let runs = lengths.zip(before).enumerate();
    runs.scan(state.first, |next, (index, (length, before))| {
        let run = Run {
            first: *next,
            blocks: length.saturating_add(before),
            closed: index < filemarks,
        };
        *next = next.saturating_add(run.blocks).saturating_add(1);
        Some(run)
    })
    .collect()
}

/// The runs that are jobs.
fn jobs_of(state: SheetState, delivered: &Delivered, fault: SheetFault) -> Vec<Job> {
    let mut runs = runs_of(state, &delivered.kinds);
    runs.retain(|run| is_job(run, delivered.ending, fault));
    let first_job = match fault {
        SheetFault::JobsFromZero => u64::from(state.job).saturating_sub(1),
        _ => u64::from(state.job),
    };
    let numbered = (first_job..).zip(runs);
    numbered
        .map(|(number, run)| Job {
            number,
            first: first_of(&run, fault),
            blocks: blocks_of(&run, number - first_job, fault),
            closed: run.closed,
        })
        .collect()
}

fn is_job(run: &Run, ending: Ending, fault: SheetFault) -> bool {
    let at_eod = ending == Ending::Eod;
    match fault {
        SheetFault::EmptyJobPassedOver => run.blocks > 0 && (run.closed || at_eod),
        SheetFault::UnclosedWithoutLine => run.closed,
        SheetFault::EmptyRunWithLine => run.closed || at_eod,
        SheetFault::UnclosedLineAtBreak => run.closed || run.blocks > 0,
        _ => run.closed || at_eod && run.blocks > 0,
    }
}

fn first_of(run: &Run, fault: SheetFault) -> u64 {
    match fault {
        SheetFault::FirstOfNextRun => run.first + run.blocks + 1,
        SheetFault::FirstIsFilemark if run.closed => run.first + run.blocks,
        SheetFault::FilemarkNotGiven if run.blocks == 0 => 0,
        _ => run.first,
    }
}

/// The blocks of a run that has so many filemarks before it.
fn blocks_of(run: &Run, filemarks: u64, fault: SheetFault) -> u64 {
    match fault {
        SheetFault::FilemarkCounted if run.closed => run.blocks + 1,
        SheetFault::BlocksOfAllJobs => run.first + run.blocks - filemarks,
        _ => run.blocks,
    }
}
