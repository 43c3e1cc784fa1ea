//! Jobs read from a cartridge, to the end of data or of what stands.

use std::cell::Cell;
use std::ops::ControlFlow;

use adr_tape::{read_with, Address, Element, ReadError, Reader, Refusal, Summary};

use super::{end_of_data, Cartridge, IF_UNREADABLE};
use crate::cut_session::CutSession;
use crate::failure::Failure;
use crate::job::reading::{Ending, Jobs, Taker};
use crate::progress::Progress;
use crate::size::bytes_in;

/// The end of a cartridge that was read.
pub struct End {
    reader: Reader,
    /// The jobs before it.
    pub jobs: u64,
    ending: Ending,
    /// Whether an element reads that was given up.
    given_up: bool,
    /// The last session, if it was not closed.
    cut: Option<CutSession>,
}

impl End {
    /// Whether a filemark ends the last job.
    pub fn is_closed(&self) -> bool {
        self.ending == Ending::Closed
    }

    /// The reading that found it.
    pub fn reader(&self) -> &Reader {
        &self.reader
    }
}

/// The jobs of a cartridge that was read.
#[derive(Default)]
pub struct ReadJobs {
    /// How many there are.
    pub number: u64,
    ending: Ending,
    given_up: bool,
    /// The last session, if it was not closed.
    pub cut: Option<CutSession>,
}

impl ReadJobs {
    /// What is to be told of a tape that was full, if it is known to have been.
    /// Where it was behind a job, and no element that was given up reads, nothing
    /// tells.
    pub fn was_full(&self) -> Option<String> {
        let job = self.number;
        let is_cut = self.cut.is_some_and(|session| session.cuts_job());
        match self.ending {
            Ending::Within if is_cut => None,
            Ending::Within => Some(format!(
                "the tape was full in job {job}: \
                 it and what was to follow it belong on another cartridge"
            )),
            Ending::BeforeFilemark => Some(no_filemark(job)),
            Ending::Closed if self.given_up => Some(format!(
                "the tape was full, and the recording was given up behind job {job}: \
                 what was to follow belongs on another cartridge"
            )),
            Ending::Closed | Ending::Foreign => None,
        }
    }
}

/// What is told of a last job that no filemark ends.
fn no_filemark(job: u64) -> String {
    format!(
        "job {job} has no filemark at its end: \
         'adr salvage' restores it if nothing else is missing"
    )
}

/// What a reading has come to so far.
struct Found<'t> {
    jobs: Jobs<'t>,
    /// Whether the taker of the jobs wants no more.
    stopped: bool,
    /// The last session, if it was not closed.
    cut: Option<CutSession>,
}

impl Found<'_> {
    fn take(
        &mut self,
        address: Address,
        element: &Element<'_>,
    ) -> Result<ControlFlow<()>, Failure> {
        if let Some(session) = &mut self.cut {
            session.take(address, *element == Element::Filemark);
        }
        let flow = self.jobs.take(element)?;
        self.stopped = flow.is_break();
        Ok(flow)
    }

    /// Ends at the end of data, in a frame of this number, or before if no more is
    /// wanted.
    fn end(mut self, reader: Reader, summary: &Summary, number: u32) -> Result<End, Failure> {
        if self.stopped {
            return Ok(self.ended(reader, Ending::Closed));
        }
        if let Some(session) = &mut self.cut {
            session.end(summary.address);
        }
        let ending = self.jobs.end()?;
        Ok(End {
            // Only then can the end of data have a number that was read before.
            given_up: summary.elements() > u64::from(number),
            cut: self.cut,
            ..self.ended(reader, ending)
        })
    }

    /// Ends where no end of data was found.
    fn end_of_cut_session(mut self, reader: Reader) -> Result<End, Failure> {
        let ending = if self.cut.is_some_and(|session| session.cuts_job()) {
            self.jobs.end_of_cut_session()
        } else {
            self.jobs.end()
        }?;
        Ok(End {
            cut: self.cut,
            ..self.ended(reader, ending)
        })
    }

    fn ended(&self, reader: Reader, ending: Ending) -> End {
        End {
            reader,
            jobs: self.jobs.begun(),
            ending,
            given_up: false,
            cut: None,
        }
    }
}

/// Shows how far a reading has come on the way to the end of data.
pub(super) fn show_progress(progress: &mut Progress, summary: &Summary, end: Address) {
    let bytes = bytes_in(summary.blocks);
    let (address, end) = (u64::from(summary.address.0), u64::from(end.0));
    progress.update(bytes, address, Some(end));
}

impl Cartridge {
    /// Reads jobs to the end of data, or until `taker` breaks. An empty
    /// cartridge has none.
    pub fn read_jobs<'t>(
        &mut self,
        taker: &'t mut Taker<'t>,
        progress: &mut Progress,
    ) -> Result<ReadJobs, Failure> {
        let Some(header) = self.header_of_frames(IF_UNREADABLE)? else {
            return Ok(ReadJobs::default());
        };
        let end = self.read_to_end(&header, taker, progress)?;
        // The taker was told of any job of this tool that is not whole.
        if end.ending == Ending::Foreign && end.cut.is_none() {
            let path = self.image().path().display();
            return Err(Failure::new(format!("{path}: {}", no_filemark(end.jobs))));
        }
        Ok(ReadJobs {
            number: end.jobs,
            ending: end.ending,
            given_up: end.given_up,
            cut: end.cut,
        })
    }

    /// Reads jobs on the newest header, as [`Cartridge::read_jobs`] does, and
    /// tells where the reading ended.
    pub fn read_to_end<'t>(
        &mut self,
        header: &[u8],
        taker: &'t mut Taker<'t>,
        progress: &mut Progress,
    ) -> Result<End, Failure> {
        let refused = |refusal| self.refused("reading stopped", refusal);
        let last = self.geometry.last().map_err(refused)?;
        let mut reader = Reader::open(self.geometry, header).map_err(refused)?;
        let end = end_of_data(header);
        let mut found = Found {
            jobs: Jobs::new(taker),
            stopped: false,
            cut: CutSession::of(header, last),
        };
        let address = Cell::new(Address(0));
        let sink = |element: Element<'_>| found.take(address.get(), &element);
        let read = read_with(self, &mut reader, sink, |summary| {
            address.set(summary.address);
            show_progress(progress, summary, end);
        });
        match read {
            // What the jobs are handed to tells itself where it failed.
            Err(ReadError::Sink(failure)) => Err(failure),
            Err(ReadError::Drive(failure)) => Err(found.jobs.place(failure)),
            Err(ReadError::Refused(Refusal::NotFound))
                if found.cut.is_some() && self.image().is_undamaged() =>
            {
                found.end_of_cut_session(reader)
            }
            Err(ReadError::Refused(refusal)) => {
                let stopped = found.jobs.place(self.refused("reading stopped", refusal));
                Err(stopped.with("'adr salvage' restores the jobs behind it that are whole"))
            }
            Ok(summary) => found.end(reader, &summary, self.latest_number),
        }
    }
}
