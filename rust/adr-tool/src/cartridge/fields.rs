//! The AUX fields of what is read from a cartridge.

use std::ops::ControlFlow;

use adr_tape::{read_deliveries, Delivery, ReadError, Reader, Refusal, AUX_LENGTH};

use super::reading::show_progress;
use super::{end_of_data, Cartridge, IF_UNREADABLE};
use crate::cut_session::CutSession;
use crate::failure::Failure;
use crate::progress::Progress;

/// What helps where a reading stops before the end of data.
const IF_STOPPED: &str =
    "'adr check' tells more, and 'adr salvage' restores the jobs that are whole";

/// What is told where the newest header names no end of data.
const NOT_CLOSED: &str = "the last session was not closed: \
                          'adr list' tells what stands and what can be done";

impl Cartridge {
    /// Hands on the AUX field of each element and of the end of data, in order. It
    /// fails if there is no end of data, or none that the header names; what was
    /// read before was handed on.
    pub fn read_fields(
        &mut self,
        mut taker: impl FnMut(&[u8; AUX_LENGTH]) -> Result<(), Failure>,
        progress: &mut Progress,
    ) -> Result<(), Failure> {
        let Some(header) = self.header_of_frames(IF_UNREADABLE)? else {
            return Err(self.failed("the cartridge holds no recording: record something first"));
        };
        let refused = |refusal| self.refused("reading stopped", refusal);
        let last = self.geometry.last().map_err(refused)?;
        let mut reader = Reader::open(self.geometry, &header).map_err(refused)?;
        let end = end_of_data(&header);
        let sink =
            |_: Delivery<'_>, aux: &[u8; AUX_LENGTH]| taker(aux).map(ControlFlow::<()>::Continue);
        let read = read_deliveries(self, &mut reader, sink, |summary| {
            show_progress(progress, summary, end);
        });
        let is_cut = CutSession::of(&header, last).is_some();
        match read {
            Ok(_) if is_cut => Err(self.failed(NOT_CLOSED)),
            Ok(_) => Ok(()),
            Err(ReadError::Sink(failure) | ReadError::Drive(failure)) => Err(failure),
            Err(ReadError::Refused(Refusal::NotFound)) if is_cut && self.image().is_undamaged() => {
                let nowhere = "no end of data was found (refusal 12)";
                Err(self.failed(nowhere).with(NOT_CLOSED))
            }
            Err(ReadError::Refused(refusal)) => {
                Err(self.refused("reading stopped", refusal).with(IF_STOPPED))
            }
        }
    }

    fn failed(&self, why: &str) -> Failure {
        Failure::new(format!("{}: {why}", self.image().path().display()))
    }
}
