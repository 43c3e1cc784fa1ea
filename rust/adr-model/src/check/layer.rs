//! What is checked: the model, or a layer in its place.

use std::fmt::Debug;

use crate::command::{Answer, Outcome, ReadAnswer, ReadOutcome};
use crate::fault::Fault;
use crate::geometry::Geometry;
use crate::header;
use crate::reading::Reading;
use crate::recording::Recording;
use crate::reply::Reply;
use crate::state::StageName;

/// The calls that the checks are run on.
pub trait Layer {
    /// Its recording sessions.
    type Recording: RecordingCalls;
    /// Its reading sessions.
    type Reading: ReadingCalls;

    /// Opens a recording behind what a reading has delivered.
    fn open_at_end(
        reading: &Self::Reading,
        depth: u32,
        window_blocks: u32,
        tail: u32,
    ) -> (Self::Recording, Outcome);

    /// The newer of two headers.
    ///
    /// # Errors
    /// The number of the refusal.
    fn choose<'a>(geometry: &Geometry, first: &'a [u8], second: &'a [u8]) -> Result<&'a [u8], u8>;
}

/// The calls of a recording session, as [`Recording`] has them.
pub trait RecordingCalls: Clone + Debug + PartialEq {
    /// Opens a session on the newest header or none.
    fn open(
        geometry: &Geometry,
        depth: u32,
        window_blocks: u32,
        tail: u32,
        newest: Option<&[u8]>,
    ) -> (Self, Outcome);

    /// Plants a fault, where there is a way to.
    fn plant(&mut self, _fault: Fault) {}

    /// Accepts a block into the window.
    fn accept_block(&mut self, block: &[u8], window: &mut [u8]) -> Outcome;

    /// Accepts a filemark.
    fn accept_filemark(&mut self) -> Outcome;

    /// Asks for the recording to be ended.
    fn close(&mut self) -> Outcome;

    /// Fetches the next command.
    fn fetch(&mut self, window: &[u8], frame: &mut [u8]) -> Answer;

    /// Brings the reply to the command awaited.
    fn reply(&mut self, reply: &Reply) -> Outcome;

    /// The stage that it is in, or was when it ended.
    fn stage(&self) -> StageName;

    /// What the session itself found wrong so far.
    fn wrong(&self) -> Option<String> {
        None
    }
}

/// The calls of a reading session, as [`Reading`] has them.
pub trait ReadingCalls: Clone + Debug + PartialEq {
    /// Opens a session on the newest header.
    fn open(geometry: &Geometry, newest: &[u8]) -> (Self, Outcome);

    /// Plants a fault, where there is a way to.
    fn plant(&mut self, _fault: Fault) {}

    /// Fetches the next command.
    fn fetch(&mut self) -> ReadAnswer;

    /// Brings the reply to the command awaited.
    fn reply(&mut self, reply: &Reply, frame: &[u8]) -> ReadOutcome;

    /// What the session itself found wrong so far.
    fn wrong(&self) -> Option<String> {
        None
    }
}

/// The model itself.
#[derive(Clone, Copy, Debug, PartialEq, Eq)]
pub struct Model;

impl Layer for Model {
    type Recording = Recording;
    type Reading = Reading;

    fn open_at_end(
        reading: &Reading,
        depth: u32,
        window_blocks: u32,
        tail: u32,
    ) -> (Recording, Outcome) {
        Recording::open_at_end(reading, depth, window_blocks, tail)
    }

    fn choose<'a>(geometry: &Geometry, first: &'a [u8], second: &'a [u8]) -> Result<&'a [u8], u8> {
        header::choose(geometry, first, second)
    }
}

impl RecordingCalls for Recording {
    fn open(
        geometry: &Geometry,
        depth: u32,
        window_blocks: u32,
        tail: u32,
        newest: Option<&[u8]>,
    ) -> (Self, Outcome) {
        Recording::open(geometry, depth, window_blocks, tail, newest)
    }

    fn plant(&mut self, fault: Fault) {
        Recording::plant(self, fault);
    }

    fn accept_block(&mut self, block: &[u8], window: &mut [u8]) -> Outcome {
        Recording::accept_block(self, block, window)
    }

    fn accept_filemark(&mut self) -> Outcome {
        Recording::accept_filemark(self)
    }

    fn close(&mut self) -> Outcome {
        Recording::close(self)
    }

    fn fetch(&mut self, window: &[u8], frame: &mut [u8]) -> Answer {
        Recording::fetch(self, window, frame)
    }

    fn reply(&mut self, reply: &Reply) -> Outcome {
        Recording::reply(self, reply)
    }

    fn stage(&self) -> StageName {
        Recording::stage(self)
    }
}

impl ReadingCalls for Reading {
    fn open(geometry: &Geometry, newest: &[u8]) -> (Self, Outcome) {
        Reading::open(geometry, newest)
    }

    fn plant(&mut self, fault: Fault) {
        Reading::plant(self, fault);
    }

    fn fetch(&mut self) -> ReadAnswer {
        Reading::fetch(self)
    }

    fn reply(&mut self, reply: &Reply, frame: &[u8]) -> ReadOutcome {
        Reading::reply(self, reply, frame)
    }
}
