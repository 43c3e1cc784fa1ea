//! The layer and the model side by side: every call is made on both, and
//! answers, sessions and buffers are compared. Who lends a window or a frame
//! lends a guarded one and looks at the bytes around it; blocks and headers
//! are guarded here.
#![allow(dead_code)]

pub mod any_calls;
pub mod any_reads;
pub mod sessions;

use std::cell::RefCell;

use adr_model::check::guarded::Guarded;
use adr_model::check::layer::{Layer, ReadingCalls, RecordingCalls};
use adr_model::state::StageName;
use adr_model::{
    Address, Answer, Command, Fault, Geometry, Outcome, ReadAnswer, ReadOutcome, Reading,
    Recording, Reply,
};
use adr_tape::ffi;

thread_local! {
    /// Buffers used again: large ones are costly to allocate.
    static BUFFERS: RefCell<Vec<Guarded>> = const { RefCell::new(Vec::new()) };
    /// What the model wrote last: its window or frame.
    static OWN: RefCell<Vec<u8>> = const { RefCell::new(Vec::new()) };
}

/// Lends a guarded copy of `content`. The third result is whether the guard
/// bytes are as they were.
pub fn guarded<T>(content: &[u8], act: impl FnOnce(&mut [u8]) -> T) -> (T, Guarded, bool) {
    let mut lent = Guarded::of(content);
    let result = act(&mut lent);
    let intact = lent.is_intact();
    (result, lent, intact)
}

/// Lends a guarded copy of `content`, which must come back as it was.
fn lend<T>(content: &[u8], act: impl FnOnce(&[u8]) -> T) -> (T, bool) {
    let copy = BUFFERS.with_borrow_mut(Vec::pop);
    let mut copy = copy.unwrap_or_else(|| Guarded::of(&[]));
    copy.refill(content);
    let result = act(&copy);
    let right = copy.is_intact() && *copy == *content;
    BUFFERS.with_borrow_mut(|buffers| buffers.push(copy));
    (result, right)
}

/// Nothing was found wrong.
#[track_caller]
pub fn right(wrong: Option<String>, seed: u32) {
    assert_eq!(wrong, None, "seed {seed}");
}

pub fn geometry_of(geometry: &Geometry) -> ffi::Geometry {
    ffi::Geometry {
        segtrk: u32::from(geometry.frames_per_track),
        trks: u32::from(geometry.tracks),
        load: u32::from(geometry.load_point),
    }
}

pub fn reply_of(reply: &Reply) -> ffi::Reply {
    ffi::Reply {
        buffered: reply.buffered,
        position: reply.position.0,
        skip: reply.skip,
        key: reply.sense.key,
        asc: reply.sense.asc,
        ascq: reply.sense.ascq,
    }
}

pub fn outcome_of(number: u8) -> Outcome {
    match number {
        0 => Outcome::Accepted,
        number => Outcome::Refused(number),
    }
}

/// The command that the numbers stand for.
fn command_of(command: ffi::Command) -> Option<Command> {
    let address = Address(command.address);
    match command.code {
        0x08 => Some(Command::Read(address)),
        0x0A => Some(Command::Write(address)),
        0x2B => Some(Command::Locate(address)),
        0x34 if command.address == 0 => Some(Command::ReadPosition),
        _ => None,
    }
}

/// The answer of a recording's fetch; none for numbers that say nothing.
pub fn answer_of(fetched: &ffi::RecordFetched) -> Option<Answer> {
    let none = fetched.command == ffi::Command::default();
    match (fetched.answer, fetched.number) {
        (1, 0) => command_of(fetched.command).map(Answer::Command),
        (2, 0) if none => Some(Answer::Idle),
        (3, 0) if none => Some(Answer::Done),
        (0, number @ 1..=12) if none => Some(Answer::Refused(number)),
        _ => None,
    }
}

/// The answer of a reading's fetch; none for numbers that say nothing.
pub fn read_answer_of(fetched: &ffi::ReadFetched) -> Option<ReadAnswer> {
    let none = fetched.command == ffi::Command::default();
    match (fetched.answer, fetched.number) {
        (1, 0) => command_of(fetched.command).map(ReadAnswer::Command),
        (4, 0) if none => Some(ReadAnswer::End),
        (0, number @ 1..=12) if none => Some(ReadAnswer::Refused(number)),
        _ => None,
    }
}

/// The outcome of a reading's reply; none for numbers that say nothing.
pub fn read_outcome_of(replied: &ffi::ReadReplied) -> Option<ReadOutcome> {
    match (replied.answer, replied.number) {
        (5, 0) => Some(ReadOutcome::Nothing),
        (6, 0) => Some(ReadOutcome::Block),
        (7, 0) => Some(ReadOutcome::Filemark),
        (4, 0) => Some(ReadOutcome::End),
        (0, number @ 1..=12) => Some(ReadOutcome::Refused(number)),
        _ => None,
    }
}

/// A recording session of both.
#[derive(Clone, Debug)]
pub struct ComparedRecording {
    pub layer: ffi::Recording,
    pub model: Recording,
    wrong: Option<String>,
}

impl PartialEq for ComparedRecording {
    fn eq(&self, other: &Self) -> bool {
        self.layer == other.layer && self.model == other.model
    }
}

impl ComparedRecording {
    /// Takes the layer's session after a call and compares it.
    fn follow(&mut self, what: &str, layer: ffi::Recording) {
        self.layer = layer;
        let (stands, model) = (sessions::recording_state(&layer), self.model.state());
        if stands.as_ref() != Ok(&model) {
            self.complain(format!("{what}: {stands:?}, but the model's is {model:?}"));
        }
    }

    fn note(
        &mut self,
        what: &str,
        right: bool,
        model: Outcome,
        layer: ffi::RecordOutcome,
    ) -> Outcome {
        let number = layer.number;
        if !right {
            self.complain(format!("{what}: a buffer is not as the model has it"));
        }
        if outcome_of(number) != model {
            self.complain(format!("{what}: {number}, but the model answers {model:?}"));
        }
        self.follow(what, layer.session);
        outcome_of(number)
    }

    fn complain(&mut self, wrong: String) {
        self.wrong.get_or_insert(wrong);
    }

    /// Takes what both openings gave and compares it.
    fn opened(
        what: &str,
        right: bool,
        (model, outcome): (Recording, Outcome),
        layer: ffi::RecordOutcome,
    ) -> (Self, Outcome) {
        let mut session = ComparedRecording {
            layer: layer.session,
            model,
            wrong: None,
        };
        if layer.number != 0 && layer.session != refused_session() {
            session.complain(format!("{what}: refused, but not with the ended session"));
        }
        let outcome = session.note(what, right, outcome, layer);
        (session, outcome)
    }

    /// Opens both at the end of a reading; that of the layer may be one that
    /// no call returned.
    pub fn open_at_end(
        layer: ffi::Reading,
        model: &Reading,
        depth: u32,
        window_blocks: u32,
        tail: u32,
    ) -> (Self, Outcome) {
        let model = Recording::open_at_end(model, depth, window_blocks, tail);
        let layer = ffi::record_open_at_end(layer, depth, window_blocks, tail);
        ComparedRecording::opened("opening at the end", true, model, layer)
    }
}

/// What every refused opening of the layer gives.
fn refused_session() -> ffi::Recording {
    ffi::record_open_blank(ffi::Geometry::default(), 0, 0, 0).session
}

impl RecordingCalls for ComparedRecording {
    fn open(
        geometry: &Geometry,
        depth: u32,
        window_blocks: u32,
        tail: u32,
        newest: Option<&[u8]>,
    ) -> (Self, Outcome) {
        let model = Recording::open(geometry, depth, window_blocks, tail, newest);
        let geometry = geometry_of(geometry);
        let (opened, right) = match newest {
            None => (
                ffi::record_open_blank(geometry, depth, window_blocks, tail),
                true,
            ),
            Some(header) => lend(header, |lent| {
                ffi::record_open(geometry, depth, window_blocks, tail, lent)
            }),
        };
        ComparedRecording::opened("opening", right, model, opened)
    }

    fn plant(&mut self, fault: Fault) {
        self.model.plant(fault);
    }

    fn accept_block(&mut self, block: &[u8], window: &mut [u8]) -> Outcome {
        let (outcome, accepted, right) = OWN.with_borrow_mut(|own| {
            own.clear();
            own.extend_from_slice(window);
            let outcome = self.model.accept_block(block, own);
            let (accepted, right) =
                lend(block, |block| ffi::record_block(self.layer, block, window));
            (outcome, accepted, right && own == window)
        });
        self.note("a block", right, outcome, accepted)
    }

    fn accept_filemark(&mut self) -> Outcome {
        let outcome = self.model.accept_filemark();
        let accepted = ffi::record_filemark(self.layer);
        self.note("a filemark", true, outcome, accepted)
    }

    fn close(&mut self) -> Outcome {
        let outcome = self.model.close();
        let closed = ffi::record_close(self.layer);
        self.note("close", true, outcome, closed)
    }

    /// Whoever lends window and frame sees what becomes of the window, and of
    /// the frame if the answer is no WRITE.
    fn fetch(&mut self, window: &[u8], frame: &mut [u8]) -> Answer {
        let fetched = ffi::record_fetch(self.layer, window, frame);
        let (answer, right) = if fetched.command.code == ffi::WRITE {
            OWN.with_borrow_mut(|own| {
                own.resize(frame.len(), 0);
                (self.model.fetch(window, own), own == frame)
            })
        } else {
            (self.model.fetch(window, frame), true)
        };
        if !right {
            self.complain(format!(
                "a fetch: {answer:?}, and the frame is not as the model has it"
            ));
        }
        if answer_of(&fetched) != Some(answer) {
            self.complain(format!("{fetched:?}, but the model answers {answer:?}"));
        }
        self.follow("a fetch", fetched.session);
        answer
    }

    fn reply(&mut self, reply: &Reply) -> Outcome {
        let outcome = self.model.reply(reply);
        let replied = ffi::record_reply(self.layer, reply_of(reply));
        self.note("a reply", true, outcome, replied)
    }

    /// The model's: a layer in another stage is complained of.
    fn stage(&self) -> StageName {
        self.model.stage()
    }

    fn wrong(&self) -> Option<String> {
        self.wrong.clone()
    }
}

/// A reading session of both.
#[derive(Clone, Debug, PartialEq, Eq)]
pub struct ComparedReading {
    pub layer: ffi::Reading,
    pub model: Reading,
    wrong: Option<String>,
}

impl ComparedReading {
    /// Takes the layer's session after a call and compares it.
    fn follow(&mut self, what: &str, layer: ffi::Reading) {
        self.layer = layer;
        let (stands, model) = (sessions::reading_state(&layer), self.model.state());
        if stands != Ok(model) {
            self.complain(format!("{what}: {stands:?}, but the model's is {model:?}"));
        }
    }

    fn complain(&mut self, wrong: String) {
        self.wrong.get_or_insert(wrong);
    }
}

impl ReadingCalls for ComparedReading {
    fn open(geometry: &Geometry, newest: &[u8]) -> (Self, Outcome) {
        let (model, outcome) = Reading::open(geometry, newest);
        let (opened, right) = lend(newest, |lent| ffi::read_open(geometry_of(geometry), lent));
        let mut session = ComparedReading {
            layer: opened.session,
            model,
            wrong: None,
        };
        if !right || outcome_of(opened.number) != outcome {
            session.complain(format!(
                "opening a reading: {}, but the model answers {outcome:?}",
                opened.number
            ));
        }
        session.follow("opening a reading", opened.session);
        (session, outcome)
    }

    fn plant(&mut self, fault: Fault) {
        self.model.plant(fault);
    }

    fn fetch(&mut self) -> ReadAnswer {
        let answer = self.model.fetch();
        let fetched = ffi::read_fetch(self.layer);
        if read_answer_of(&fetched) != Some(answer) {
            self.complain(format!("{fetched:?}, but the model answers {answer:?}"));
        }
        self.follow("a reading's fetch", fetched.session);
        answer
    }

    /// Whoever lends the frame sees what becomes of it.
    fn reply(&mut self, reply: &Reply, frame: &[u8]) -> ReadOutcome {
        let outcome = self.model.reply(reply, frame);
        let replied = ffi::read_reply(self.layer, reply_of(reply), frame);
        if read_outcome_of(&replied) != Some(outcome) {
            self.complain(format!("{replied:?}, but the model answers {outcome:?}"));
        }
        self.follow("a reading's reply", replied.session);
        outcome
    }

    fn wrong(&self) -> Option<String> {
        self.wrong.clone()
    }
}

/// The layer compared with the model.
pub struct Compared;

impl Layer for Compared {
    type Recording = ComparedRecording;
    type Reading = ComparedReading;

    fn open_at_end(
        reading: &ComparedReading,
        depth: u32,
        window_blocks: u32,
        tail: u32,
    ) -> (ComparedRecording, Outcome) {
        ComparedRecording::open_at_end(reading.layer, &reading.model, depth, window_blocks, tail)
    }

    /// The layer's choice; the checks know which copy is the newest.
    fn choose<'a>(geometry: &Geometry, first: &'a [u8], second: &'a [u8]) -> Result<&'a [u8], u8> {
        let ((choice, one), other) = lend(first, |one| {
            lend(second, |other| {
                ffi::choose(geometry_of(geometry), one, other)
            })
        });
        assert!(one && other, "a choice altered a header");
        match (choice.which, choice.number) {
            (1, 0) => Ok(first),
            (2, 0) => Ok(second),
            (_, number) => Err(number),
        }
    }
}
