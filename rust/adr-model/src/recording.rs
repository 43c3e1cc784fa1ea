//! A recording session.

use crate::command::{Answer, Command, Outcome};
use crate::elements::{count, Elements, Start};
use crate::fault::Fault;
use crate::frame::{fill_frame, fill_header, Frame, HeaderFields, Kind};
use crate::geometry::{Address, Geometry, BLOCK_LENGTH, FRAME_LENGTH};
use crate::header;
use crate::header_copies::{HeaderCopies, Walk};
use crate::reading::Reading;
use crate::reply::{Meaning, Reply};
use crate::state::{CopiesState, ElementsState, ExchangeState, RecordingState, StageName};

/// Where a recording stands.
#[derive(Clone, Debug, PartialEq, Eq)]
enum Stage {
    OpeningHeaders(HeaderCopies),
    LocateFirst,
    Elements,
    ClosingHeaders(HeaderCopies),
    Done,
}

/// What a session is opened with that goes to no header.
#[derive(Clone, Copy, Debug, PartialEq, Eq)]
struct Sizes {
    depth: usize,
    window_blocks: usize,
    /// T, the frames up to END that are kept for EOD.
    tail: u32,
}

impl Sizes {
    /// Of a refused opening.
    const NONE: Sizes = Sizes {
        depth: 0,
        window_blocks: 0,
        tail: 0,
    };

    fn of(depth: u32, window_blocks: u32, tail: u32) -> Result<Sizes, u8> {
        if !(1..=255).contains(&depth) || !(1..=64).contains(&window_blocks) || tail > 255 {
            return Err(4);
        }
        Ok(Sizes {
            depth: usize::try_from(depth).map_err(|_| 4)?,
            window_blocks: usize::try_from(window_blocks).map_err(|_| 4)?,
            tail,
        })
    }
}

/// The next update count, which leaves room for that of the closing headers.
fn raised(update_count: u32) -> Result<u32, u8> {
    match update_count {
        0..=4_294_967_293 => Ok(update_count + 1),
        _ => Err(5),
    }
}

/// A recording session.
#[derive(Clone, Debug, PartialEq, Eq)]
pub struct Recording {
    sizes: Sizes,
    /// What the opening headers say.
    opening: HeaderFields,
    stage: Stage,
    elements: Elements,
    closed: bool,
    ended: bool,
    /// Ended by a 9 for an element, with something kept for EOD: close is
    /// accepted once more.
    spent: bool,
    awaited: Option<Command>,
    /// The command answered busy, which comes again.
    again: Option<Command>,
    fault: Fault,
}

impl Recording {
    /// Opens a session on the newest header or none; a refused opening
    /// returns an ended session.
    #[must_use]
    pub fn open(
        geometry: &Geometry,
        depth: u32,
        window_blocks: u32,
        tail: u32,
        newest: Option<&[u8]>,
    ) -> (Recording, Outcome) {
        let sizes = Sizes::of(depth, window_blocks, tail);
        Recording::opened(Recording::try_open(geometry, sizes, newest))
    }

    /// Opens a session behind what a reading has delivered, which goes on with
    /// the recording read; a refused opening returns an ended session.
    #[must_use]
    pub fn open_at_end(
        reading: &Reading,
        depth: u32,
        window_blocks: u32,
        tail: u32,
    ) -> (Recording, Outcome) {
        let sizes = Sizes::of(depth, window_blocks, tail);
        Recording::opened(Recording::try_open_at_end(reading, sizes))
    }

    fn opened(session: Result<Recording, u8>) -> (Recording, Outcome) {
        match session {
            Ok(session) => (session, Outcome::Accepted),
            Err(number) => {
                let mut session = Recording::begun(Sizes::NONE, HeaderFields::NONE, Start::FRESH);
                session.ended = true;
                (session, Outcome::Refused(number))
            }
        }
    }

    fn try_open(
        geometry: &Geometry,
        sizes: Result<Sizes, u8>,
        newest: Option<&[u8]>,
    ) -> Result<Recording, u8> {
        if newest.is_some_and(|header| header.len() != FRAME_LENGTH) {
            return Err(1);
        }
        let last = geometry.last().ok_or(2)?;
        let old = newest
            .map(|header| header::check(geometry, header))
            .transpose()?;
        let sizes = sizes?;
        let (pass, update_count) = match old {
            None => (1, 0),
            Some(old) if old.pass >= 65_534 => return Err(5),
            Some(old) => (old.pass + 1, raised(old.update_count)?),
        };
        let opening = HeaderFields {
            pass,
            update_count,
            last,
            ..HeaderFields::NONE
        };
        Ok(Recording::begun(sizes, opening, Start::FRESH))
    }

    fn try_open_at_end(reading: &Reading, sizes: Result<Sizes, u8>) -> Result<Recording, u8> {
        let (old, start) = reading.end().ok_or(7)?;
        let sizes = sizes?;
        let update_count = raised(old.update_count)?;
        if old.eod == Address(0) || old.eod != start.at {
            return Err(13);
        }
        let opening = HeaderFields {
            update_count,
            eod: Address(0),
            old_end: start.at,
            ..old
        };
        Ok(Recording::begun(sizes, opening, start))
    }

    fn begun(sizes: Sizes, opening: HeaderFields, start: Start) -> Recording {
        Recording {
            sizes,
            opening,
            stage: Stage::OpeningHeaders(HeaderCopies::new(sizes.depth)),
            elements: Elements::new(sizes.depth, sizes.tail, opening.pass, opening.last, start),
            closed: false,
            ended: false,
            spent: false,
            awaited: None,
            again: None,
            fault: Fault::None,
        }
    }

    /// Plants a fault for the checks to find, before any other call.
    pub fn plant(&mut self, fault: Fault) {
        self.fault = fault;
        self.elements.plant(fault);
        let added = self.opening.old_end != Address(0);
        let not_raised = if added {
            Fault::CountNotRaised
        } else {
            Fault::FreshCountNotRaised
        };
        if fault == not_raised {
            self.opening.update_count = self.opening.update_count.saturating_sub(1);
        }
        if fault == Fault::OldEodNamed {
            self.opening.eod = self.opening.old_end;
        }
        if let Fault::OldEndNotNamed | Fault::OldEodNamed = fault {
            self.opening.old_end = Address(0);
        }
        let mut copies = self.copies();
        if fault == Fault::ElementsBeforeHeaders {
            copies.plant_unawaited();
        }
        self.stage = Stage::OpeningHeaders(copies);
    }

    /// A walk over the header copies, not begun.
    fn copies(&self) -> HeaderCopies {
        let above = self.fault == Fault::HeaderAboveDepth;
        HeaderCopies::new(self.sizes.depth + usize::from(above))
    }

    /// The write pass of this recording.
    #[must_use]
    pub fn pass(&self) -> u16 {
        self.opening.pass
    }

    fn window_length(&self) -> usize {
        self.sizes.window_blocks.saturating_mul(BLOCK_LENGTH)
    }

    fn window_place(&self, number: u32) -> std::ops::Range<usize> {
        let block = usize::try_from(number)
            .unwrap_or(0)
            .checked_rem(self.sizes.window_blocks)
            .unwrap_or(0);
        let start = block.saturating_mul(BLOCK_LENGTH);
        start..start.saturating_add(BLOCK_LENGTH)
    }

    /// Accepts a block into the window.
    pub fn accept_block(&mut self, block: &[u8], window: &mut [u8]) -> Outcome {
        if self.ended || self.closed {
            return Outcome::Refused(7);
        }
        if block.len() != BLOCK_LENGTH || window.len() != self.window_length() {
            return Outcome::Refused(1);
        }
        if self.elements.unconfirmed() >= self.sizes.window_blocks {
            return Outcome::Refused(6);
        }
        if let Some(place) = window.get_mut(self.window_place(self.elements.next_number().0)) {
            place.copy_from_slice(block);
        }
        self.elements.accept(Kind::Data);
        Outcome::Accepted
    }

    /// Accepts a filemark.
    pub fn accept_filemark(&mut self) -> Outcome {
        if self.ended || self.closed {
            return Outcome::Refused(7);
        }
        if self.elements.unconfirmed() >= self.sizes.window_blocks {
            return Outcome::Refused(6);
        }
        self.elements.accept(Kind::Marker);
        Outcome::Accepted
    }

    /// Asks for the recording to be ended; in a session that is spent, for
    /// what is not on tape to be given up.
    pub fn close(&mut self) -> Outcome {
        if self.spent {
            self.elements.give_up();
            (self.ended, self.spent) = (false, false);
        } else if self.ended || self.closed {
            return Outcome::Refused(7);
        }
        self.closed = true;
        Outcome::Accepted
    }

    /// Ends the session with a refusal. One that finds no room for an element
    /// leaves it spent, if something is kept for EOD.
    fn end(&mut self, number: u8) {
        let kept = self.sizes.tail > 0 || self.fault == Fault::SpentWithoutTail;
        let element = self.elements.element_due() || self.fault == Fault::EodGivenUp;
        self.ended = true;
        self.spent = number == 9 && kept && element;
    }

    /// Fetches the next command; a WRITE fills the lent frame.
    pub fn fetch(&mut self, window: &[u8], frame: &mut [u8]) -> Answer {
        if self.ended || self.awaited.is_some() {
            return Answer::Refused(7);
        }
        let Ok(frame) = <&mut Frame>::try_from(frame) else {
            return Answer::Refused(1);
        };
        if window.len() != self.window_length() {
            return Answer::Refused(1);
        }
        let answer = match self.again {
            Some(command) => Answer::Command(command),
            None => self.next_answer(),
        };
        match answer {
            Answer::Command(command) => {
                self.again = None;
                self.awaited = Some(command);
                if let Command::Write(_) = command {
                    self.fill(window, frame);
                }
            }
            Answer::Refused(number) => self.end(number),
            Answer::Idle | Answer::Done => {}
        }
        answer
    }

    fn next_answer(&mut self) -> Answer {
        match &self.stage {
            Stage::OpeningHeaders(copies) | Stage::ClosingHeaders(copies) => {
                Answer::Command(copies.command())
            }
            Stage::LocateFirst => Answer::Command(Command::Locate(self.elements.next())),
            Stage::Elements => {
                if self.closed {
                    self.elements.end_if_whole();
                }
                self.elements.answer()
            }
            Stage::Done => Answer::Done,
        }
    }

    /// What the header copies say: the closing ones from their stage on.
    fn header(&self) -> HeaderFields {
        if !matches!(self.stage, Stage::ClosingHeaders(_) | Stage::Done) {
            return self.opening;
        }
        let counted = self.fault != Fault::UpdateCountKept;
        HeaderFields {
            update_count: self.opening.update_count.saturating_add(u32::from(counted)),
            eod: self.elements.eod().unwrap_or(Address(0)),
            old_end: Address(0),
            ..self.opening
        }
    }

    fn fill(&mut self, window: &[u8], frame: &mut Frame) {
        if let Stage::OpeningHeaders(_) | Stage::ClosingHeaders(_) = self.stage {
            fill_header(frame, &self.header());
        } else if let Some(label) = self.elements.sending() {
            let block = window.get(self.window_place(label.number.0));
            let block = block.filter(|_| label.kind == Kind::Data);
            fill_frame(frame, &label, block);
        }
    }

    /// The stage that the session is in, or was when it ended.
    #[must_use]
    pub fn stage(&self) -> StageName {
        match self.stage {
            Stage::OpeningHeaders(_) => StageName::OpeningHeaders,
            Stage::LocateFirst | Stage::Elements => StageName::Elements,
            Stage::ClosingHeaders(_) => StageName::ClosingHeaders,
            Stage::Done => StageName::Done,
        }
    }

    /// Where the session stands; none once a refusal has ended it for good.
    #[must_use]
    pub fn state(&self) -> Option<RecordingState> {
        (self.spent || !self.ended).then(|| RecordingState {
            depth: count(self.sizes.depth),
            window_blocks: count(self.sizes.window_blocks),
            tail: self.sizes.tail,
            stage: self.stage(),
            closed: self.closed,
            spent: self.spent,
            exchange: ExchangeState {
                awaited: self.awaited,
                again: self.again,
            },
            header: self.header(),
            copies: self.copies_state(),
            elements: self.elements_state(),
        })
    }

    fn copies_state(&self) -> Option<CopiesState> {
        match &self.stage {
            Stage::OpeningHeaders(copies) | Stage::ClosingHeaders(copies) => Some(copies.state()),
            _ => None,
        }
    }

    fn elements_state(&self) -> Option<ElementsState> {
        match self.stage {
            Stage::OpeningHeaders(_) => Some(self.elements.state(false, false)),
            Stage::LocateFirst => Some(self.elements.state(false, self.closed)),
            Stage::Elements => Some(self.elements.state(true, self.closed)),
            Stage::ClosingHeaders(_) | Stage::Done => None,
        }
    }

    /// Brings the reply to the command awaited.
    pub fn reply(&mut self, reply: &Reply) -> Outcome {
        let Some(command) = self.awaited.filter(|_| !self.ended) else {
            return Outcome::Refused(7);
        };
        self.awaited = None;
        if reply.sense.meaning() == Meaning::Busy {
            let planted = self.stage == Stage::Elements && self.elements.busy(command);
            self.again = Some(command).filter(|_| !planted);
            return Outcome::Accepted;
        }
        match self.take_in(command, reply) {
            Ok(()) => Outcome::Accepted,
            Err(number) => {
                self.end(number);
                Outcome::Refused(number)
            }
        }
    }

    fn take_in(&mut self, command: Command, reply: &Reply) -> Result<(), u8> {
        match &mut self.stage {
            Stage::OpeningHeaders(copies) => match copies.reply(command, reply) {
                Walk::Goes => {}
                Walk::Through => self.stage = Stage::LocateFirst,
                Walk::Refused(number) => return Err(number),
            },
            Stage::ClosingHeaders(copies) => match copies.reply(command, reply) {
                Walk::Goes => {}
                Walk::Through => self.stage = Stage::Done,
                Walk::Refused(number) => return Err(number),
            },
            Stage::LocateFirst | Stage::Elements => {
                self.elements.reply(command, reply)?;
                self.stage = if self.elements.eod().is_some() {
                    Stage::ClosingHeaders(self.copies())
                } else {
                    Stage::Elements
                };
            }
            Stage::Done => return Err(8),
        }
        Ok(())
    }
}
