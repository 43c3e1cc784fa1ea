//! A recording session with its buffers.

use std::fmt;

use crate::command::Command;
use crate::element::Element;
use crate::ffi;
use crate::geometry::{Geometry, BLOCK_LENGTH, FRAME_LENGTH};
use crate::reader::Reader;
use crate::refusal::Refusal;
use crate::reply::Reply;
use crate::setup::Setup;
use crate::unclosed::Unclosed;

/// What a recording wants next.
#[derive(Clone, Copy, Debug, PartialEq, Eq)]
#[must_use = "a command that is not sent leaves the session waiting for its reply"]
pub enum Next<'a> {
    /// Send this command, a WRITE with this frame, and bring the reply.
    Send(Command, Option<&'a [u8]>),
    /// Nothing to do: accept an element, or close.
    Idle,
    /// The recording is whole and closed.
    Done,
}

/// A recording session, with the window and the frame that it needs.
///
/// Fetch a command, send it, bring the reply; accept elements at any time
/// between, and close. A recorder that is dropped after it has begun and
/// before [`Next::Done`] leaves a cartridge that is not whole; a debug build
/// tells it on standard error, but for one that was refused or
/// [abandoned](Recorder::abandon). Of clones the last one tells.
///
/// ```
/// use adr_tape::{Command, Geometry, Next, Recorder, Refusal, Reply, Setup};
///
/// let setup = Setup { depth: 4, blocks: 2, tail: 1 };
/// let mut recorder = Recorder::open(Geometry::beginning(3_001, 1), setup, None)?;
/// recorder.accept_block(&[1; adr_tape::BLOCK_LENGTH])?;
/// recorder.accept_filemark()?;
/// assert_eq!(recorder.accept_filemark(), Err(Refusal::WindowFull));
/// recorder.close()?;
/// let mut written = Vec::new();
/// while let Next::Send(command, frame) = recorder.fetch()? {
///     // A drive that writes each frame at once.
///     if let (Command::Write(address), Some(frame)) = (command, frame) {
///         written.push((address.0, frame.len()));
///     }
///     recorder.reply(Reply::good())?;
/// }
/// // Ten header copies, a block, a filemark, EOD, and ten copies more.
/// assert_eq!(written.len(), 23);
/// assert_eq!(written[10], (10, 33_280));
/// # Ok::<(), Refusal>(())
/// ```
#[derive(Clone)]
#[must_use = "a recording is whole only when it was closed and a fetch answered done"]
pub struct Recorder {
    session: ffi::Recording,
    /// The number of the first element.
    start: u32,
    window: Vec<u8>,
    frame: Vec<u8>,
    unclosed: Unclosed,
}

impl Recorder {
    /// Opens a recording on the newest header, or on none.
    ///
    /// The write pass is the header's + 1, or 1; a recording reads back as
    /// accepted if no user frame on the cartridge bears that pass, so always give
    /// the newest header. `include/adr.h` tells, under WRITE PASSES, where that is
    /// not enough and what helps.
    ///
    /// # Errors
    /// [`Refusal::Length`], [`Refusal::Geometry`], [`Refusal::Header`],
    /// [`Refusal::Capacity`] or [`Refusal::Exhausted`].
    #[must_use = "nothing is recorded by opening alone"]
    pub fn open(
        geometry: Geometry,
        setup: Setup,
        header: Option<&[u8]>,
    ) -> Result<Recorder, Refusal> {
        let Setup {
            depth,
            blocks,
            tail,
        } = setup;
        let opened = match header {
            Some(header) => ffi::record_open(geometry.into(), depth, blocks, tail, header),
            None => ffi::record_open_blank(geometry.into(), depth, blocks, tail),
        };
        Recorder::opened(opened, blocks)
    }

    /// Opens a recording at the end that `reader` found, behind what it
    /// delivered: a later reading gives that and then what is recorded here.
    /// The reader is left as it is.
    ///
    /// The write pass stays what it was. What that needs and no call can see:
    ///
    /// * The reading was of this cartridge as it stands now, on its newest
    ///   header.
    /// * The last recording on the cartridge came to [`Next::Done`], on a full tape
    ///   too, and was itself opened as it should be: a fresh one where no user frame bore its pass
    ///   (`include/adr.h`, WRITE PASSES), an added one where both of these held.
    ///   Else frames of the same pass may stand behind the end, and may be read as
    ///   if they were recorded here.
    ///
    /// Where a recording was cut short, the newest header mostly names no end;
    /// then every such opening is refused, with [`Refusal::EndElsewhere`], or with
    /// [`Refusal::Phase`] where the reading finds no end either.
    /// [`RecordError`](crate::RecordError) tells more.
    ///
    /// Blocks that no filemark closes are one run with the blocks recorded here.
    ///
    /// ```
    /// # use std::collections::BTreeMap;
    /// use adr_tape::{
    ///     Address, Command, Geometry, Next, ReadNext, Reader, Recorder, Refusal, Reply, Setup,
    /// };
    ///
    /// # type Frames = BTreeMap<Address, Vec<u8>>;
    /// # fn finish(mut recorder: Recorder, frames: &mut Frames) -> Result<(), Refusal> {
    /// #     recorder.close()?;
    /// #     while let Next::Send(command, frame) = recorder.fetch()? {
    /// #         if let (Command::Write(address), Some(frame)) = (command, frame) {
    /// #             frames.insert(address, frame.to_vec());
    /// #         }
    /// #         recorder.reply(Reply::good())?;
    /// #     }
    /// #     Ok(())
    /// # }
    /// # let geometry = Geometry::beginning(3_001, 1);
    /// # let mut frames = Frames::new();
    /// let setup = Setup { depth: 4, blocks: 2, tail: 1 };
    /// # let mut monday = Recorder::open(geometry, setup, None)?;
    /// # monday.accept_block(&[1; adr_tape::BLOCK_LENGTH])?;
    /// # finish(monday, &mut frames)?;
    /// // `frames` is what stands at each address of a tape with one block.
    /// let mut reader = Reader::open(geometry, &frames[&Address(5)])?;
    /// assert_eq!(Recorder::open_at_end(&reader, setup).err(), Some(Refusal::Phase));
    /// while let ReadNext::Send(command) = reader.fetch()? {
    ///     let frame = command.address().and_then(|address| frames.get(&address));
    ///     let _ = reader.reply(Reply::good(), frame.expect("it was recorded"))?;
    /// }
    /// let mut recorder = Recorder::open_at_end(&reader, setup)?;
    /// recorder.accept_block(&[2; adr_tape::BLOCK_LENGTH])?;
    /// # finish(recorder, &mut frames)?;
    /// // When it is done, the new block stands where the end of data stood.
    /// assert_eq!(frames[&Address(10)][0], 1);
    /// assert_eq!(frames[&Address(11)][0], 2);
    /// # Ok::<(), Refusal>(())
    /// ```
    ///
    /// # Errors
    /// [`Refusal::Phase`] if the reading is not at its end, [`Refusal::Capacity`],
    /// [`Refusal::Exhausted`] or [`Refusal::EndElsewhere`].
    #[must_use = "nothing is recorded by opening alone"]
    pub fn open_at_end(reader: &Reader, setup: Setup) -> Result<Recorder, Refusal> {
        let Setup {
            depth,
            blocks,
            tail,
        } = setup;
        let opened = ffi::record_open_at_end(reader.session(), depth, blocks, tail);
        Recorder::opened(opened, blocks)
    }

    /// The session that an opening gave, with its buffers.
    fn opened(opened: ffi::RecordOutcome, blocks: u32) -> Result<Recorder, Refusal> {
        Refusal::check(opened.number)?;
        let room = usize::try_from(blocks).map_err(|_| Refusal::Capacity)?;
        Ok(Recorder {
            session: opened.session,
            start: opened.session.elements.first,
            window: vec![0; room.saturating_mul(BLOCK_LENGTH)],
            frame: vec![0; FRAME_LENGTH],
            unclosed: Unclosed::default(),
        })
    }

    /// Accepts a block of 32,768 bytes.
    ///
    /// # Errors
    /// [`Refusal::Length`], [`Refusal::WindowFull`] or [`Refusal::Phase`].
    pub fn accept_block(&mut self, block: &[u8]) -> Result<(), Refusal> {
        let outcome = ffi::record_block(self.session, block, &mut self.window);
        self.keep(outcome)
    }

    /// Accepts a filemark.
    ///
    /// # Errors
    /// [`Refusal::WindowFull`] or [`Refusal::Phase`].
    pub fn accept_filemark(&mut self) -> Result<(), Refusal> {
        self.keep(ffi::record_filemark(self.session))
    }

    /// Asks for the recording to be ended; it is when a fetch answers
    /// [`Next::Done`].
    ///
    /// After a [`Refusal::TapeFull`] that left the recording
    /// [spent](Recorder::is_spent), close is accepted once more, whether it was
    /// called before or not. The elements that are not known on tape are then given
    /// up, and the end of data follows those that are. At [`Next::Done`] a reading
    /// gives the elements [on tape](Recorder::on_tape), and perhaps the first of the
    /// given-up ones too, if it still reads where its write failed. What belongs on
    /// the next cartridge is all that is not on tape, so ask for
    /// [that](Recorder::not_on_tape) before the close:
    ///
    /// ```
    /// use adr_tape::{Command, Element, Geometry, Next, Recorder, Refusal, Reply, Setup};
    ///
    /// /// Sends good replies until there is nothing to do.
    /// fn send_all(recorder: &mut Recorder) -> Result<(), Refusal> {
    ///     while let Next::Send(..) = recorder.fetch()? {
    ///         recorder.reply(Reply::good())?;
    ///     }
    ///     Ok(())
    /// }
    ///
    /// let geometry = Geometry::beginning(3_001, 1);
    /// let setup = Setup { depth: 4, blocks: 2, tail: 1 };
    /// let mut recorder = Recorder::open(geometry, setup, None)?;
    /// // The user frames up to 2,989. The tail is the one at 3,000.
    /// for _ in 10..2_990 {
    ///     recorder.accept_filemark()?;
    ///     send_all(&mut recorder)?;
    /// }
    /// recorder.accept_filemark()?;
    /// assert_eq!(send_all(&mut recorder), Err(Refusal::TapeFull));
    /// assert!(recorder.is_spent());
    /// assert_eq!(recorder.on_tape(), 2_980);
    /// let rest: Vec<Element> = recorder.not_on_tape().map(Element::into_owned).collect();
    /// assert_eq!(rest, [Element::Filemark]);
    ///
    /// recorder.close()?;
    /// send_all(&mut recorder)?;
    /// assert_eq!(recorder.fetch(), Ok(Next::Done));
    /// assert_eq!(recorder.on_tape(), 2_980);
    /// # Ok::<(), Refusal>(())
    /// ```
    ///
    /// # Errors
    /// [`Refusal::Phase`].
    pub fn close(&mut self) -> Result<(), Refusal> {
        self.keep(ffi::record_close(self.session))
    }

    /// Fetches the next command.
    ///
    /// # Errors
    /// [`Refusal::Phase`] while a reply is awaited; [`Refusal::TapeFull`], after
    /// which a [spent](Recorder::is_spent) recording can be closed.
    pub fn fetch(&mut self) -> Result<Next<'_>, Refusal> {
        let fetched = ffi::record_fetch(self.session, &self.window, &mut self.frame);
        self.session = fetched.session;
        self.check(fetched.number)?;
        Ok(match fetched.answer {
            ffi::IDLE => Next::Idle,
            ffi::DONE => {
                self.unclosed.over();
                Next::Done
            }
            _ => {
                self.unclosed.begun();
                let command = Command::given(fetched.command);
                let writes = matches!(command, Command::Write(_));
                Next::Send(command, writes.then_some(self.frame.as_slice()))
            }
        })
    }

    /// Brings the drive's reply to the command fetched.
    ///
    /// # Errors
    /// [`Refusal::Phase`] if none is awaited; [`Refusal::Reply`],
    /// [`Refusal::NotFound`] or [`Refusal::TapeFull`], after which a
    /// [spent](Recorder::is_spent) recording can be closed.
    pub fn reply(&mut self, reply: Reply) -> Result<(), Refusal> {
        self.keep(ffi::record_reply(self.session, reply.into()))
    }

    /// Whether an element found no room before the tail, and the recording has
    /// not been closed since: [`Recorder::close`] is accepted, and no other call.
    /// With a tail of 0 a recording is never spent, nor when it is the end of data
    /// that found no room.
    #[must_use]
    pub fn is_spent(&self) -> bool {
        self.session.spent == 1
    }

    /// How many of the elements accepted here are known to be on tape: the first
    /// so many. What a reading delivered before [`Recorder::open_at_end`] does not
    /// count.
    #[must_use]
    pub fn on_tape(&self) -> u64 {
        let behind = self.session.elements.first.wrapping_sub(self.start);
        // Then the end of data is on tape too, and has a number like theirs.
        let ended = self.session.stage >= ffi::CLOSING_HEADERS;
        u64::from(behind.saturating_sub(ended.into()))
    }

    /// The elements accepted here that are not known to be on tape, in order:
    /// none once they were given up.
    pub fn not_on_tape(&self) -> impl Iterator<Item = Element<'_>> {
        let elements = &self.session.elements;
        // While the end of data is due, no element is.
        let waiting = if elements.eod == 1 {
            0
        } else {
            elements.pending
        };
        let numbers = (0..waiting).map(|behind| elements.first.wrapping_add(behind.into()));
        numbers.map(|number| self.element(number))
    }

    /// The element of this number, which is not known to be on tape.
    fn element(&self, number: u32) -> Element<'_> {
        let place = |places: usize| number as usize % places;
        let marks = &self.session.elements.marks;
        if marks.get(place(marks.len())) == Some(&1) {
            return Element::Filemark;
        }
        let blocks = usize::from(self.session.setup.highest) + 1;
        let mut window = self.window.chunks_exact(BLOCK_LENGTH);
        Element::from(window.nth(place(blocks)).unwrap_or_default())
    }

    /// Gives the recording up, because the drive can't be reached or the
    /// elements can't be had. The cartridge is as after a power cut:
    /// [`RecordError`](crate::RecordError) tells what stands then.
    pub fn abandon(self) {
        self.unclosed.over();
    }

    fn keep(&mut self, outcome: ffi::RecordOutcome) -> Result<(), Refusal> {
        self.session = outcome.session;
        self.check(outcome.number)?;
        self.unclosed.begun();
        Ok(())
    }

    fn check(&self, number: u8) -> Result<(), Refusal> {
        Refusal::check(number).inspect_err(|refusal| {
            if refusal.ends_session() {
                self.unclosed.over();
            }
        })
    }
}

impl fmt::Debug for Recorder {
    /// The session without the bytes of its buffers.
    fn fmt(&self, formatter: &mut fmt::Formatter<'_>) -> fmt::Result {
        formatter
            .debug_struct("Recorder")
            .field("session", &self.session)
            .finish_non_exhaustive()
    }
}
