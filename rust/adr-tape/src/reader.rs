//! A reading session.

use crate::command::Command;
use crate::ffi;
use crate::geometry::{Geometry, BLOCK_LENGTH};
use crate::refusal::Refusal;
use crate::reply::Reply;

/// What a reading wants next.
#[derive(Clone, Copy, Debug, PartialEq, Eq)]
#[must_use = "a command that is not sent leaves the session waiting for its reply"]
pub enum ReadNext {
    /// Send this command and bring the reply.
    Send(Command),
    /// EOD was read: everything was delivered.
    End,
}

/// What a reply to a reading delivers.
#[derive(Clone, Copy, Debug, PartialEq, Eq)]
#[must_use = "what is not taken from here is not delivered again"]
pub enum Delivery<'f> {
    /// Nothing.
    Nothing,
    /// The next element is a block: these 32,768 bytes of the frame.
    Block(&'f [u8]),
    /// The next element is a filemark.
    Filemark,
    /// EOD was read: everything was delivered.
    End,
}

/// A reading session.
///
/// Fetch a command, send it, bring the reply with the frame read, until the
/// end. There [`Recorder::open_at_end`](crate::Recorder::open_at_end) can add to
/// what was read.
///
/// ```
/// use adr_tape::{
///     Address, Command, Delivery, Geometry, Next, ReadNext, Reader, Recorder, Reply, Setup,
/// };
///
/// # let geometry = Geometry::beginning(3_001, 1);
/// # let mut frames = std::collections::BTreeMap::new();
/// # let setup = Setup { depth: 4, blocks: 2, tail: 1 };
/// # let mut recorder = Recorder::open(geometry, setup, None)?;
/// # recorder.accept_block(&[5; adr_tape::BLOCK_LENGTH])?;
/// # recorder.close()?;
/// # while let Next::Send(command, frame) = recorder.fetch()? {
/// #     if let (Command::Write(address), Some(frame)) = (command, frame) {
/// #         frames.insert(address, frame.to_vec());
/// #     }
/// #     recorder.reply(Reply::good())?;
/// # }
/// // `frames` is what stands at each address of a recorded tape.
/// let mut reader = Reader::open(geometry, &frames[&Address(5)])?;
/// let mut frame = vec![0; adr_tape::FRAME_LENGTH];
/// while let ReadNext::Send(command) = reader.fetch()? {
///     if let Command::Read(address) = command {
///         frame.copy_from_slice(&frames[&address]);
///     }
///     if let Delivery::Block(block) = reader.reply(Reply::good(), &frame)? {
///         assert_eq!(block, [5; adr_tape::BLOCK_LENGTH]);
///     }
/// }
/// # Ok::<(), adr_tape::Refusal>(())
/// ```
#[derive(Clone, Debug, PartialEq, Eq)]
#[must_use = "nothing is read until its commands are fetched and sent"]
pub struct Reader {
    session: ffi::Reading,
}

impl Reader {
    /// Opens a reading on the newest header.
    ///
    /// # Errors
    /// [`Refusal::Length`], [`Refusal::Geometry`] or [`Refusal::Header`].
    #[must_use = "nothing is read by opening alone"]
    pub fn open(geometry: Geometry, header: &[u8]) -> Result<Reader, Refusal> {
        let opened = ffi::read_open(geometry.into(), header);
        Refusal::check(opened.number)?;
        Ok(Reader {
            session: opened.session,
        })
    }

    /// The session, for a recording that is opened at its end.
    pub(crate) fn session(&self) -> ffi::Reading {
        self.session
    }

    /// Fetches the next command.
    ///
    /// # Errors
    /// [`Refusal::Phase`] while a reply is awaited; [`Refusal::NotFound`].
    pub fn fetch(&mut self) -> Result<ReadNext, Refusal> {
        let fetched = ffi::read_fetch(self.session);
        self.session = fetched.session;
        Refusal::check(fetched.number)?;
        Ok(match fetched.answer {
            ffi::END => ReadNext::End,
            _ => ReadNext::Send(Command::given(fetched.command)),
        })
    }

    /// Brings the drive's reply to the command fetched, with the 33,280 bytes
    /// of the frame read; a reply that brings no frame is lent them all the
    /// same and does not look at them.
    ///
    /// # Errors
    /// [`Refusal::Length`]; [`Refusal::Phase`] if no reply is awaited;
    /// [`Refusal::Reply`], [`Refusal::Missing`], [`Refusal::Foreign`] or
    /// [`Refusal::NotFound`].
    pub fn reply<'f>(&mut self, reply: Reply, frame: &'f [u8]) -> Result<Delivery<'f>, Refusal> {
        let replied = ffi::read_reply(self.session, reply.into(), frame);
        self.session = replied.session;
        Refusal::check(replied.number)?;
        Ok(match replied.answer {
            ffi::BLOCK => Delivery::Block(frame.get(..BLOCK_LENGTH).unwrap_or(frame)),
            ffi::FILEMARK => Delivery::Filemark,
            ffi::END => Delivery::End,
            _ => Delivery::Nothing,
        })
    }
}
