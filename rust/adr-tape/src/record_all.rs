//! A whole recording over a drive.

use crate::command::Command;
use crate::drive::Drive;
use crate::element::Element;
use crate::error::{Full, RecordError};
use crate::geometry::Geometry;
use crate::recorder::{Next, Recorder};
use crate::refusal::Refusal;
use crate::reply::Reply;
use crate::setup::Setup;
use crate::summary::Summary;

/// Records elements until there are no more, closes, and returns when the
/// recording is whole.
///
/// `header` is the cartridge's newest, as [`newest_header`](crate::newest_header)
/// finds it. `progress` is called after each reply.
///
/// # Errors
/// The layer's refusal, or what the drive or the source failed with: the recording
/// was cut short, and [`RecordError`] tells what stands on tape then. And
/// [`RecordError::Full`], if there is a tail and
/// the tape was full before it: then the tape was closed, and the error has what
/// is not on it. With a tail of 0 a full tape is [`Refusal::TapeFull`], as it is
/// where the end of data finds no room either.
pub fn record_all<'a, D: Drive, S>(
    drive: &mut D,
    geometry: Geometry,
    setup: Setup,
    header: Option<&[u8]>,
    elements: impl IntoIterator<Item = Result<Element<'a>, S>>,
    progress: impl FnMut(&Summary),
) -> Result<Summary, RecordError<D::Error, S>> {
    let recorder = Recorder::open(geometry, setup, header)?;
    record_with(drive, recorder, elements, progress)
}

/// [`record_all`] with a recorder that was opened before, for one that
/// [`Recorder::open_at_end`] opened.
///
/// # Errors
/// As [`record_all`].
pub fn record_with<'a, D: Drive, S>(
    drive: &mut D,
    mut recorder: Recorder,
    elements: impl IntoIterator<Item = Result<Element<'a>, S>>,
    mut progress: impl FnMut(&Summary),
) -> Result<Summary, RecordError<D::Error, S>> {
    let source = Source {
        elements: elements.into_iter(),
        waiting: None,
        closed: false,
    };
    let recorded = record(drive, &mut recorder, source, &mut progress);
    if recorded.is_err() {
        // The error tells that the recording is not whole.
        recorder.abandon();
    }
    recorded
}

/// Records what the source has, to the end or until the tape is full.
fn record<'a, D: Drive, S>(
    drive: &mut D,
    recorder: &mut Recorder,
    mut source: Source<'a, impl Iterator<Item = Result<Element<'a>, S>>>,
    progress: &mut impl FnMut(&Summary),
) -> Result<Summary, RecordError<D::Error, S>> {
    let mut summary = Summary::default();
    match send_all(drive, recorder, &mut source, &mut summary, progress) {
        Ok(()) => return Ok(summary),
        Err(_) if recorder.is_spent() => {}
        Err(error) => return Err(error),
    }
    let on_tape = recorder.on_tape();
    let accepted = recorder.not_on_tape().chain(source.waiting.take());
    let not_on_tape = accepted.map(Element::into_owned).collect();
    recorder.close()?;
    source.closed = true;
    send_all(drive, recorder, &mut source, &mut summary, progress)?;
    Err(RecordError::Full(Full {
        summary,
        on_tape,
        not_on_tape,
    }))
}

/// Sends commands, and accepts what the source has, until all is done.
fn send_all<'a, D: Drive, S>(
    drive: &mut D,
    recorder: &mut Recorder,
    source: &mut Source<'a, impl Iterator<Item = Result<Element<'a>, S>>>,
    summary: &mut Summary,
    progress: &mut impl FnMut(&Summary),
) -> Result<(), RecordError<D::Error, S>> {
    loop {
        source.fill(recorder, summary)?;
        match recorder.fetch()? {
            Next::Send(command, frame) => {
                let reply = send(drive, command, frame).map_err(RecordError::Drive)?;
                summary.count(command, &reply);
                recorder.reply(reply)?;
                progress(summary);
            }
            Next::Idle => {}
            Next::Done => return Ok(()),
        }
    }
}

/// Where the elements come from.
struct Source<'a, I> {
    elements: I,
    /// The element that the window had no place for.
    waiting: Option<Element<'a>>,
    closed: bool,
}

impl<'a, I, S> Source<'a, I>
where
    I: Iterator<Item = Result<Element<'a>, S>>,
{
    /// Accepts elements until the window is full, and closes when there are no
    /// more.
    fn fill<D>(
        &mut self,
        recorder: &mut Recorder,
        summary: &mut Summary,
    ) -> Result<(), RecordError<D, S>> {
        while !self.closed {
            let element = match self.waiting.take() {
                Some(element) => Some(element),
                None => self
                    .elements
                    .next()
                    .transpose()
                    .map_err(RecordError::Source)?,
            };
            match element {
                None => {
                    recorder.close()?;
                    self.closed = true;
                }
                Some(element) if accept(recorder, &element, summary)? => {}
                Some(element) => {
                    self.waiting = Some(element);
                    return Ok(());
                }
            }
        }
        Ok(())
    }
}

/// Accepts an element; false if the window is full.
fn accept(
    recorder: &mut Recorder,
    element: &Element<'_>,
    summary: &mut Summary,
) -> Result<bool, Refusal> {
    let (accepted, count) = match element {
        Element::Block(block) => (recorder.accept_block(block), &mut summary.blocks),
        Element::Filemark => (recorder.accept_filemark(), &mut summary.filemarks),
    };
    match accepted {
        Ok(()) => {
            *count += 1;
            Ok(true)
        }
        Err(Refusal::WindowFull) => Ok(false),
        Err(refusal) => Err(refusal),
    }
}

fn send<D: Drive>(
    drive: &mut D,
    command: Command,
    frame: Option<&[u8]>,
) -> Result<Reply, D::Error> {
    match command {
        Command::Write(address) => drive.write(address, frame.unwrap_or_default()),
        Command::Locate(address) => drive.locate(address),
        // A recording sends no READ.
        Command::ReadPosition | Command::Read(_) => drive.read_position(),
    }
}
