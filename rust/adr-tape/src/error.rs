//! How whole recordings, readings and sheets fail.

use std::convert::Infallible;
use std::error::Error;
use std::fmt;
use std::io;

use crate::element::Element;
use crate::refusal::Refusal;
use crate::summary::Summary;

/// Why the newest header could not be found.
///
/// It is shown as what failed; [`Error::source`] gives the error in it.
#[derive(Clone, Copy, Debug, PartialEq, Eq)]
pub enum HeaderError<D> {
    /// The layer refused, or the drive's reply was unlawful.
    Refused(Refusal),
    /// The drive's transport failed.
    Drive(D),
}

/// Why a recording did not become whole.
///
/// But for [`RecordError::Full`], and for an opening that was refused, where
/// nothing was written, it was cut short, as where the mains go. What stands on
/// tape can be read on the newest header that reads:
///
/// * Of a recording that was added, if that header is a copy of the one that it
///   was opened on, or newer: everything that was there before, then elements of
///   this one from its first on, in order.
/// * Of a fresh one, on a header of its own: the same with nothing before. Before
///   its first header was written: what was there before.
///
/// Nothing else is delivered, and the reading comes to an end or is refused with
/// [`Refusal::NotFound`], never with [`Refusal::Reply`], [`Refusal::Missing`] or
/// [`Refusal::Foreign`]. How many elements of this recording come is not promised.
/// All this needs what a reading of a whole recording needs, too: that it was opened
/// as it should be, on the newest header and over no left-over frames.
///
/// Then look at the newest header. Where it names no end, nothing can be added:
/// read what is to be kept, and record afresh, here or on another cartridge. Where
/// it is a closing header of this recording, all of it is on tape, and the
/// cartridge may be added to. Where it is the header that the recording was opened
/// on, the cartridge is as it was, but for copies of its header, if nothing had been
/// sent to a user frame, and is else not to be added to. `include/adr.h` tells more (CUT SHORT, WRITE PASSES).
///
/// It is shown as what failed; [`Error::source`] gives the error in it.
#[derive(Clone, Debug, PartialEq, Eq)]
pub enum RecordError<D, S> {
    /// The layer refused.
    Refused(Refusal),
    /// The drive's transport failed.
    Drive(D),
    /// The source of the elements failed.
    Source(S),
    /// The tape is full, and was closed behind what it could take.
    Full(Full),
}

/// What came of a recording on a tape that was full before all was recorded.
///
/// It was closed in order: its headers are written, it can be read to its end
/// and, where there is room, added to. The elements that follow belong on another
/// cartridge: first `not_on_tape`, then what is left of the source. A source that
/// was lent (`by_ref()` of an iterator, or `&mut`) has that still.
///
/// A reading may give one element more than `on_tape` tells: the first of
/// `not_on_tape`, if it still reads where its write failed. It belongs on the other
/// cartridge all the same.
///
/// ```
/// # use std::convert::Infallible;
/// # use adr_tape::{Address, Drive, Reply};
/// # /// Forgets what it writes.
/// # struct Nowhere;
/// # impl Drive for Nowhere {
/// #     type Error = Infallible;
/// #     fn locate(&mut self, _: Address) -> Result<Reply, Infallible> {
/// #         Ok(Reply::good())
/// #     }
/// #     fn write(&mut self, _: Address, _: &[u8]) -> Result<Reply, Infallible> {
/// #         Ok(Reply::good())
/// #     }
/// #     fn read(&mut self, _: Address, _: &mut [u8]) -> Result<Reply, Infallible> {
/// #         Ok(Reply::good())
/// #     }
/// #     fn read_position(&mut self) -> Result<Reply, Infallible> {
/// #         Ok(Reply::buffered(0))
/// #     }
/// # }
/// use adr_tape::{record_all, Element, Geometry, RecordError, Setup};
///
/// # let (mut drive, mut other_drive) = (Nowhere, Nowhere);
/// let geometry = Geometry::beginning(3_001, 1);
/// let setup = Setup { depth: 8, blocks: 16, tail: 8 };
/// let block = vec![7; adr_tape::BLOCK_LENGTH];
/// let mut elements = (0..5_000).map(|_| Ok::<_, Infallible>(Element::from(&block[..])));
///
/// match record_all(&mut drive, geometry, setup, None, elements.by_ref(), |_| {}) {
///     Err(RecordError::Full(full)) => {
///         assert_eq!(full.on_tape, 2_980);
///         let rest = full.not_on_tape.into_iter().map(Ok).chain(elements);
///         let summary = record_all(&mut other_drive, geometry, setup, None, rest, |_| {});
///         assert_eq!(summary.map(|summary| summary.blocks), Ok(2_020));
///     }
///     recorded => panic!("it was not full: {recorded:?}"),
/// }
/// ```
#[derive(Clone, Debug, Default, PartialEq, Eq)]
pub struct Full {
    /// Counts of the recording. Elements that were accepted and given up are among
    /// them.
    pub summary: Summary,
    /// How many of the elements are known to be on tape: the first so many.
    pub on_tape: u64,
    /// The elements that were taken from the source and are not known to be on
    /// tape, in order.
    pub not_on_tape: Vec<Element<'static>>,
}

/// Why a reading did not come to its end.
///
/// It is shown as what failed; [`Error::source`] gives the error in it.
#[derive(Clone, Copy, Debug, PartialEq, Eq)]
pub enum ReadError<D, S> {
    /// The layer refused.
    Refused(Refusal),
    /// The drive's transport failed.
    Drive(D),
    /// What the elements were handed to failed.
    Sink(S),
}

/// Why nothing, or not everything, was added to a cartridge.
///
/// It is shown as what failed; [`Error::source`] gives the error in it.
#[derive(Clone, Debug, PartialEq, Eq)]
pub enum AppendError<D, S> {
    /// What is on the cartridge was not read to its end. Nothing was written.
    Read(ReadError<D, Infallible>),
    /// The recording behind it did not become whole. One whose opening was refused
    /// ([`Refusal::Capacity`], [`Refusal::Exhausted`], [`Refusal::EndElsewhere`])
    /// wrote nothing; any other may have. [`RecordError::Full`] tells of the
    /// elements that were to be added.
    Record(RecordError<D, S>),
}

/// What failed while the sheet of a dump was printed.
///
/// It is shown as what failed; [`Error::source`] gives the error in it.
#[derive(Debug)]
pub enum SheetError {
    /// The dump could not be read further. The sheet ends there, with a line of
    /// asterisks.
    Dump(io::Error),
    /// The sheet could not be written. What was written of it is not whole.
    Output(io::Error),
}

impl<D> From<Refusal> for HeaderError<D> {
    fn from(refusal: Refusal) -> Self {
        HeaderError::Refused(refusal)
    }
}

impl<D, S> From<Refusal> for RecordError<D, S> {
    fn from(refusal: Refusal) -> Self {
        RecordError::Refused(refusal)
    }
}

impl<D, S> From<Refusal> for ReadError<D, S> {
    fn from(refusal: Refusal) -> Self {
        ReadError::Refused(refusal)
    }
}

impl<D, S> From<ReadError<D, Infallible>> for AppendError<D, S> {
    fn from(error: ReadError<D, Infallible>) -> Self {
        AppendError::Read(error)
    }
}

impl<D, S> From<RecordError<D, S>> for AppendError<D, S> {
    fn from(error: RecordError<D, S>) -> Self {
        AppendError::Record(error)
    }
}

impl<D> fmt::Display for HeaderError<D> {
    fn fmt(&self, formatter: &mut fmt::Formatter<'_>) -> fmt::Result {
        formatter.write_str(match self {
            HeaderError::Refused(_) => "no newest header was found",
            HeaderError::Drive(_) => "the drive failed while the headers were read",
        })
    }
}

impl<D, S> fmt::Display for RecordError<D, S> {
    fn fmt(&self, formatter: &mut fmt::Formatter<'_>) -> fmt::Result {
        formatter.write_str(match self {
            RecordError::Refused(_) => "the recording was refused",
            RecordError::Drive(_) => "the drive failed while it recorded",
            RecordError::Source(_) => "the source of the recording failed",
            RecordError::Full(_) => "not everything was recorded",
        })
    }
}

impl<D, S> fmt::Display for ReadError<D, S> {
    fn fmt(&self, formatter: &mut fmt::Formatter<'_>) -> fmt::Result {
        formatter.write_str(match self {
            ReadError::Refused(_) => "the reading was refused",
            ReadError::Drive(_) => "the drive failed while it read",
            ReadError::Sink(_) => "what was read could not be handed on",
        })
    }
}

impl<D, S> fmt::Display for AppendError<D, S> {
    fn fmt(&self, formatter: &mut fmt::Formatter<'_>) -> fmt::Result {
        formatter.write_str(match self {
            AppendError::Read(_) => "nothing was added: the end of data was not read",
            AppendError::Record(_) => "what was to be added was not recorded whole",
        })
    }
}

impl fmt::Display for SheetError {
    fn fmt(&self, formatter: &mut fmt::Formatter<'_>) -> fmt::Result {
        formatter.write_str(match self {
            SheetError::Dump(_) => "the dump of AUX fields could not be read",
            SheetError::Output(_) => "the shelf sheet could not be written",
        })
    }
}

impl<D: Error + 'static> Error for HeaderError<D> {
    fn source(&self) -> Option<&(dyn Error + 'static)> {
        Some(match self {
            HeaderError::Refused(refusal) => refusal,
            HeaderError::Drive(error) => error,
        })
    }
}

impl<D: Error + 'static, S: Error + 'static> Error for RecordError<D, S> {
    fn source(&self) -> Option<&(dyn Error + 'static)> {
        Some(match self {
            RecordError::Refused(refusal) => refusal,
            RecordError::Drive(error) => error,
            RecordError::Source(error) => error,
            RecordError::Full(_) => &Refusal::TapeFull,
        })
    }
}

impl<D: Error + 'static, S: Error + 'static> Error for ReadError<D, S> {
    fn source(&self) -> Option<&(dyn Error + 'static)> {
        Some(match self {
            ReadError::Refused(refusal) => refusal,
            ReadError::Drive(error) => error,
            ReadError::Sink(error) => error,
        })
    }
}

impl<D: Error + 'static, S: Error + 'static> Error for AppendError<D, S> {
    fn source(&self) -> Option<&(dyn Error + 'static)> {
        Some(match self {
            AppendError::Read(error) => error,
            AppendError::Record(error) => error,
        })
    }
}

impl Error for SheetError {
    fn source(&self) -> Option<&(dyn Error + 'static)> {
        match self {
            SheetError::Dump(error) | SheetError::Output(error) => Some(error),
        }
    }
}
