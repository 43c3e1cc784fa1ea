//! Where a session stands, in the scope's terms: what two representations of
//! the same session have in common. A session that a refusal has ended has no
//! such state, since nothing but refusal 7 follows, unless it is spent: a
//! close may follow there, which goes on from where it stands.

use crate::command::Command;
use crate::frame::{HeaderFields, Kind};
use crate::geometry::{Address, SequenceNumber};

/// The stages of a recording; the first LOCATE of a user frame belongs to the
/// elements.
#[derive(Clone, Copy, Debug, PartialEq, Eq)]
pub enum StageName {
    /// Opening headers.
    OpeningHeaders,
    /// LOCATE of where they begin, elements and EOD.
    Elements,
    /// Closing headers.
    ClosingHeaders,
    /// Done.
    Done,
}

/// How it stands with the command last given.
#[derive(Clone, Copy, Debug, PartialEq, Eq)]
pub struct ExchangeState {
    /// The command whose reply is awaited.
    pub awaited: Option<Command>,
    /// The command answered busy, which comes again.
    pub again: Option<Command>,
}

/// Where a recording stands.
#[derive(Clone, Debug, PartialEq, Eq)]
pub struct RecordingState {
    /// D.
    pub depth: u32,
    /// W.
    pub window_blocks: u32,
    /// T.
    pub tail: u32,
    /// The stage.
    pub stage: StageName,
    /// Whether close was called.
    pub closed: bool,
    /// Whether a 9 has ended it after which close is accepted.
    pub spent: bool,
    /// The command last given; none in a session that is spent, which brings
    /// no reply and repeats no command.
    pub exchange: ExchangeState,
    /// What the header copies of this stage say, or those of the stage before.
    pub header: HeaderFields,
    /// The header copies, in their two stages.
    pub copies: Option<CopiesState>,
    /// The elements, until EOD is known on tape.
    pub elements: Option<ElementsState>,
}

/// Where the walk over the header copies stands.
#[derive(Clone, Copy, Debug, PartialEq, Eq)]
pub struct CopiesState {
    /// The group of the next copy, from 0.
    pub group: u32,
    /// The next copy in its group, from 0.
    pub copy: u32,
    /// Copies taken by the drive and not known on tape.
    pub outstanding: u32,
    /// Copies known on tape.
    pub confirmed: u32,
    /// Whether a LOCATE is due.
    pub locate: bool,
}

/// Where the next frame goes.
#[derive(Clone, Copy, Debug, PartialEq, Eq)]
pub enum Going {
    /// Behind a LOCATE that is due: of where the elements begin, or of a
    /// write error's target.
    Locate(Address),
    /// To this address, where the drive stands.
    Next(Address),
}

/// Where elements and EOD stand.
#[derive(Clone, Debug, PartialEq, Eq)]
pub struct ElementsState {
    /// The number of the oldest element not known on tape.
    pub first: SequenceNumber,
    /// From there on what is accepted, and EOD where it is due.
    pub pending: Vec<Kind>,
    /// The first so many of them are taken by the drive.
    pub outstanding: u32,
    /// Where the next frame goes.
    pub going: Going,
    /// END.
    pub end: Address,
    /// Filemarks before the oldest element not known on tape.
    pub filemarks: u32,
    /// The marker of the latest of these.
    pub latest_marker: Option<Address>,
}

/// Where a reading stands.
#[derive(Clone, Copy, Debug, PartialEq, Eq)]
pub struct ReadingState {
    /// What the header says.
    pub header: HeaderFields,
    /// The next address.
    pub next: Address,
    /// Whether a LOCATE of it is due.
    pub locate: bool,
    /// The number expected.
    pub expected: SequenceNumber,
    /// Filemarks delivered.
    pub filemarks: u32,
    /// Where the latest of these was delivered.
    pub latest_marker: Option<Address>,
    /// Whether EOD was read.
    pub finished: bool,
    /// The command last given.
    pub exchange: ExchangeState,
}
