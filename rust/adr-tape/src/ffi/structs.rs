//! The structs of `include/adr.h`, field by field in its order: what a new
//! field of a session costs here is its line, and one in `layout`.

/// `struct adr_geometry`.
#[repr(C)]
#[derive(Clone, Copy, Debug, Default, PartialEq, Eq)]
pub struct Geometry {
    /// Frames on a track.
    pub segtrk: u32,
    /// Tracks.
    pub trks: u32,
    /// Where the cartridge is loaded: 0 the beginning, 1 the centre.
    pub load: u32,
}

/// `struct adr_reply`.
#[repr(C)]
#[derive(Clone, Copy, Debug, Default, PartialEq, Eq)]
pub struct Reply {
    /// Frames still buffered.
    pub buffered: u32,
    /// The address of a failed frame.
    pub position: u32,
    /// The skip that the drive advises.
    pub skip: u32,
    /// Sense key.
    pub key: u8,
    /// Additional sense code.
    pub asc: u8,
    /// Additional sense code qualifier.
    pub ascq: u8,
}

/// `struct adr_place`.
#[repr(C)]
#[derive(Clone, Copy, Debug, Default, PartialEq, Eq)]
pub struct Place {
    /// The address, 0 where refused.
    pub address: u32,
    /// The refusal, 0 for none.
    pub number: u8,
}

/// `struct adr_choice`.
#[repr(C)]
#[derive(Clone, Copy, Debug, Default, PartialEq, Eq)]
pub struct Choice {
    /// 1 for the first, 2 for the second, 0 where refused.
    pub which: u8,
    /// The refusal, 0 for none.
    pub number: u8,
}

/// `struct adr_command`.
#[repr(C)]
#[derive(Clone, Copy, Debug, Default, PartialEq, Eq)]
pub struct Command {
    /// The operation code, 0 for no command.
    pub code: u8,
    /// The address, 0 for READ POSITION.
    pub address: u32,
}

/// `struct adr_exchange`: the command last given.
#[repr(C)]
#[derive(Clone, Copy, Debug, Default, PartialEq, Eq)]
pub struct Exchange {
    /// The command; nothing before the first.
    pub command: Command,
    /// 1 while its reply is awaited.
    pub awaiting: u8,
    /// 1 if it was answered busy and comes again.
    pub again: u8,
}

/// `struct adr_setup`: the sizes a recording was opened with.
#[repr(C)]
#[derive(Clone, Copy, Debug, Default, PartialEq, Eq)]
pub struct Setup {
    /// Frames the drive buffers.
    pub depth: u8,
    /// Blocks of the window, less one.
    pub highest: u8,
    /// Addresses up to END that are kept for EOD.
    pub tail: u8,
}

/// `struct adr_header`: what the header copies say.
#[repr(C)]
#[derive(Clone, Copy, Debug, Default, PartialEq, Eq)]
pub struct Header {
    /// LAST.
    pub last: u32,
    /// The address of EOD, 0 for none.
    pub eod: u32,
    /// The end that the session was opened at, in opening headers; 0 for none.
    pub old: u32,
    /// Update count.
    pub update: u32,
    /// Write pass.
    pub pass: u16,
}

/// `struct adr_copies`: the header copies on their way to tape.
#[repr(C)]
#[derive(Clone, Copy, Debug, Default, PartialEq, Eq)]
pub struct Copies {
    /// What they say.
    pub header: Header,
    /// The group of the next copy, 0 or 1.
    pub group: u8,
    /// Its number in the group; 5 behind the last.
    pub copy: u8,
    /// Of this group: taken by the drive and not confirmed.
    pub outstanding: u8,
    /// Of both groups: known on tape.
    pub confirmed: u8,
    /// 1 if a LOCATE of the next copy's address comes first.
    pub locate: u8,
}

/// `struct adr_trail`: filemarks. In a recording those before the oldest element
/// not known on tape, in a reading those delivered.
#[repr(C)]
#[derive(Clone, Copy, Debug, Default, PartialEq, Eq)]
pub struct Trail {
    /// How many.
    pub filemarks: u32,
    /// The address of the latest, FFFFFFFF where there is none.
    pub marker: u32,
}

/// `struct adr_elements`: the elements on their way to tape.
#[repr(C)]
#[derive(Clone, Copy, Debug, PartialEq, Eq)]
pub struct Elements {
    /// The number of the oldest not known on tape; once the elements that were
    /// not are given up, EOD's. All below it are on tape.
    pub first: u32,
    /// Where the next frame goes, unless a LOCATE comes first.
    pub next: u32,
    /// One past END, the highest address that may be written.
    pub limit: u32,
    /// The address of the LOCATE that `locate` asks for.
    pub target: u32,
    /// The filemarks before the element `first`.
    pub trail: Trail,
    /// Accepted, or EOD, and not known on tape.
    pub pending: u16,
    /// Of these: taken by the drive.
    pub outstanding: u16,
    /// 1 if a LOCATE of `target` comes first.
    pub locate: u8,
    /// 1 once EOD became due.
    pub eod: u8,
    /// At i mod 64, 1 if the pending element i is a filemark.
    pub marks: [u8; 64],
}

/// `struct adr_recording`: a recording session. Keep it, hand it back, change
/// nothing.
#[repr(C)]
#[derive(Clone, Copy, Debug, PartialEq, Eq)]
pub struct Recording {
    /// The sizes it was opened with.
    pub setup: Setup,
    /// 0 opening headers, 1 elements, 2 closing headers, 3 done.
    pub stage: u8,
    /// 1 once close was called.
    pub closed: u8,
    /// 1 once a refusal of 8 or above ended it, or if its opening was refused.
    pub ended: u8,
    /// 1 if an element found no room before the tail: close is accepted once
    /// more.
    pub spent: u8,
    /// The command last given.
    pub exchange: Exchange,
    /// The header copies.
    pub copies: Copies,
    /// The elements.
    pub elements: Elements,
}

/// `struct adr_told`: what a reading was told by the header.
#[repr(C)]
#[derive(Clone, Copy, Debug, Default, PartialEq, Eq)]
pub struct Told {
    /// LAST.
    pub last: u32,
    /// The address of EOD, 0 for none.
    pub eod: u32,
    /// The end that the header's session was opened at, 0 for none.
    pub old: u32,
    /// Update count.
    pub update: u32,
    /// Write pass.
    pub pass: u16,
}

/// `struct adr_position`: where a reading goes on.
#[repr(C)]
#[derive(Clone, Copy, Debug, Default, PartialEq, Eq)]
pub struct Position {
    /// The address read next, unless a LOCATE comes first.
    pub next: u32,
    /// 1 if a LOCATE of `next` comes first.
    pub locate: u8,
}

/// `struct adr_reading`: a reading session. Keep it, hand it back, change
/// nothing.
#[repr(C)]
#[derive(Clone, Copy, Debug, Default, PartialEq, Eq)]
pub struct Reading {
    /// What the header told.
    pub told: Told,
    /// Where it goes on.
    pub position: Position,
    /// The number of the element expected.
    pub expected: u32,
    /// The filemarks delivered.
    pub trail: Trail,
    /// The command last given.
    pub exchange: Exchange,
    /// 1 once EOD was read.
    pub finished: u8,
    /// 1 once a refusal of 8 or above ended it, or if its opening was refused.
    pub ended: u8,
}

/// `struct adr_sheet`: a shelf sheet that is being printed. Keep it, hand it
/// back, change nothing.
#[repr(C)]
#[derive(Clone, Copy, Debug, Default, PartialEq, Eq)]
pub struct Sheet {
    /// The number of the open job's first element.
    pub first: u64,
    /// The number that comes next, up to 4,294,967,296.
    pub next: u64,
    /// The open job, from 1.
    pub job: u32,
    /// 1 once nothing more is printed.
    pub ended: u8,
}

/// `struct adr_record_outcome`.
#[repr(C)]
#[derive(Clone, Copy, Debug, PartialEq, Eq)]
pub struct RecordOutcome {
    /// The session after the call.
    pub session: Recording,
    /// The refusal, 0 for none.
    pub number: u8,
}

/// `struct adr_record_fetched`.
#[repr(C)]
#[derive(Clone, Copy, Debug, PartialEq, Eq)]
pub struct RecordFetched {
    /// The session after the call.
    pub session: Recording,
    /// The command, if the answer is [`COMMAND`](super::COMMAND).
    pub command: Command,
    /// [`COMMAND`](super::COMMAND), [`IDLE`](super::IDLE),
    /// [`DONE`](super::DONE) or [`REFUSED`](super::REFUSED).
    pub answer: u8,
    /// The refusal, 0 for none.
    pub number: u8,
}

/// `struct adr_read_opened`.
#[repr(C)]
#[derive(Clone, Copy, Debug, PartialEq, Eq)]
pub struct ReadOpened {
    /// The session after the call.
    pub session: Reading,
    /// The refusal, 0 for none.
    pub number: u8,
}

/// `struct adr_read_fetched`.
#[repr(C)]
#[derive(Clone, Copy, Debug, PartialEq, Eq)]
pub struct ReadFetched {
    /// The session after the call.
    pub session: Reading,
    /// The command, if the answer is [`COMMAND`](super::COMMAND).
    pub command: Command,
    /// [`COMMAND`](super::COMMAND), [`END`](super::END) or
    /// [`REFUSED`](super::REFUSED).
    pub answer: u8,
    /// The refusal, 0 for none.
    pub number: u8,
}

/// `struct adr_read_replied`.
#[repr(C)]
#[derive(Clone, Copy, Debug, PartialEq, Eq)]
pub struct ReadReplied {
    /// The session after the call.
    pub session: Reading,
    /// [`NOTHING`](super::NOTHING), [`BLOCK`](super::BLOCK),
    /// [`FILEMARK`](super::FILEMARK), [`END`](super::END) or
    /// [`REFUSED`](super::REFUSED).
    pub answer: u8,
    /// The refusal, 0 for none.
    pub number: u8,
}

/// `struct adr_sheet_entered`.
#[repr(C)]
#[derive(Clone, Copy, Debug, PartialEq, Eq)]
pub struct SheetEntered {
    /// The sheet after the call.
    pub sheet: Sheet,
    /// [`LINE`](super::LINE), [`NOTHING`](super::NOTHING) or
    /// [`REFUSED`](super::REFUSED).
    pub answer: u8,
    /// The refusal, 0 for none.
    pub number: u8,
}

/// The name that [`ReadReplied`] had before.
pub type ReadTaken = ReadReplied;
