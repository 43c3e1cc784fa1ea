//! The host of a reading: compares the deliveries with what was accepted.

use super::case::Case;
use super::content::{block, Element};
use super::guarded::Guarded;
use super::layer::{Layer, ReadingCalls};
use super::opening;
use super::plain::Recorded;
use crate::command::{Command, Outcome, ReadAnswer, ReadOutcome};
use crate::drive::Drive;
use crate::frame::{data_of, Frame, HeaderFields};
use crate::geometry::{Address, FRAME_LENGTH, HEADER_GROUPS};
use crate::header::check;
use crate::random::Random;
use crate::reply::{Meaning, Reply, GOOD};
use crate::tape::Shared;

/// The frames for which a reading takes in no reply, busy ones aside: headers
/// and defect maps are twenty, but 10 and 3,000 are located besides.
const NOT_REPLIED: u32 = 20 - 2;
/// The LAST up to which a cartridge without an end is read.
pub(super) const FAR: u32 = 20_000;

/// Tells which element a delivery is, by its number, its kind and its frame; none
/// if it is not due.
pub(super) type Due<'a> = &'a dyn Fn(usize, ReadOutcome, &Frame) -> Option<Element>;

/// The deliveries of what was accepted.
pub(super) fn due_of(
    accepted: &[Element],
) -> impl Fn(usize, ReadOutcome, &Frame) -> Option<Element> + '_ {
    |number, outcome, frame| {
        let element = accepted.get(number);
        element
            .filter(|due| is_delivered(outcome, frame, due))
            .copied()
    }
}

/// What a reading came to.
#[derive(Clone, Debug, PartialEq, Eq)]
pub struct ReadBack<R> {
    /// The session.
    pub session: R,
    /// The header that it was opened on.
    pub opened_on: Shared,
    /// What that says.
    pub header: HeaderFields,
    /// What was delivered.
    pub elements: Vec<Element>,
    /// Where each of these was delivered.
    pub places: Vec<Address>,
    /// Where EOD ended it.
    pub end: Option<Address>,
    /// The refusal that ended it.
    pub refused: Option<u8>,
    /// The recordings that wrote what was read.
    pub recordings: usize,
    /// The elements that these promised.
    pub promised: usize,
    /// Whether the last of these was given up.
    pub given_up: bool,
}

impl<R> ReadBack<R> {
    /// The last filemark delivered, and where it was.
    #[must_use]
    pub fn latest_marker(&self) -> Option<(usize, Address)> {
        let delivered = self.elements.iter().zip(&self.places).enumerate();
        delivered
            .rev()
            .find(|(_, (element, _))| **element == Element::Filemark)
            .map(|(number, (_, place))| (number, *place))
    }

    fn told(&self) -> String {
        format!(
            "end {:?}, refusal {:?} after {} deliveries",
            self.end,
            self.refused,
            self.elements.len()
        )
    }
}

/// Reads a finished cartridge back on newest headers: every copy, or one. All
/// that was promised must be delivered, and beyond it at most the next that was
/// accepted; the last reading is given.
///
/// # Errors
/// What was found wrong.
pub fn read_back<L: Layer>(
    case: &Case,
    last: Address,
    drive: &mut Drive,
    recorded: &Recorded,
    seed: u64,
    every_copy: bool,
) -> Result<ReadBack<L::Reading>, String> {
    let mut copies = drive.tape().newest_headers(last);
    if !every_copy {
        copies.drain(..copies.len().saturating_sub(1));
    }
    let mut read_last = Err("the cartridge holds no header".into());
    for ((header, fields), seed) in copies.iter().zip(seed..) {
        if !fields.eod.is_user_frame(last) {
            return Err("the newest header is not closed".into());
        }
        choice_agrees::<L>(case, drive, fields)?;
        let due = due_of(&recorded.accepted);
        let back = read::<L::Reading>(case, header, drive, &due, seed)?;
        if back.end.is_none() || !recorded.may_read(back.elements.len()) {
            return Err(back.told());
        }
        read_last = Ok(back);
    }
    read_last
}

/// Chooses among the ten copies two by two, as a host does.
fn choice_agrees<L: Layer>(
    case: &Case,
    drive: &Drive,
    newest: &HeaderFields,
) -> Result<(), String> {
    let mut chosen: &[u8] = &[];
    for address in HEADER_GROUPS.iter().flatten() {
        if let Some(copy) = drive.tape().read(*address) {
            let first = if chosen.is_empty() {
                copy.as_slice()
            } else {
                chosen
            };
            // Two invalid ones are refused, and so may two old ones be.
            chosen = L::choose(&case.geometry, first, copy.as_slice()).unwrap_or(first);
        }
    }
    let fields = check(&case.geometry, chosen);
    if fields == Ok(*newest) {
        Ok(())
    } else {
        Err(format!("the choice gave {fields:?}, not {newest:?}"))
    }
}

/// Reads a cartridge whose recording broke off, if its headers were written;
/// the deliveries are the first so many of what was accepted, and the end is
/// missing if EOD was never sent, but for the `closed` elements that an EOD
/// stood behind at the opening. An EOD was sent behind all that was promised.
///
/// # Errors
/// What was found wrong.
pub fn read_unfinished<L: Layer>(
    case: &Case,
    pass: u16,
    drive: &mut Drive,
    recorded: &Recorded,
    closed: Option<usize>,
    seed: u64,
) -> Result<(), String> {
    let last = case.geometry.last().filter(|last| last.0 <= FAR);
    let newest = last.and_then(|last| drive.tape().newest_header(last));
    let Some((header, _)) = newest.filter(|(_, fields)| fields.pass == pass) else {
        return Ok(());
    };
    let due = due_of(&recorded.accepted);
    let back = read::<L::Reading>(case, &header, drive, &due, seed)?;
    let delivered = back.elements.len();
    let ends = recorded.may_read(delivered) || Some(delivered) == closed;
    if back.refused != Some(12) && (back.end.is_none() || !ends) {
        return Err(back.told());
    }
    opening::is_answered::<L>(&back)
}

/// Reads a cartridge on a header; each delivery must be due.
///
/// # Errors
/// What was found wrong.
pub(super) fn read<S: ReadingCalls>(
    case: &Case,
    opened_on: &Shared,
    drive: &mut Drive,
    due: Due,
    seed: u64,
) -> Result<ReadBack<S>, String> {
    let (mut session, outcome) = S::open(&case.geometry, opened_on.as_slice());
    let opened = check(&case.geometry, opened_on.as_slice());
    let (Outcome::Accepted, Ok(header)) = (outcome, opened) else {
        return Err(format!("the reading opened with {outcome:?}"));
    };
    session.plant(case.fault);
    let mut lent = Lent::new();
    let back = ReadBack {
        session,
        opened_on: opened_on.clone(),
        header,
        elements: Vec::new(),
        places: Vec::new(),
        end: None,
        refused: None,
        recordings: 0,
        promised: 0,
        given_up: false,
    };
    let back = read_with(back, &mut lent, case, drive, due, seed)?;
    lent.is_unaltered()?;
    back.session.wrong().map_or(Ok(back), Err)
}

/// The frame that is lent with a reply, and what it must hold.
struct Lent {
    frame: Guarded,
    held: Box<Frame>,
    /// What the drive brings.
    brought: Box<Frame>,
}

impl Lent {
    fn new() -> Lent {
        let held = Box::new([0; FRAME_LENGTH]);
        Lent {
            frame: Guarded::of(held.as_slice()),
            brought: held.clone(),
            held,
        }
    }

    /// Sends a command to the drive.
    fn send(&mut self, drive: &mut Drive, command: Command) -> Result<Reply, String> {
        let reply = drive.read(command, &mut self.brought);
        if let Meaning::Good | Meaning::Recovered = reply.sense.meaning() {
            self.is_unaltered()?;
            self.frame.copy_from_slice(self.brought.as_slice());
            std::mem::swap(&mut self.held, &mut self.brought);
        }
        Ok(reply)
    }

    /// Looks at the whole frame. What a reply altered there stays so until
    /// another frame is brought: it is seen before that, or at the end.
    fn is_unaltered(&self) -> Result<(), String> {
        if self.frame.is_intact() && *self.frame == *self.held {
            Ok(())
        } else {
            Err("a reply altered the frame or bytes beside it".into())
        }
    }
}

fn read_with<S: ReadingCalls>(
    mut back: ReadBack<S>,
    lent: &mut Lent,
    case: &Case,
    drive: &mut Drive,
    due: Due,
    seed: u64,
) -> Result<ReadBack<S>, String> {
    let mut random = Random::new(seed ^ 0x4EAD);
    let session = &mut back.session;
    let mut bound = case.geometry.frames().saturating_sub(NOT_REPLIED);
    loop {
        let command = match fetched(session, drive, &mut random)? {
            Ok(command) => command,
            Err(number) => {
                back.refused = Some(number);
                return Ok(back);
            }
        };
        let place = drive.next();
        let reply = lent.send(drive, command)?;
        if reply.sense.meaning() != Meaning::Busy {
            bound = bound.checked_sub(1).ok_or("replies without bound")?;
        }
        let outcome = session.reply(&reply, &lent.frame);
        if !lent.frame.is_intact() {
            return Err(format!("{outcome:?} altered bytes beside the frame"));
        }
        match outcome {
            ReadOutcome::Nothing => {}
            ReadOutcome::End => {
                back.end = Some(place);
                break;
            }
            ReadOutcome::Refused(number) => {
                back.refused = Some(number);
                return Ok(back);
            }
            outcome => {
                let number = back.elements.len();
                let Some(element) = due(number, outcome, &lent.held) else {
                    return Err(format!("{outcome:?} for delivery {number} at {place:?}"));
                };
                back.elements.push(element);
                back.places.push(place);
            }
        }
    }
    if session.fetch() != ReadAnswer::End || session.fetch() != ReadAnswer::End {
        return Err("the end is not said again".into());
    }
    Ok(back)
}

/// The next command, which fits where the drive stands, or a refusal.
fn fetched<S: ReadingCalls>(
    session: &mut S,
    drive: &Drive,
    random: &mut Random,
) -> Result<Result<Command, u8>, String> {
    refused_calls(session, None, random)?;
    let command = match session.fetch() {
        ReadAnswer::Command(command) => command,
        ReadAnswer::Refused(number) => return Ok(Err(number)),
        ReadAnswer::End => return Err("the end without EOD".into()),
    };
    refused_calls(session, Some(command), random)?;
    match command {
        Command::Read(address) if address != drive.next() => {
            Err(format!("{command:?}, but the drive is elsewhere"))
        }
        command => Ok(Ok(command)),
    }
}

fn is_delivered(outcome: ReadOutcome, frame: &Frame, element: &Element) -> bool {
    match (outcome, element) {
        (ReadOutcome::Block, Element::Block(number)) => data_of(frame) == block(*number),
        (ReadOutcome::Filemark, Element::Filemark) => true,
        _ => false,
    }
}

/// Now and then makes calls that are refused and must alter nothing.
fn refused_calls<S: ReadingCalls>(
    session: &mut S,
    awaited: Option<Command>,
    random: &mut Random,
) -> Result<(), String> {
    if !random.chance(20) {
        return Ok(());
    }
    let before = session.clone();
    let off = if random.chance(500) { 1 } else { -1 };
    let wrong = Guarded::filled(0, FRAME_LENGTH.saturating_add_signed(off));
    let lent = wrong.clone();
    let number = if awaited.is_some() { 1 } else { 7 };
    let outcome = session.reply(&Reply::of(GOOD), &lent);
    let refused = outcome == ReadOutcome::Refused(number);
    let fetched_twice = awaited.is_some() && session.fetch() != ReadAnswer::Refused(7);
    if !refused || fetched_twice || lent != wrong || before != *session {
        return Err(format!(
            "a refused call answered {outcome:?}, or altered something"
        ));
    }
    Ok(())
}
