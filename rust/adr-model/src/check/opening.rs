//! How a recording is opened, and what its opening must make of that.

use super::content::Element;
use super::layer::{Layer, RecordingCalls};
use super::reading_back::ReadBack;
use super::Before;
use crate::command::Outcome;
use crate::frame::HeaderFields;
use crate::geometry::{Address, FIRST_USER};
use crate::tape::{Shared, Tape};

/// The highest update count that a recording opens on.
pub(super) const HIGHEST_COUNT: u32 = 4_294_967_293;

/// How a recording is opened.
#[derive(Clone, Debug)]
pub(super) enum Opening<R> {
    /// On the newest header, or on none.
    Fresh(Option<(Shared, HeaderFields)>),
    /// At the end that was read.
    AtEnd(ReadBack<R>),
}

impl<R> Opening<R> {
    /// On the newest header of a cartridge, whose user frames are made not to
    /// bear the new pass.
    pub(super) fn fresh(tape: &mut Tape, last: Address) -> Opening<R> {
        let newest = tape.newest_header(last);
        let pass = newest
            .as_ref()
            .map_or(1, |(_, old)| old.pass.wrapping_add(1));
        tape.erase_pass(pass, last);
        Opening::Fresh(newest)
    }

    /// The header that it is opened on, and what that says.
    pub(super) fn newest(&self) -> Option<(&Shared, &HeaderFields)> {
        match self {
            Opening::Fresh(newest) => newest.as_ref().map(|(frame, fields)| (frame, fields)),
            Opening::AtEnd(back) => Some((&back.opened_on, &back.header)),
        }
    }

    /// The elements before this recording.
    pub(super) fn elements(&self) -> &[Element] {
        match self {
            Opening::Fresh(_) => &[],
            Opening::AtEnd(back) => &back.elements,
        }
    }

    /// How many of them an EOD stands behind.
    pub(super) fn closed(&self) -> Option<usize> {
        match self {
            Opening::Fresh(_) => None,
            Opening::AtEnd(back) => Some(back.elements.len()),
        }
    }

    /// Where the recording before this one ended.
    pub(super) fn old_end(&self) -> Option<Address> {
        match self {
            Opening::Fresh(_) => None,
            Opening::AtEnd(back) => back.end,
        }
    }

    /// Recordings of the same pass before this one.
    pub(super) fn behind(&self) -> usize {
        match self {
            Opening::Fresh(_) => 0,
            Opening::AtEnd(back) => back.recordings,
        }
    }
}

/// Opens a session of the layer.
pub(super) fn open<L: Layer>(before: &Before<L>) -> (L::Recording, Outcome) {
    let (depth, blocks) = (before.case.depth, before.setup.window_blocks);
    let tail = before.setup.tail;
    match &before.opening {
        Opening::Fresh(newest) => {
            let header = newest.as_ref().map(|(frame, _)| frame.as_slice());
            L::Recording::open(&before.case.geometry, depth, blocks, tail, header)
        }
        Opening::AtEnd(back) => L::open_at_end(&back.session, depth, blocks, tail),
    }
}

/// What an opening must come to.
pub(super) struct Opened {
    /// What the opening headers must say.
    pub(super) header: HeaderFields,
    /// Where the first element, or EOD, must go.
    pub(super) first: Address,
    /// The elements before it.
    pub(super) elements: Vec<Element>,
    /// The last filemark of these, and where it was delivered.
    pub(super) marker: Option<(usize, Address)>,
    /// Whether these were delivered from another cartridge.
    pub(super) astray: bool,
    pub(super) outcome: Outcome,
}

impl Opened {
    pub(super) fn of<L: Layer>(before: &Before<L>) -> Opened {
        match &before.opening {
            Opening::Fresh(newest) => {
                Opened::fresh(newest.as_ref().map(|(_, old)| old), before.last)
            }
            Opening::AtEnd(back) => Opened::at_end(back, before.astray),
        }
    }

    fn fresh(newest: Option<&HeaderFields>, last: Address) -> Opened {
        let spent = |old: &HeaderFields| old.pass == 65_534 || old.update_count > HIGHEST_COUNT;
        Opened {
            header: HeaderFields {
                pass: newest.map_or(1, |old| old.pass.wrapping_add(1)),
                update_count: newest.map_or(0, |old| old.update_count.wrapping_add(1)),
                last,
                eod: Address(0),
                old_end: Address(0),
            },
            first: FIRST_USER,
            elements: Vec::new(),
            marker: None,
            astray: false,
            outcome: if newest.is_some_and(spent) {
                Outcome::Refused(5)
            } else {
                Outcome::Accepted
            },
        }
    }

    fn at_end<R>(back: &ReadBack<R>, astray: bool) -> Opened {
        let first = back.end.unwrap_or(Address(0));
        Opened {
            header: HeaderFields {
                update_count: back.header.update_count.wrapping_add(1),
                eod: Address(0),
                old_end: first,
                ..back.header
            },
            first,
            elements: back.elements.clone(),
            marker: back.latest_marker(),
            astray,
            outcome: at_end_outcome(back),
        }
    }
}

/// What an opening behind a reading must answer.
fn at_end_outcome<R>(back: &ReadBack<R>) -> Outcome {
    let old = &back.header;
    match back.end {
        None => Outcome::Refused(7),
        Some(_) if old.update_count > HIGHEST_COUNT => Outcome::Refused(5),
        Some(end) if old.eod == Address(0) || old.eod != end => Outcome::Refused(13),
        Some(_) => Outcome::Accepted,
    }
}

/// Opens a session at the end of a reading to see how it is answered.
pub(super) fn is_answered<L: Layer>(back: &ReadBack<L::Reading>) -> Result<(), String> {
    let (session, outcome) = L::open_at_end(&back.session, 1, 1, 0);
    let expected = at_end_outcome(back);
    if outcome != expected {
        return Err(format!(
            "opening at the end answered {outcome:?}, not {expected:?}"
        ));
    }
    session.wrong().map_or(Ok(()), Err)
}
