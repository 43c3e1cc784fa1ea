//! The power cut at every frame of a recording: what the tape then reads as.
//!
//! At the address that is being written the old frame, the new one or nothing is
//! read; what the drive only holds is lost. On every header that reads and is a copy of
//! the one that the recording was opened on (if it adds), or newer, a reading
//! gives all that was there before and then first elements of the recording, to
//! an end or to a 12. Until a newer header is on tape for the first time, the
//! cartridge is as it was.
//!
//! Beyond that, a newer header that names an EOD is one of a recording that is
//! whole on tape: a reading comes to that EOD and gives all that was promised, no
//! other header counts as high, and no frame above that EOD bears the pass. So no recording
//! is added at an end that frames of a cut one stand behind.

use std::collections::BTreeSet;
use std::sync::Arc;

use super::content::Element;
use super::history::Moment;
use super::layer::Layer;
use super::opening::{self, Opening};
use super::plain::Recorded;
use super::plain_reading::{CameTo, PlainReading};
use super::reading_back::{self, due_of, Due, ReadBack, FAR};
use super::trail::is_of_element;
use super::{Before, Left};
use crate::command::ReadOutcome;
use crate::drive::{Act, Drive};
use crate::frame::{aux_of, bytes, data_of, Frame, HeaderFields, Kind};
use crate::geometry::Address;
use crate::hostility::Hostility;
use crate::random::Random;
use crate::tape::{HeaderCopy, Shared, Tape};

/// Of a thousand cuts, those behind which a tape is read call by call.
const CALLED: u32 = 30;
/// Of a thousand recordings, those behind whose cut the cartridge goes on.
const WENT_ON: u32 = 300;
/// A block that another recording left.
const OF_OTHERS: Element = Element::Block(0);

/// What is counted.
#[derive(Clone, Copy, Debug, PartialEq, Eq, Hash)]
pub enum Cut {
    /// A cut.
    Made,
    /// One before the first newer header.
    BeforeNewer,
    /// A reading that gives what it gave before the recording.
    ReadAsBefore,
    /// A reading that came to a 12.
    ReadTo12,
    /// A reading that came to the old end.
    ReadToOldEnd,
    /// A reading that came to an EOD of the cut recording.
    ReadToOwnEnd,
    /// A reading that was made call by call, too.
    Called,
    /// A recording of its own on a tape that a cut left.
    FreshBehind,
    /// A recording added to one.
    AddedBehind,
}

/// The number of different counts.
pub const CUTS: usize = Cut::AddedBehind as usize + 1;

/// Cuts the power at every frame of a recording that found this tape, and reads
/// what is then on tape; now and then tells a tape that the cartridge is to go
/// on with, and an end to add at if that is wanted.
///
/// # Errors
/// What was found wrong, and at which cut.
pub(super) fn look<L: Layer>(
    before: &Before<L>,
    old: &Tape,
    recorded: &Recorded,
    (adds, seed): (bool, u64),
    counts: &mut [u64; CUTS],
) -> Result<Option<Left<L::Reading>>, String> {
    let mut looked = Looked::of(before, old, recorded, seed, counts);
    looked.at_every_frame()?;
    let goes_on = looked.random.chance(WENT_ON);
    let Some(tape) = looked.left_by_one().filter(|_| goes_on) else {
        return Ok(None);
    };
    let end = looked.end_of(&tape)?.filter(|_| adds);
    looked.note(if end.is_some() {
        Cut::AddedBehind
    } else {
        Cut::FreshBehind
    });
    Ok(Some(Left { tape, end }))
}

/// A recording that is looked at.
struct Looked<'a, L: Layer> {
    before: &'a Before<'a, L>,
    recorded: &'a Recorded,
    /// The tape at the opening.
    old: &'a Tape,
    /// The tape at the cut.
    tape: Tape,
    /// The addresses written.
    written: BTreeSet<Address>,
    /// Whether a newer header was on tape.
    newer_seen: bool,
    /// How far readings are the same whatever reads at the address being written.
    kept: Vec<PlainReading>,
    random: Random,
    counts: &'a mut [u64; CUTS],
}

/// Where the power is cut.
#[derive(Clone, Copy)]
struct Place {
    /// The address being written.
    at: Option<Address>,
    /// The elements accepted by then, those before the recording too.
    accepted: usize,
}

impl<'a, L: Layer> Looked<'a, L> {
    fn of(
        before: &'a Before<'a, L>,
        old: &'a Tape,
        recorded: &'a Recorded,
        seed: u64,
        counts: &'a mut [u64; CUTS],
    ) -> Looked<'a, L> {
        Looked {
            before,
            recorded,
            old,
            tape: old.clone(),
            written: BTreeSet::new(),
            newer_seen: false,
            kept: Vec::new(),
            random: Random::new(seed ^ 0x00C0_70FF),
            counts,
        }
    }

    fn note(&mut self, cut: Cut) {
        if let Some(count) = self.counts.get_mut(cut as usize) {
            *count += 1;
        }
    }

    /// Cuts the power before the first frame and at each.
    fn at_every_frame(&mut self) -> Result<(), String> {
        let opening = Place {
            at: None,
            accepted: self.before.opening.elements().len(),
        };
        self.look(opening)
            .map_err(|wrong| format!("power cut at the opening: {wrong}"))?;
        for (count, moment) in self.recorded.history.0.iter().enumerate() {
            self.at_frame(moment)
                .map_err(|wrong| format!("power cut at frame {count}, {wrong}"))?;
        }
        Ok(())
    }

    /// Cuts the power while a frame is written; as before it read at the cut
    /// before. Then has it read as it did.
    fn at_frame(&mut self, moment: &Moment) -> Result<(), String> {
        let at = moment.act.address;
        self.written.insert(at);
        let place = Place {
            at: Some(at),
            accepted: moment.accepted,
        };
        let as_new = Some(moment.act.frame.clone());
        for (reads, how) in [(as_new, "as new"), (None, "as nothing")] {
            self.tape.put(at, reads);
            self.look(place)
                .map_err(|wrong| format!("{at:?} read {how}: {wrong}"))?;
        }
        self.tape.put(at, moment.act.reads.clone());
        self.kept.retain(|kept| kept.next <= at);
        let copies = self.tape.headers(self.before.last);
        self.newer_seen |= self.has_newer(&copies);
        Ok(())
    }

    fn has_newer(&self, copies: &[HeaderCopy]) -> bool {
        copies.iter().any(|copy| self.is_newer(&copy.fields))
    }

    fn is_newer(&self, fields: &HeaderFields) -> bool {
        let old = self.before.opening.newest();
        old.is_none_or(|(_, old)| fields.update_count > old.update_count)
    }

    /// Whether readings on this header are promised to go on from what was
    /// there before.
    fn is_later(&self, copy: &HeaderCopy) -> bool {
        let Opening::AtEnd(back) = &self.before.opening else {
            return self.is_newer(&copy.fields);
        };
        self.is_newer(&copy.fields)
            || copy.fields.update_count == back.header.update_count
                && data_of(&copy.frame) == data_of(&back.opened_on)
    }

    /// Looks at the tape as it is at a cut.
    fn look(&mut self, place: Place) -> Result<(), String> {
        self.note(Cut::Made);
        let copies = self.tape.headers(self.before.last);
        if !self.newer_seen && !self.has_newer(&copies) {
            self.is_as_it_was(place, &copies)?;
        }
        let later = copies.iter().filter(|copy| self.is_later(copy));
        let later: Vec<&HeaderCopy> = later.collect();
        for copy in unlike(later.iter().copied()) {
            let came_to = self.read(copy.fields, place)?;
            self.may_come_to(came_to, place.accepted)
                .and_then(|()| self.is_as_done(&copies, &copy.fields, came_to))
                .map_err(|wrong| format!("{wrong}: {came_to:?} on {:?}", copy.fields))?;
        }
        if self.random.chance(CALLED) {
            if let Some(copy) = self.random.one_of(&later) {
                let came_to = self.read(copy.fields, place)?;
                let recorded = self.recorded;
                self.read_by_calls(copy, came_to, &due_of(&recorded.accepted))?;
            }
        }
        Ok(())
    }

    /// What a reading on such a header comes to.
    fn read(&mut self, header: HeaderFields, place: Place) -> Result<CameTo, String> {
        let (recorded, tape) = (self.recorded, &self.tape);
        let last = self.before.last;
        let mut due =
            |number, kind, frame: &Shared| is_accepted(&recorded.accepted, number, kind, frame);
        let begun = PlainReading::on(header, self.before.case.fault);
        let known = self.kept.iter().position(|kept| kept.header == header);
        let known = known.unwrap_or_else(|| {
            self.kept.push(begun);
            self.kept.len() - 1
        });
        let Some(kept) = self.kept.get_mut(known) else {
            return begun.finish(tape, &mut due);
        };
        let user = place.at.filter(|at| at.is_user_frame(last));
        let alike = user.unwrap_or(last.plus(1));
        if kept.next > alike {
            *kept = begun;
        }
        kept.read_below(tape, alike, &mut due);
        kept.finish(tape, &mut due)
    }

    fn may_come_to(&mut self, came_to: CameTo, accepted: usize) -> Result<(), String> {
        let opening = &self.before.opening;
        if !(opening.elements().len()..=accepted).contains(&came_to.delivered) {
            return Err(format!("{accepted} accepted, other deliveries"));
        }
        let how = match (came_to.end, came_to.refused) {
            (None, Some(12)) => Cut::ReadTo12,
            (Some(end), None) if self.written.contains(&end) => Cut::ReadToOwnEnd,
            (Some(end), None) if opening.old_end() == Some(end) => Cut::ReadToOldEnd,
            _ => return Err("another end".into()),
        };
        self.note(how);
        Ok(())
    }

    /// On a newer header that names an EOD the tape is as after a close that
    /// reported done.
    fn is_as_done(
        &self,
        copies: &[HeaderCopy],
        header: &HeaderFields,
        came_to: CameTo,
    ) -> Result<(), String> {
        if !self.is_newer(header) || header.eod == Address(0) {
            return Ok(());
        }
        if came_to.end != Some(header.eod) || !self.recorded.may_read(came_to.delivered) {
            return Err("the EOD named is not the end of all that was promised".into());
        }
        let mut others = copies.iter().filter(|copy| copy.fields != *header);
        if others.any(|copy| copy.fields.update_count >= header.update_count) {
            return Err("another header counts as high as one that names an EOD".into());
        }
        if !none_above(&self.tape, header) {
            return Err("a frame above the EOD named bears the pass".into());
        }
        Ok(())
    }

    /// Nothing is altered but header addresses, no header there is another than
    /// before, and readings on each give what they gave.
    fn is_as_it_was(&mut self, place: Place, copies: &[HeaderCopy]) -> Result<(), String> {
        self.note(Cut::BeforeNewer);
        let user = place.at.filter(|at| at.is_user_frame(self.before.last));
        if let Some(at) = user.filter(|at| self.tape.read(*at) != self.old.read(*at)) {
            return Err(format!("{at:?} altered before a newer header"));
        }
        for copy in copies {
            if self.old.read(copy.at) != Some(&copy.frame) {
                return Err(format!("{:?} is another header, but no newer", copy.at));
            }
        }
        for copy in unlike(copies.iter()) {
            self.reads_as_it_did(copy)?;
        }
        Ok(())
    }

    fn reads_as_it_did(&mut self, copy: &HeaderCopy) -> Result<(), String> {
        self.note(Cut::ReadAsBefore);
        let begun = PlainReading::on(copy.fields, self.before.case.fault);
        let mut frames: Vec<Shared> = Vec::new();
        let old = begun.finish(self.old, &mut |_, _, frame| {
            frames.push(frame.clone());
            true
        })?;
        let is_same = &mut |number, _, frame: &Shared| frames.get(number) == Some(frame);
        let now = begun.finish(&self.tape, is_same)?;
        if old != now {
            return Err(format!("{now:?} before a newer header, {old:?} at first"));
        }
        if self.random.chance(CALLED) {
            self.read_by_calls(copy, now, &|number, outcome, frame| {
                let old = frames.get(number).filter(|old| ***old == *frame);
                old.map(|_| match outcome {
                    ReadOutcome::Filemark => Element::Filemark,
                    _ => OF_OTHERS,
                })
            })?;
        }
        Ok(())
    }

    /// Reads the tape call by call.
    fn read_by_calls(
        &mut self,
        copy: &HeaderCopy,
        came_to: CameTo,
        due: Due,
    ) -> Result<(), String> {
        self.note(Cut::Called);
        let back = self.called(self.tape.clone(), &copy.frame, due)?;
        let called = CameTo {
            delivered: back.elements.len(),
            end: back.end,
            refused: back.refused,
        };
        if called != came_to {
            return Err(format!("{called:?} by calls, {came_to:?} by frames"));
        }
        opening::is_answered::<L>(&back)
    }

    fn called(
        &mut self,
        tape: Tape,
        header: &Shared,
        due: Due,
    ) -> Result<ReadBack<L::Reading>, String> {
        let case = self.before.case;
        let far = self.before.last.0 > FAR;
        let hostility = Hostility {
            // A far tape is not gone by to its last address.
            blank: if far { 0 } else { case.hostility.blank },
            end_of_tape: if far {
                1_000
            } else {
                case.hostility.end_of_tape
            },
            ..case.hostility
        };
        let seed = self.random.bits();
        let mut drive = Drive::new(tape, 1, hostility, seed);
        reading_back::read(case, header, &mut drive, due, seed)
    }

    /// The tape as a cut at a random frame leaves it.
    fn left_by_one(&mut self) -> Option<Tape> {
        let moments = &self.recorded.history.0;
        let Act { address, frame, .. } = &self.random.one_of(moments)?.act;
        let is_it = |act: &Act| Arc::ptr_eq(&act.frame, frame);
        let earlier = moments.iter().map(|moment| &moment.act);
        let mut tape = self.old.clone();
        for act in earlier.take_while(|act| !is_it(act)) {
            tape.put(act.address, act.reads.clone());
        }
        let reads = self.random.chance(500).then(|| frame.clone());
        tape.put(*address, reads);
        Some(tape)
    }

    /// The reading of a tape that a cut left which a recording can be added at
    /// the end of, on the newest header.
    fn end_of(&mut self, tape: &Tape) -> Result<Option<ReadBack<L::Reading>>, String> {
        let copies = tape.headers(self.before.last);
        let newest = copies.iter().max_by_key(|copy| copy.fields.update_count);
        let Some(newest) = newest.filter(|copy| self.is_later(copy)) else {
            return Ok(None);
        };
        let due = due_of(&self.recorded.accepted);
        let back = self.called(tape.clone(), &newest.frame, &due)?;
        let named = back.end == Some(newest.fields.eod);
        Ok(Some(back).filter(|_| named && none_above(tape, &newest.fields)))
    }
}

/// Whether no user frame above the EOD named bears the pass.
fn none_above(tape: &Tape, header: &HeaderFields) -> bool {
    let above = tape.frames_between(header.eod.plus(1), header.last.plus(1));
    let mut user = above.filter(|(at, _)| at.is_user_frame(header.last));
    !user.any(|(_, frame)| bytes(aux_of(frame), 22) == header.pass.to_be_bytes())
}

/// One of each kind: readings on headers that say the same are the same.
fn unlike<'a>(copies: impl Iterator<Item = &'a HeaderCopy>) -> Vec<&'a HeaderCopy> {
    let mut found: Vec<&HeaderCopy> = Vec::new();
    for copy in copies {
        if !found.iter().any(|other| other.fields == copy.fields) {
            found.push(copy);
        }
    }
    found
}

fn is_accepted(accepted: &[Element], number: usize, kind: Kind, frame: &Frame) -> bool {
    let element = accepted.get(number);
    element.is_some() && is_of_element(frame, kind, element)
}
