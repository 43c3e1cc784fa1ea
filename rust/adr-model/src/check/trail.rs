//! What the frames of a recording name of the filemarks before them: how many
//! there are, and where the latest of them stands. No reading looks at it.
//! All is worked out anew for each frame, from the elements, the tape and the
//! drive's buffer.

use super::content::{block, Element};
use super::opening::Opened;
use crate::drive::Drive;
use crate::frame::{aux_of, data_of, number_at, Frame, HeaderFields, Kind};
use crate::geometry::{Address, SequenceNumber};
use crate::judgement::{judge, Expectation, Judgement};
use crate::tape::{Shared, Tape};

/// What is named where no marker stands before a frame.
const NO_MARKER: Address = Address(u32::MAX);

/// What a recording goes on from.
#[derive(Clone, Copy, Debug)]
pub(super) struct Followed {
    /// What its headers say.
    header: HeaderFields,
    /// The elements before it.
    elements: usize,
    /// Whether these stand on another cartridge.
    astray: bool,
}

impl Followed {
    pub(super) fn of(opened: &Opened) -> Followed {
        Followed {
            header: opened.header,
            elements: opened.elements.len(),
            astray: opened.astray,
        }
    }

    /// The elements before the recording.
    pub(super) fn elements_before(&self) -> usize {
        self.elements
    }

    /// Looks at a WRITE that is with the drive, `elements` being all that was
    /// accepted and not given up, behind those before the recording. It goes where the drive
    /// stands. But for a header it is one of these elements that were not
    /// there before, or EOD behind the last; the one before it is with the
    /// drive; it names how many filemarks are before it, and where the drive
    /// has the latest of them, be it on tape or buffered.
    pub(super) fn is_right_with_drive(
        &self,
        drive: &Drive,
        elements: &[Element],
        address: Address,
        frame: &Frame,
    ) -> Result<(), String> {
        if address != drive.next() {
            return Err(format!("{address:?}, but the drive is elsewhere"));
        }
        if address.is_header_copy() {
            let blank = names_filemarks(frame, &[], |_, _| false).is_ok();
            let numbered = number_at(aux_of(frame), 44) != 0;
            return if blank && !numbered && current(frame, &self.header).is_none() {
                Ok(())
            } else {
                Err(format!("the frame for {address:?} is no header's"))
            };
        }
        let unlike = || format!("the frame for {address:?} is none of this recording");
        let (kind, number) = current(frame, &self.header).ok_or_else(unlike)?;
        let before = elements.get(..number).ok_or_else(unlike)?;
        if number < self.elements || !is_of_element(frame, kind, elements.get(number)) {
            return Err(unlike());
        }
        if number > self.elements && !self.is_with_drive(drive, number - 1) {
            return Err(format!("the frame for {address:?} is out of turn"));
        }
        let stands = |marker, number| {
            self.astray && number < self.elements
                || self.is_marker_with_drive(drive, marker, number)
        };
        names_filemarks(frame, before, stands)
            .map_err(|wrong| format!("the frame for {address:?} {wrong}"))
    }

    /// Whether a number is that of the last frame that the drive holds or, where
    /// it holds none, of one on tape.
    fn is_with_drive(&self, drive: &Drive, number: usize) -> bool {
        let has_number =
            |frame: &Shared| current(frame, &self.header).is_some_and(|(_, own)| own == number);
        match drive.held().last() {
            Some((_, frame)) => has_number(frame),
            None => drive.tape().frames().any(|(_, frame)| has_number(frame)),
        }
    }

    /// Whether this address is where the marker of this number is, on tape or
    /// among the frames that the drive holds.
    fn is_marker_with_drive(&self, drive: &Drive, address: Address, number: usize) -> bool {
        let held = drive.held().filter(|(place, _)| *place == address);
        let mut frames = held
            .map(|(_, frame)| frame)
            .chain(drive.tape().read(address));
        frames.any(|frame| is_marker(frame, &self.header, number))
    }
}

/// Looks at what recordings of one pass, each closed, left on tape: every
/// frame of theirs, copies that no reading delivers and earlier EODs among
/// them, is the element with its number or EOD, names how many filemarks are
/// before it, and an address that reads as the latest of them. Tells how many
/// frames these are.
pub(super) fn is_right_on_tape(
    tape: &Tape,
    newest: &HeaderFields,
    elements: &[Element],
) -> Result<usize, String> {
    let mut frames = 0;
    let stands = |marker, number| {
        let found = tape.read(marker);
        found.is_some_and(|frame| is_marker(frame, newest, number))
    };
    let user = |(address, _): &(Address, &Shared)| address.is_user_frame(newest.last);
    for (address, frame) in tape.frames().filter(user) {
        let Some((kind, number)) = current(frame, newest) else {
            continue;
        };
        if kind != Kind::Eod && !is_of_element(frame, kind, elements.get(number)) {
            return Err(format!("{address:?} is not element {number}"));
        }
        let before = elements.get(..number);
        before
            .ok_or_else(|| format!("has number {number}"))
            .and_then(|before| names_filemarks(frame, before, stands))
            .map_err(|wrong| format!("{address:?} {wrong}"))?;
        frames += 1;
    }
    Ok(frames)
}

/// The kind and the number of a frame that is as a recording of this header's
/// pass writes it.
fn current(frame: &Frame, header: &HeaderFields) -> Option<(Kind, usize)> {
    let own = Expectation {
        pass: header.pass,
        last: header.last,
        number: SequenceNumber(number_at(aux_of(frame), 44)),
    };
    match judge(&own, frame) {
        Judgement::Expected(kind) => Some((kind, usize::try_from(own.number.0).ok()?)),
        _ => None,
    }
}

fn is_marker(frame: &Frame, header: &HeaderFields, number: usize) -> bool {
    current(frame, header) == Some((Kind::Marker, number))
}

/// Whether a frame of this kind is that of an element, or else EOD.
pub(super) fn is_of_element(frame: &Frame, kind: Kind, element: Option<&Element>) -> bool {
    match element {
        Some(Element::Block(number)) => kind == Kind::Data && data_of(frame) == block(*number),
        Some(Element::Filemark) => kind == Kind::Marker,
        None => kind == Kind::Eod,
    }
}

/// Looks at what a frame behind these elements names of filemarks; `stands`
/// tells whether an address is one where the marker of a number is.
fn names_filemarks(
    frame: &Frame,
    before: &[Element],
    stands: impl Fn(Address, usize) -> bool,
) -> Result<(), String> {
    let numbered = before.iter().enumerate();
    let filemarks = numbered.filter(|(_, element)| **element == Element::Filemark);
    let latest = filemarks.clone().next_back().map(|(number, _)| number);
    let count = filemarks.count();
    let (named, marker) = (number_at(aux_of(frame), 192), number_at(aux_of(frame), 200));
    if usize::try_from(named) != Ok(count) {
        return Err(format!("names {named} filemarks, not {count}"));
    }
    let marker = Address(marker);
    if latest.map_or(marker == NO_MARKER, |number| stands(marker, number)) {
        Ok(())
    } else {
        Err(format!("names {marker:?} for marker {latest:?}"))
    }
}

#[cfg(test)]
mod tests {
    use std::sync::Arc;

    use super::*;
    use crate::command::Command;
    use crate::frame::{fill_frame, fill_header, Label};
    use crate::geometry::{BLOCK_LENGTH, FRAME_LENGTH};
    use crate::hostility::Hostility;

    const HEADER: HeaderFields = HeaderFields {
        pass: 7,
        update_count: 3,
        last: Address(3_000),
        eod: Address(18),
        old_end: Address(0),
    };
    const ELEMENTS: [Element; 4] = [
        Element::Block(0),
        Element::Filemark,
        Element::Block(0),
        Element::Filemark,
    ];

    /// What a frame of this kind and number names: so many filemarks, and a
    /// marker or [`NO_MARKER`].
    fn label(kind: Kind, number: u32, filemarks: u32, marker: u32) -> Label {
        Label {
            kind,
            pass: HEADER.pass,
            last: HEADER.last,
            number: SequenceNumber(number),
            filemarks,
            latest_marker: Some(Address(marker)),
        }
    }

    fn frame_of(label: &Label) -> Shared {
        let mut frame = [0; FRAME_LENGTH];
        fill_frame(&mut frame, label, None);
        Arc::new(frame)
    }

    /// What two recordings left: the first marker failed at 11 and reads as
    /// new, the second failed at 16, where the earlier EOD reads as before.
    fn two_recordings() -> Vec<(u32, Label)> {
        vec![
            (10, label(Kind::Data, 0, 0, NO_MARKER.0)),
            (11, label(Kind::Marker, 1, 0, NO_MARKER.0)),
            (14, label(Kind::Marker, 1, 0, NO_MARKER.0)),
            (15, label(Kind::Data, 2, 1, 14)),
            (16, label(Kind::Eod, 3, 1, 14)),
            (17, label(Kind::Marker, 3, 1, 14)),
            (18, label(Kind::Eod, 4, 2, 17)),
        ]
    }

    fn tape_of(frames: &[(u32, Label)]) -> Tape {
        let mut tape = Tape::default();
        for (address, label) in frames {
            tape.write(Address(*address), frame_of(label));
        }
        tape
    }

    #[test]
    fn every_current_frame_on_tape() {
        let right = two_recordings();
        let look = |frames: &[_]| is_right_on_tape(&tape_of(frames), &HEADER, &ELEMENTS);
        assert_eq!(look(&right), Ok(7));
        for at in 0..right.len() {
            let is_wrong = |alter: fn(&mut Label)| {
                let mut frames = right.clone();
                alter(&mut frames[at].1);
                look(&frames).is_err()
            };
            assert!(is_wrong(|frame| frame.number = SequenceNumber(5)), "{at}");
            assert!(is_wrong(|frame| frame.filemarks += 1), "{at}");
            let another = |frame: &mut Label| {
                frame.kind = match frame.kind {
                    Kind::Data => Kind::Marker,
                    _ => Kind::Data,
                }
            };
            assert!(is_wrong(another), "{at}");
            assert!(
                is_wrong(|frame| frame.latest_marker = Some(Address(10))),
                "{at}"
            );
            assert_eq!(is_wrong(|frame| frame.latest_marker = None), at > 2, "{at}");
            // The first marker stands at two addresses.
            let twice = (3..6).contains(&at);
            let elsewhere = is_wrong(|frame| frame.latest_marker = Some(Address(11)));
            assert_eq!(elsewhere, !twice, "{at}");
        }
    }

    #[test]
    fn no_other_frame_on_tape() {
        let mut tape = tape_of(&two_recordings());
        let strange = frame_of(&label(Kind::Data, 9, 9, 9));
        for address in [4, 5, 2_990, 2_995, 3_001] {
            tape.write(Address(address), strange.clone());
        }
        let mut of_another_pass = *strange;
        of_another_pass[BLOCK_LENGTH + 23] = 6;
        tape.write(Address(12), Arc::new(of_another_pass));
        assert_eq!(is_right_on_tape(&tape, &HEADER, &ELEMENTS), Ok(7));
        tape.write(Address(12), strange);
        assert!(is_right_on_tape(&tape, &HEADER, &ELEMENTS).is_err());
    }

    /// A drive at 14, which has sent nothing to tape, and the first marker.
    fn drive_at_14() -> Drive {
        let idle = Hostility {
            progress: 0,
            ..Hostility::NONE
        };
        let mut drive = Drive::new(Tape::default(), 3, idle, 0);
        let marker = frame_of(&label(Kind::Marker, 1, 0, NO_MARKER.0));
        drive.record(Command::Locate(Address(14)), &marker);
        drive.record(Command::Write(Address(14)), &marker);
        drive
    }

    /// Whether a frame for this address, behind two elements, is right.
    fn is_right(drive: &Drive, astray: bool, address: u32, label: &Label) -> bool {
        let followed = Followed {
            header: HEADER,
            elements: 2,
            astray,
        };
        let frame = frame_of(label);
        let looked = followed.is_right_with_drive(drive, &ELEMENTS, Address(address), &frame);
        looked.is_ok()
    }

    #[test]
    fn a_frame_with_the_drive() {
        let mut drive = drive_at_14();
        let block = label(Kind::Data, 2, 1, 14);
        for address in 13..17 {
            assert_eq!(is_right(&drive, false, address, &block), address == 15);
        }
        for wrong in [
            label(Kind::Data, 2, 0, 14),
            label(Kind::Data, 2, 2, 14),
            label(Kind::Data, 2, 1, 11),
            label(Kind::Data, 2, 1, 15),
            label(Kind::Data, 2, 1, NO_MARKER.0),
            label(Kind::Marker, 2, 1, 14),
            label(Kind::Eod, 2, 1, 14),
            label(Kind::Marker, 1, 0, NO_MARKER.0),
            label(Kind::Eod, 5, 2, 14),
        ] {
            assert!(!is_right(&drive, false, 15, &wrong), "{wrong:?}");
        }
        // The buffer is emptied: the marker is gone, or on another cartridge.
        drive.record(Command::Locate(Address(15)), &[0; FRAME_LENGTH]);
        assert!(!is_right(&drive, false, 15, &block));
        assert!(is_right(&drive, true, 15, &block));
        // A marker of this recording must be found, whatever was read.
        let end = label(Kind::Eod, 4, 2, 17);
        assert!(!is_right(&drive, true, 15, &end));
        *drive.tape_mut() = tape_of(&two_recordings());
        for label in [block, end] {
            assert!(is_right(&drive, false, 15, &label));
        }
    }

    #[test]
    fn a_frame_in_its_turn() {
        let followed = Followed {
            header: HEADER,
            elements: 1,
            astray: false,
        };
        let look = |drive: &Drive, address, frame: &Frame| {
            followed.is_right_with_drive(drive, &ELEMENTS, Address(address), frame)
        };
        let mut drive = drive_at_14();
        let next = frame_of(&label(Kind::Data, 2, 1, 14));
        let one_left_out = frame_of(&label(Kind::Marker, 3, 1, 14));
        assert_eq!(look(&drive, 15, &next), Ok(()));
        assert!(look(&drive, 15, &one_left_out).is_err());
        *drive.tape_mut() = tape_of(&two_recordings()[..3]);
        drive.record(Command::Locate(Address(15)), &next);
        assert_eq!(look(&drive, 15, &next), Ok(()));
        assert!(look(&drive, 15, &one_left_out).is_err());
    }

    #[test]
    fn a_frame_for_a_header_group() {
        let mut drive = drive_at_14();
        let mut header = [0; FRAME_LENGTH];
        fill_header(&mut header, &HEADER);
        drive.record(Command::Locate(Address(5)), &header);
        let look = |frame: &Frame| {
            let followed = Followed {
                header: HEADER,
                elements: 0,
                astray: false,
            };
            followed.is_right_with_drive(&drive, &ELEMENTS, Address(5), frame)
        };
        assert_eq!(look(&header), Ok(()));
        for byte in [47, 195, 203] {
            let mut wrong = header;
            wrong[BLOCK_LENGTH + byte] ^= 1;
            assert!(look(&wrong).is_err(), "{byte}");
        }
        let block = frame_of(&label(Kind::Data, 0, 0, NO_MARKER.0));
        assert!(look(&block).is_err());
    }
}
