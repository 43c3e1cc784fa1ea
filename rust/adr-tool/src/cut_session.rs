//! A session that was not closed: what a reading finds of it, and how it is told.

use std::path::Path;

use adr_model::frame::Frame;
use adr_model::header::fields_of;
use adr_tape::Address;

use crate::output;
use crate::text::count;

/// What is done next, where the last session was not closed.
pub const IF_CUT: &str = "nothing can be added to it: restore the jobs that are whole, then \
                          record on another cartridge, or afresh on this one with '--overwrite'";

/// Elements, in the order of the tape.
#[derive(Clone, Copy, Debug, Default, PartialEq, Eq)]
struct Tally {
    elements: u64,
    filemarks: u64,
    /// Those behind the last filemark.
    behind: u64,
}

impl Tally {
    fn add(&mut self, is_filemark: bool) {
        self.elements += 1;
        self.filemarks += u64::from(is_filemark);
        self.behind = if is_filemark { 0 } else { self.behind + 1 };
    }

    /// The jobs that they make.
    fn jobs(&self) -> String {
        let whole = count(self.filemarks, "whole job", "whole jobs");
        match (self.filemarks, self.behind) {
            (0, _) => String::from("a part of a job"),
            (_, 0) => whole,
            _ => format!("{whole} and a part of the next"),
        }
    }
}

/// Where a reading ends on the header of such a session.
#[derive(Clone, Copy, Debug, Default, PartialEq, Eq)]
enum Ended {
    /// No end of data was found.
    #[default]
    Nowhere,
    /// Where the sessions before it ended.
    AtOldEnd,
    /// At an end of data that it wrote.
    AtOwnEnd,
}

/// A session that was not closed, as a reading finds it.
#[derive(Clone, Copy, Debug, Default, PartialEq, Eq)]
pub struct CutSession {
    /// Where the sessions before it ended, if it added to any.
    old_end: Option<Address>,
    /// What these hold.
    before: Tally,
    /// What of its own is read.
    own: Tally,
    ended: Ended,
}

impl CutSession {
    /// The session of the newest header of a cartridge that ends at `last`, if it
    /// was not closed: the header then names no end of data.
    pub fn of(header: &[u8], last: Address) -> Option<CutSession> {
        let last = adr_model::Address(last.0);
        let fields = fields_of(<&Frame>::try_from(header).ok()?, last)?;
        let old_end = Address(fields.old_end.0);
        (fields.eod.0 == 0).then(|| CutSession {
            old_end: Some(old_end).filter(|end| *end != Address(0)),
            ..CutSession::default()
        })
    }

    /// Takes in a block or filemark that was delivered from this address.
    pub fn take(&mut self, address: Address, is_filemark: bool) {
        let is_own = self.old_end.is_none_or(|end| address >= end);
        let tally = if is_own {
            &mut self.own
        } else {
            &mut self.before
        };
        tally.add(is_filemark);
    }

    /// Takes in the end of data, which was found at this address.
    pub fn end(&mut self, address: Address) {
        self.ended = if self.old_end == Some(address) {
            Ended::AtOldEnd
        } else {
            Ended::AtOwnEnd
        };
    }

    /// Whether a job of its own is cut off by it. At an end of data that it wrote
    /// it was a full tape, and before its own elements an earlier one.
    pub fn cuts_job(&self) -> bool {
        self.ended == Ended::Nowhere && self.own.behind > 0
    }

    /// That there is such a session, what stood before it, and what stands of it.
    pub fn told(&self) -> [String; 3] {
        let not_closed = "the last session was not closed, as when the mains go: \
                          the newest header names no end of data";
        [
            String::from(not_closed),
            self.told_before(),
            self.told_own(),
        ]
    }

    fn told_before(&self) -> String {
        match (self.old_end, self.before.elements) {
            (None, _) => String::from("it was a new recording"),
            (Some(_), 0) => String::from("it added to a recording without elements"),
            (Some(_), elements) => format!(
                "it added to {} ({}), all of which stand",
                count(elements, "element", "elements"),
                self.before.jobs()
            ),
        }
    }

    fn told_own(&self) -> String {
        let own = match self.own.elements {
            0 => String::from("nothing of its own is read"),
            1 => format!("the first element of its own stands ({})", self.own.jobs()),
            _ => format!(
                "the first {} of its own stand ({})",
                count(self.own.elements, "element", "elements"),
                self.own.jobs()
            ),
        };
        let end = match self.ended {
            Ended::Nowhere => "no end of data is found (refusal 12)",
            Ended::AtOldEnd => "a reading ends where it did before",
            Ended::AtOwnEnd => "a reading ends at the end of data that it wrote",
        };
        format!("{own}, and {end}")
    }

    /// Tells it of an image.
    pub fn tell(&self, path: &Path) {
        let shown = path.display();
        let [not_closed, before, own] = self.told();
        output::message(format!("{shown}: {not_closed}"));
        output::message(format!("{shown}: {before}; {own}"));
    }
}

#[cfg(test)]
mod tests {
    use super::*;
    use adr_model::frame::{fill_header, HeaderFields};
    use adr_tape::FRAME_LENGTH;

    const LAST: u32 = 3_000;

    fn session(eod: u32, old_end: u32) -> Option<CutSession> {
        let address = adr_model::Address;
        let fields = HeaderFields {
            pass: 1,
            last: address(LAST),
            eod: address(eod),
            old_end: address(old_end),
            ..HeaderFields::NONE
        };
        let mut header = [0; FRAME_LENGTH];
        fill_header(&mut header, &fields);
        CutSession::of(&header, Address(LAST))
    }

    /// What is told behind the first sentence, of elements from 10 on, blocks and
    /// filemarks, and an end.
    fn told(old_end: u32, elements: &str, end: Option<u32>) -> String {
        let mut session = session(0, old_end).expect("it was not closed");
        for (address, letter) in (10..).zip(elements.chars()) {
            session.take(Address(address), letter == '|');
        }
        end.into_iter()
            .for_each(|address| session.end(Address(address)));
        let is_own = elements.len() > old_end.saturating_sub(10) as usize;
        let is_part = is_own && !elements.ends_with('|') && end.is_none();
        assert_eq!(session.cuts_job(), is_part, "{elements}");
        let [_, before, own] = session.told();
        format!("{before}; {own}")
    }

    #[test]
    fn closed_sessions() {
        assert_eq!(session(12, 0), None);
        assert_eq!(session(12, 11), None);
        assert_eq!(CutSession::of(&[0; FRAME_LENGTH], Address(LAST)), None);
        assert_eq!(CutSession::of(&[], Address(LAST)), None);
    }

    #[test]
    fn new_recordings() {
        let nowhere = "and no end of data is found (refusal 12)";
        for (elements, expected) in [
            ("", "nothing of its own is read"),
            ("#", "the first element of its own stands (a part of a job)"),
            ("##|", "the first 3 elements of its own stand (1 whole job)"),
            (
                "#|#|##",
                "the first 6 elements of its own stand (2 whole jobs and a part of the next)",
            ),
        ] {
            let expected = format!("it was a new recording; {expected}, {nowhere}");
            assert_eq!(told(0, elements, None), expected);
        }
        let told = told(0, "#|", Some(12));
        assert!(
            told.ends_with("(1 whole job), and a reading ends at the end of data that it wrote")
        );
    }

    #[test]
    fn additions() {
        let before = "it added to 2 elements (1 whole job), all of which stand; ";
        for (elements, end, own) in [
            (
                "#|",
                Some(12),
                "nothing of its own is read, and a reading ends where it did before",
            ),
            (
                "#|##",
                None,
                "the first 2 elements of its own stand (a part of a job), \
                 and no end of data is found (refusal 12)",
            ),
            (
                "#|#|",
                Some(15),
                "the first 2 elements of its own stand (1 whole job), \
                 and a reading ends at the end of data that it wrote",
            ),
        ] {
            let told = told(12, elements, end);
            assert_eq!(told, format!("{before}{own}"));
        }
        let told = told(10, "", Some(10));
        assert!(told.starts_with("it added to a recording without elements; nothing"));
    }
}
