//! The frames that a drive took of one recording, the write errors that it
//! told of, and the most frames that these allow.

use crate::command::{Command, Outcome};
use crate::reply::{Meaning, Sense};
use crate::state::StageName;

/// The header copies of a recording: two groups, twice.
const HEADER_COPIES: u64 = 20;
/// The copies of a group.
const GROUP_COPIES: u64 = 5;
/// EOD.
const EODS: u64 = 1;

/// What is counted of one kind of frames.
#[derive(Clone, Copy, Debug, Default, PartialEq, Eq)]
pub struct Met {
    /// The WRITEs that the drive answered good.
    pub taken: u64,
    /// The write errors that it told of.
    pub errors: u64,
}

impl Met {
    /// Counts an answer of the drive.
    fn note(&mut self, command: Command, sense: Sense) {
        match (command, sense.meaning()) {
            (Command::Write(_), Meaning::Good) => self.taken += 1,
            (Command::Write(_) | Command::ReadPosition, Meaning::WriteError) => self.errors += 1,
            _ => {}
        }
    }

    fn has_reached(&self, most: u64) -> bool {
        self.errors > 0 && self.taken == most
    }
}

/// What is counted of one recording.
#[derive(Clone, Copy, Debug, PartialEq, Eq)]
pub struct Counts {
    depth: u64,
    window_blocks: u64,
    accepted: u64,
    elements: Met,
    headers: Met,
}

impl Counts {
    /// Of a session just opened with this drive's buffer and this window.
    #[must_use]
    pub fn of(depth: u32, window_blocks: u32) -> Counts {
        Counts {
            depth: depth.into(),
            window_blocks: window_blocks.into(),
            accepted: 0,
            elements: Met::default(),
            headers: Met::default(),
        }
    }

    /// Counts an element if this outcome accepted it.
    pub fn accept(&mut self, outcome: Outcome) -> Outcome {
        self.accepted += u64::from(outcome == Outcome::Accepted);
        outcome
    }

    /// Counts an answer of the drive to a command of a session that awaits it
    /// in this stage.
    ///
    /// # Errors
    /// The frames taken, if they are more than they may be.
    pub fn answer(
        &mut self,
        stage: StageName,
        command: Command,
        sense: Sense,
    ) -> Result<(), String> {
        if stage == StageName::Elements {
            self.elements.note(command, sense);
        } else {
            self.headers.note(command, sense);
        }
        self.are_within()
    }

    /// What is counted of elements and EOD.
    #[must_use]
    pub fn elements(&self) -> Met {
        self.elements
    }

    /// What is counted of headers.
    #[must_use]
    pub fn headers(&self) -> Met {
        self.headers
    }

    /// The most frames of elements and EOD: each once, and at a write error
    /// again as many as the drive may hold and the window has.
    #[must_use]
    pub fn most_elements(&self) -> u64 {
        let again = self.depth.min(self.window_blocks);
        self.accepted + EODS + self.elements.errors * again
    }

    /// The most frames of headers: each copy once, and at a write error again
    /// those that the drive may hold behind the one that failed.
    #[must_use]
    pub fn most_headers(&self) -> u64 {
        let again = self.depth.min(GROUP_COPIES).saturating_sub(1);
        HEADER_COPIES + self.headers.errors * again
    }

    /// Whether write errors were met and as many frames taken as there may then
    /// be: of elements and EOD, and of headers.
    pub(super) fn reached(&self) -> [bool; 2] {
        [
            self.elements.has_reached(self.most_elements()),
            self.headers.has_reached(self.most_headers()),
        ]
    }

    fn are_within(&self) -> Result<(), String> {
        for (frames, met, most) in [
            ("elements and EOD", self.elements, self.most_elements()),
            ("headers", self.headers, self.most_headers()),
        ] {
            if met.taken > most {
                return Err(format!("{met:?} of {frames}, but at most {most} frames"));
            }
        }
        Ok(())
    }
}

#[cfg(test)]
mod tests {
    use super::*;
    use crate::geometry::Address;
    use crate::reply::{BECOMING_READY, EARLY_END, GOOD, SENSES, WRITE_ERROR};

    const WRITE: Command = Command::Write(Address(10));
    const LOCATE: Command = Command::Locate(Address(10));
    const STAGES: [StageName; 3] = [
        StageName::OpeningHeaders,
        StageName::Elements,
        StageName::ClosingHeaders,
    ];

    #[test]
    fn what_counts() {
        for stage in STAGES {
            for (sense, _) in SENSES {
                for command in [WRITE, LOCATE, Command::ReadPosition] {
                    let mut counts = Counts::of(2, 2);
                    assert_eq!(counts.answer(stage, command, sense), Ok(()));
                    let met = Met {
                        taken: u64::from(command == WRITE && sense == GOOD),
                        errors: u64::from(command != LOCATE && sense == WRITE_ERROR),
                    };
                    let both = if stage == StageName::Elements {
                        (met, Met::default())
                    } else {
                        (Met::default(), met)
                    };
                    assert_eq!((counts.elements(), counts.headers()), both);
                }
            }
        }
    }

    /// The WRITEs that can be taken before one is too many.
    fn left(mut counts: Counts, stage: StageName) -> u64 {
        let mut taken = 0;
        while counts.answer(stage, WRITE, GOOD).is_ok() {
            taken += 1;
        }
        taken
    }

    #[test]
    fn one_too_many_is_found() {
        for (depth, window_blocks, again, headers_again) in [
            (1, 64, 1, 0),
            (2, 3, 2, 1),
            (3, 2, 2, 2),
            (5, 5, 5, 4),
            (6, 1, 1, 4),
            (255, 64, 64, 4),
        ] {
            let mut counts = Counts::of(depth, window_blocks);
            for accepted in 0..3 {
                assert_eq!(left(counts, StageName::Elements), accepted + 1);
                counts.accept(Outcome::Refused(6));
                counts.accept(Outcome::Accepted);
            }
            for errors in 0..3 {
                assert_eq!(left(counts, StageName::Elements), 4 + errors * again);
                for stage in [StageName::OpeningHeaders, StageName::ClosingHeaders] {
                    assert_eq!(left(counts, stage), 20 + errors * headers_again);
                }
                for (stage, command) in [
                    (StageName::Elements, WRITE),
                    (StageName::ClosingHeaders, Command::ReadPosition),
                ] {
                    assert_eq!(counts.answer(stage, command, WRITE_ERROR), Ok(()));
                    assert_eq!(counts.answer(stage, command, BECOMING_READY), Ok(()));
                    assert_eq!(counts.answer(stage, command, EARLY_END), Ok(()));
                }
            }
        }
    }

    #[test]
    fn reached_with_errors_only() {
        let mut counts = Counts::of(2, 2);
        let mut take = |command, sense| {
            let answered = counts.answer(StageName::Elements, command, sense);
            assert_eq!(answered, Ok(()));
            counts.reached()
        };
        assert_eq!(take(WRITE, GOOD), [false, false]);
        assert_eq!(take(Command::ReadPosition, WRITE_ERROR), [false, false]);
        assert_eq!(take(WRITE, GOOD), [false, false]);
        assert_eq!(take(WRITE, GOOD), [true, false]);
    }
}
