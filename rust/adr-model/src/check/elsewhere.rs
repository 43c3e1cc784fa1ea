//! Cartridges that another program closed: a header names an EOD, and among the
//! frames before that EOD are such as a reading passes over.

use std::sync::Arc;

use super::content::{block, Element};
use super::opening::HIGHEST_COUNT;
use crate::frame::{fill_frame, fill_header, Frame, HeaderFields, Kind, Label};
use crate::geometry::{
    Address, SequenceNumber, BLOCK_LENGTH, FIRST_USER, FRAME_LENGTH, GAP_FIRST, HEADER_GROUPS,
};
use crate::random::Random;
use crate::tape::{Shared, Tape};

/// The most addresses from the first frame to EOD.
const MOST: u32 = 40;
/// A byte of the AUX that only frames of this use model have as it is.
const FLAGS: usize = BLOCK_LENGTH + 18;

/// Such a cartridge.
pub(super) struct Elsewhere {
    pub(super) tape: Tape,
    /// The header that names EOD.
    pub(super) newest: Shared,
    /// What a reading delivers.
    pub(super) elements: Vec<Element>,
}

impl Elsewhere {
    /// The cartridge of a seed.
    pub(super) fn of_seed(seed: u64, last: Address) -> Elsewhere {
        let mut random = Random::new(seed ^ 0x0E15_E3EE);
        let counts = [0, 1, random.below(60_000), HIGHEST_COUNT];
        let mut writer = Writer {
            header: HeaderFields {
                pass: u16::try_from(random.below(65_535)).unwrap_or(0),
                update_count: random.one_of(&counts).copied().unwrap_or(0),
                last,
                eod: Address(0),
                old_end: Address(0),
            },
            tape: Tape::default(),
            elements: Vec::new(),
            random,
        };
        writer.write_elements();
        let newest = writer.write_headers();
        Elsewhere {
            tape: writer.tape,
            newest,
            elements: writer.elements,
        }
    }
}

struct Writer {
    header: HeaderFields,
    tape: Tape,
    elements: Vec<Element>,
    random: Random,
}

impl Writer {
    /// Writes elements and other frames, EOD, and frames of others behind it.
    fn write_elements(&mut self) {
        let near_gap = self.random.chance(250);
        let mut at = if near_gap {
            GAP_FIRST.minus(self.random.between(1, MOST))
        } else {
            FIRST_USER
        };
        for _ in 0..self.random.below(MOST) {
            let next = at.plus(1).out_of_gap();
            if next > self.header.last {
                break;
            }
            self.write_one(at);
            at = next;
        }
        self.header.eod = at;
        // The element before EOD may have been given up.
        let given_up = usize::from(self.random.chance(300));
        let number = self.elements.len().saturating_sub(given_up);
        self.put(at, Kind::Eod, number, |_| {});
        for behind in 1..4 {
            let at = at.plus(behind);
            if at.is_user_frame(self.header.last) && self.random.chance(500) {
                self.put(at, Kind::Data, number, |frame| {
                    frame[BLOCK_LENGTH + 23] ^= 1
                });
            }
        }
    }

    /// Writes the next element, a frame that is passed over, or nothing.
    fn write_one(&mut self, at: Address) {
        let number = self.elements.len();
        let any = u32::try_from(number).unwrap_or(0);
        let earlier = usize::try_from(self.random.below(any)).unwrap_or(0);
        match self.random.below(12) {
            0..=2 => {}
            3..=6 => self.put_next(at),
            7 if number > 0 => self.put(at, Kind::Data, earlier, |_| {}),
            8 if number > 0 => self.put(at, Kind::Eod, earlier, |_| {}),
            9 => self.put(at, Kind::Eod, number, |frame| frame[FLAGS] ^= 1),
            10 => self.put(at, Kind::Eod, number, |_| {}),
            _ => self.put(at, Kind::Data, number, |frame| frame[BLOCK_LENGTH] = 1),
        }
    }

    fn put_next(&mut self, at: Address) {
        let number = self.elements.len();
        let (kind, element) = if self.random.chance(300) {
            (Kind::Marker, Element::Filemark)
        } else {
            let content = self.random.below(u32::from(u16::MAX));
            let content = u16::try_from(content).unwrap_or(0);
            (Kind::Data, Element::Block(content))
        };
        self.elements.push(element);
        self.put(at, kind, number, |_| {});
    }

    /// Writes a frame that is altered like this.
    fn put(&mut self, at: Address, kind: Kind, number: usize, alter: fn(&mut Frame)) {
        let label = Label {
            kind,
            pass: self.header.pass,
            last: self.header.last,
            number: SequenceNumber(u32::try_from(number).unwrap_or(0)),
            filemarks: self.random.below(5),
            latest_marker: None,
        };
        let data = match self.elements.get(number) {
            Some(Element::Block(content)) if kind == Kind::Data => Some(block(*content)),
            _ => None,
        };
        let mut frame = [0; FRAME_LENGTH];
        fill_frame(&mut frame, &label, data);
        alter(&mut frame);
        self.tape.write(at, Arc::new(frame));
    }

    /// Writes copies of the header, older ones among them; at least one is left
    /// that names EOD.
    fn write_headers(&mut self) -> Shared {
        let addresses: Vec<Address> = HEADER_GROUPS.into_iter().flatten().collect();
        let always = self.random.one_of(&addresses).copied();
        let newest = self.copy(self.header);
        for at in addresses {
            if Some(at) == always || self.random.chance(400) {
                // What names an old end is no part of the data.
                let old_end = Address(self.random.below(50));
                let header = HeaderFields {
                    old_end,
                    ..self.header
                };
                let copy = self.copy(header);
                self.tape.write(at, copy);
            } else if self.header.update_count > 0 && self.random.chance(500) {
                let older = HeaderFields {
                    pass: self.header.pass.saturating_sub(1),
                    update_count: self.header.update_count - 1,
                    ..self.header
                };
                let copy = self.copy(older);
                self.tape.write(at, copy);
            }
        }
        newest
    }

    fn copy(&self, fields: HeaderFields) -> Shared {
        let mut frame = [0; FRAME_LENGTH];
        fill_header(&mut frame, &fields);
        Arc::new(frame)
    }
}
