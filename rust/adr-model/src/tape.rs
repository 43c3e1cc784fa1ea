//! What stands on a cartridge.

use std::collections::BTreeMap;
use std::sync::Arc;

use crate::frame::{aux_of, bytes, Frame, HeaderFields};
use crate::geometry::{Address, HEADER_GROUPS};
use crate::header::fields_of;

/// A frame shared between tapes and buffers.
pub type Shared = Arc<Frame>;

/// What a drive keeps its frames on.
///
/// Nothing fails here: storage that can fail keeps the failure for its owner
/// and reads as nothing.
pub trait Storage {
    /// What an address reads as.
    fn frame(&mut self, address: Address) -> Option<Shared>;

    /// Makes an address read as this frame.
    fn store(&mut self, address: Address, frame: Shared);

    /// Makes an address read as nothing.
    fn spoil(&mut self, address: Address);

    /// Is told, after what the address now reads as, that a write failed
    /// there.
    fn failed(&mut self, _address: Address) {}

    /// Whether nothing reads on `count` addresses from `from` on.
    fn is_blank(&self, from: Address, count: u32) -> bool;

    /// Whether nothing reads from `from` on.
    fn is_blank_from(&self, from: Address) -> bool;
}

impl Storage for Tape {
    fn frame(&mut self, address: Address) -> Option<Shared> {
        self.read(address).cloned()
    }

    fn store(&mut self, address: Address, frame: Shared) {
        self.write(address, frame);
    }

    fn spoil(&mut self, address: Address) {
        Tape::spoil(self, address);
    }

    fn is_blank(&self, from: Address, count: u32) -> bool {
        Tape::is_blank(self, from, count)
    }

    fn is_blank_from(&self, from: Address) -> bool {
        Tape::is_blank_from(self, from)
    }
}

/// A valid header on tape.
#[derive(Clone, Debug, PartialEq, Eq)]
pub struct HeaderCopy {
    /// Where it stands.
    pub at: Address,
    /// Its frame.
    pub frame: Shared,
    /// What it says.
    pub fields: HeaderFields,
}

/// A sparse tape: an address without a frame reads as nothing.
#[derive(Clone, Debug, Default, PartialEq, Eq)]
pub struct Tape {
    frames: BTreeMap<Address, Shared>,
}

impl Tape {
    /// What an address reads as.
    #[must_use]
    pub fn read(&self, address: Address) -> Option<&Shared> {
        self.frames.get(&address)
    }

    /// Every address that reads as a frame, with the frame.
    pub fn frames(&self) -> impl Iterator<Item = (Address, &Shared)> {
        self.frames.iter().map(|(address, frame)| (*address, frame))
    }

    /// The same from one address on and below another.
    pub fn frames_between(
        &self,
        from: Address,
        below: Address,
    ) -> impl Iterator<Item = (Address, &Shared)> {
        let within = self.frames.range(from..below.max(from));
        within.map(|(address, frame)| (*address, frame))
    }

    /// Makes an address read as this.
    pub fn put(&mut self, address: Address, reads: Option<Shared>) {
        match reads {
            Some(frame) => self.write(address, frame),
            None => self.spoil(address),
        }
    }

    /// Writes a frame.
    pub fn write(&mut self, address: Address, frame: Shared) {
        self.frames.insert(address, frame);
    }

    /// Makes an address read as nothing.
    pub fn spoil(&mut self, address: Address) {
        self.frames.remove(&address);
    }

    /// Whether nothing reads on `count` addresses from `from` on.
    #[must_use]
    pub fn is_blank(&self, from: Address, count: u32) -> bool {
        self.frames.range(from..from.plus(count)).next().is_none()
    }

    /// Whether nothing reads from `from` on.
    #[must_use]
    pub fn is_blank_from(&self, from: Address) -> bool {
        self.frames.range(from..).next().is_none()
    }

    /// A newest header: valid, at the header groups, of the highest count.
    #[must_use]
    pub fn newest_header(&self, last: Address) -> Option<(Shared, HeaderFields)> {
        self.newest_headers(last).pop()
    }

    /// Every newest header.
    #[must_use]
    pub fn newest_headers(&self, last: Address) -> Vec<(Shared, HeaderFields)> {
        let valid = self.headers(last);
        let highest = valid.iter().map(|copy| copy.fields.update_count).max();
        valid
            .into_iter()
            .filter(|copy| Some(copy.fields.update_count) == highest)
            .map(|copy| (copy.frame, copy.fields))
            .collect()
    }

    /// Every valid header at the header groups.
    #[must_use]
    pub fn headers(&self, last: Address) -> Vec<HeaderCopy> {
        let addresses = HEADER_GROUPS.iter().flatten().copied();
        let copies = addresses.filter_map(|at| {
            let frame = self.read(at)?;
            let fields = fields_of(frame, last)?;
            let frame = frame.clone();
            Some(HeaderCopy { at, frame, fields })
        });
        copies.collect()
    }

    /// Makes every user frame that bears `pass` read as nothing.
    pub fn erase_pass(&mut self, pass: u16, last: Address) {
        self.frames.retain(|address, frame| {
            !address.is_user_frame(last) || bytes(aux_of(frame), 22) != pass.to_be_bytes()
        });
    }
}
