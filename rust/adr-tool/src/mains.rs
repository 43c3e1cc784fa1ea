//! The mains of the simulated drive, which may go while it writes.

use adr_model::tape::{Shared, Storage};
use adr_model::Address;

use crate::image::Image;

/// An image that nothing reaches any more once the mains are gone.
pub struct Mains {
    image: Image,
    /// Frames that reached the tape in this session.
    written: u64,
    /// How many do at most, if the mains go.
    cut_after: Option<u64>,
    /// Where the last of them stands.
    latest: Option<Address>,
}

impl Mains {
    /// An image in a drive that has power.
    pub fn new(image: Image) -> Mains {
        Mains {
            image,
            written: 0,
            cut_after: None,
            latest: None,
        }
    }

    /// The image.
    pub fn image(&self) -> &Image {
        &self.image
    }

    /// The image, to be altered beside the drive.
    pub fn image_mut(&mut self) -> &mut Image {
        &mut self.image
    }

    /// A session begins, and the mains go behind so many of its frames.
    pub fn cut_after(&mut self, frames: Option<u64>) {
        self.written = 0;
        self.latest = None;
        self.cut_after = frames;
    }

    /// The frames of the session that reached the tape.
    pub fn written(&self) -> u64 {
        self.written
    }

    /// Whether the power is gone: from then on nothing is written or answered.
    pub fn are_gone(&self) -> bool {
        self.cut_after.is_some_and(|frames| self.written >= frames)
    }
}

impl Storage for Mains {
    fn frame(&mut self, address: Address) -> Option<Shared> {
        self.image.frame(address)
    }

    fn store(&mut self, address: Address, frame: Shared) {
        if !self.are_gone() {
            self.image.store(address, frame);
            self.written = self.written.saturating_add(1);
            self.latest = Some(address);
        }
    }

    fn spoil(&mut self, address: Address) {
        if !self.are_gone() {
            self.image.spoil(address);
        }
    }

    fn failed(&mut self, address: Address) {
        // It comes behind the frame itself, which may have been the last.
        if !self.are_gone() || self.latest == Some(address) {
            self.image.failed(address);
        }
    }

    fn is_blank(&self, from: Address, count: u32) -> bool {
        self.image.is_blank(from, count)
    }

    fn is_blank_from(&self, from: Address) -> bool {
        self.image.is_blank_from(from)
    }
}
