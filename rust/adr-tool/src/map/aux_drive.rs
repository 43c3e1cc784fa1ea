//! A drive that reads the AUX of frames alone.

use adr_model::tape::Storage;
use adr_tape::{header_addresses, Address, Drive, Geometry, Reply, Sense, BLOCK_LENGTH};

use crate::failure::Failure;
use crate::image::Image;

/// A drive that reads the AUX of frames and not the blocks in them: enough for
/// a reading to tell which frames it would deliver. A frame that was found
/// damaged does not read.
pub struct AuxDrive<'a> {
    image: &'a mut Image,
    next: u32,
}

impl AuxDrive<'_> {
    /// A drive with this image.
    pub fn new(image: &mut Image) -> AuxDrive<'_> {
        AuxDrive { image, next: 0 }
    }

    /// The cartridge's geometry.
    pub fn geometry(&self) -> Geometry {
        self.image.geometry()
    }

    /// Whether no frame was found damaged so far.
    pub fn is_undamaged(&self) -> bool {
        self.image.is_undamaged()
    }

    /// Reads the frame at the next address, without its block unless it is a
    /// header.
    fn fill(&mut self, frame: &mut [u8]) -> bool {
        if header_addresses().contains(&Address(self.next)) {
            let Some(found) = self.image.frame(adr_model::Address(self.next)) else {
                return false;
            };
            frame.copy_from_slice(found.as_slice());
            return true;
        }
        let aux = frame.get_mut(BLOCK_LENGTH..).unwrap_or_default();
        self.image.aux(self.next, aux)
    }
}

impl Drive for AuxDrive<'_> {
    type Error = Failure;

    fn locate(&mut self, address: Address) -> Result<Reply, Failure> {
        self.next = address.0;
        Ok(Reply::good())
    }

    fn read(&mut self, _: Address, frame: &mut [u8]) -> Result<Reply, Failure> {
        let found = self.fill(frame);
        if let Some(failure) = self.image.take_error() {
            return Err(failure);
        }
        let here = adr_model::Address(self.next);
        if !found && self.image.is_blank_from(here) {
            return Ok(Reply::sense(Sense::END_OF_TAPE));
        }
        if !found && self.image.is_blank(here, 32) {
            return Ok(Reply::sense(Sense::BLANK));
        }
        self.next = self.next.saturating_add(1);
        Ok(if found {
            Reply::good()
        } else {
            Reply::sense(Sense::UNREADABLE)
        })
    }

    fn write(&mut self, _: Address, _: &[u8]) -> Result<Reply, Failure> {
        Err(Failure::new("a map writes nothing"))
    }

    fn read_position(&mut self) -> Result<Reply, Failure> {
        Ok(Reply::buffered(0))
    }
}
