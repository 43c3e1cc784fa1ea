//! What a host tells of its drive.

use crate::geometry::Address;
use crate::reply::Reply;

/// A drive behind the host's own transport.
///
/// Each method sends one command and brings the drive's reply to it, its
/// sense triple among them: a triple is no error of the transport. An error
/// says that no reply can be had: the command may have been carried out or not,
/// the session can't go on, and the cartridge is as after a power cut:
/// [`RecordError`](crate::RecordError) tells what stands then.
///
/// Busy replies are replies too: the same command then comes again, at once and
/// as often as the drive is busy, and READ POSITION as long as the drive's
/// buffer is full. So a drive pauses here, and gives up past a limit.
///
/// `include/adr.h` tells which commands of the standard bring the geometry, the
/// drive's buffer size and the numbers of a [`Reply`].
pub trait Drive {
    /// What the transport fails with.
    type Error;

    /// LOCATE: goes to an address and empties the drive's buffer.
    ///
    /// # Errors
    /// The transport's.
    fn locate(&mut self, address: Address) -> Result<Reply, Self::Error>;

    /// WRITE: takes a frame of 33,280 bytes. `address` is where the drive
    /// stands; it is not sent.
    ///
    /// # Errors
    /// The transport's.
    fn write(&mut self, address: Address, frame: &[u8]) -> Result<Reply, Self::Error>;

    /// READ: reads into a frame of 33,280 bytes. `address` is where the drive
    /// stands; it is not sent.
    ///
    /// # Errors
    /// The transport's.
    fn read(&mut self, address: Address, frame: &mut [u8]) -> Result<Reply, Self::Error>;

    /// READ POSITION: tells how many frames are still buffered.
    ///
    /// # Errors
    /// The transport's.
    fn read_position(&mut self) -> Result<Reply, Self::Error>;
}

impl<D: Drive + ?Sized> Drive for &mut D {
    type Error = D::Error;

    fn locate(&mut self, address: Address) -> Result<Reply, Self::Error> {
        (**self).locate(address)
    }

    fn write(&mut self, address: Address, frame: &[u8]) -> Result<Reply, Self::Error> {
        (**self).write(address, frame)
    }

    fn read(&mut self, address: Address, frame: &mut [u8]) -> Result<Reply, Self::Error> {
        (**self).read(address, frame)
    }

    fn read_position(&mut self) -> Result<Reply, Self::Error> {
        (**self).read_position()
    }
}
