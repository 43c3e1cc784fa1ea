//! Recording to and reading from OnStream ADR tapes.
//!
//! A safe wrapper of the proved layer `libadr.a`. The layer says which
//! command goes to the drive next and with which bytes, and takes in the
//! drive's replies; cables, packets and sense data stay with the host.
//!
//! * [`Recorder`] and [`Reader`]: the two sessions, a call at a time.
//! * [`Drive`], [`newest_header`], [`record_all`], [`append_all`] and
//!   [`read_all`]: whole recordings, additions and readings over the host's own
//!   transport.
//! * [`Full`]: what to do when a tape is full.
//! * [`RecordError`]: what stands on a tape where a recording was cut short, as
//!   when the mains go, and what can be done next.
//! * [`frames_sent_at_most`] and [`FramesSent`]: the most frames that a recording
//!   can send, and those that one sent.
//! * [`ShelfSheet`] and [`print_sheet`]: the printed sheet of a cartridge's jobs,
//!   made from what [`read_deliveries`] hands on or from a dump of it.
//! * [`ffi`]: the calls as C sees them, for hosts with buffers of their own.
//!
//! A drive in memory, recorded and read back:
//!
//! ```
//! use std::convert::Infallible;
//! use std::ops::ControlFlow;
//!
//! use adr_tape::{
//!     newest_header, read_all, record_all, Address, Drive, Element, Geometry, Reply, Sense, Setup,
//! };
//!
//! /// Writes at once, so nothing is ever buffered.
//! struct Memory {
//!     frames: Vec<Option<Vec<u8>>>,
//!     at: usize,
//! }
//!
//! impl Drive for Memory {
//!     type Error = Infallible;
//!
//!     fn locate(&mut self, address: Address) -> Result<Reply, Infallible> {
//!         self.at = address.0 as usize;
//!         Ok(Reply::good())
//!     }
//!
//!     fn write(&mut self, _: Address, frame: &[u8]) -> Result<Reply, Infallible> {
//!         self.frames[self.at] = Some(frame.to_vec());
//!         self.at += 1;
//!         Ok(Reply::good())
//!     }
//!
//!     fn read(&mut self, _: Address, frame: &mut [u8]) -> Result<Reply, Infallible> {
//!         self.at += 1;
//!         Ok(match &self.frames[self.at - 1] {
//!             Some(found) => {
//!                 frame.copy_from_slice(found);
//!                 Reply::good()
//!             }
//!             None => Reply::sense(Sense::UNREADABLE),
//!         })
//!     }
//!
//!     fn read_position(&mut self) -> Result<Reply, Infallible> {
//!         Ok(Reply::buffered(0))
//!     }
//! }
//!
//! let geometry = Geometry::beginning(3_001, 1);
//! let mut drive = Memory { frames: vec![None; 3_001], at: 0 };
//! let block = vec![7; adr_tape::BLOCK_LENGTH];
//! let elements = [Element::from(block.as_slice()), Element::Filemark];
//! let source = elements.clone().into_iter().map(Ok::<_, Infallible>);
//!
//! let header = newest_header(&mut drive, geometry)?;
//! let setup = Setup { depth: 8, blocks: 16, tail: 8 };
//! record_all(&mut drive, geometry, setup, header.as_deref(), source, |_| {})?;
//!
//! let header = newest_header(&mut drive, geometry)?.expect("it was recorded");
//! let mut delivered = 0;
//! let sink = |element: Element<'_>| -> Result<ControlFlow<()>, Infallible> {
//!     assert_eq!(element, elements[delivered]);
//!     delivered += 1;
//!     Ok(ControlFlow::Continue(()))
//! };
//! read_all(&mut drive, geometry, &header, sink, |_| {})?;
//! assert_eq!(delivered, 2);
//! # Ok::<(), Box<dyn std::error::Error>>(())
//! ```

mod append_all;
mod command;
mod drive;
mod element;
mod error;
pub mod ffi;
mod frames_sent;
mod geometry;
mod header;
mod print_sheet;
mod read_all;
mod reader;
mod record_all;
mod recorder;
mod refusal;
mod reply;
mod setup;
mod sheet;
mod summary;
mod unclosed;
#[cfg(doctest)]
mod unused;

pub use append_all::{append_all, Appended};
pub use command::Command;
pub use drive::Drive;
pub use element::Element;
pub use error::{AppendError, Full, HeaderError, ReadError, RecordError, SheetError};
pub use frames_sent::{frames_sent_at_most, header_frames_sent_at_most, FramesSent};
pub use geometry::{
    aux_of, header_addresses, Address, Geometry, LoadPoint, AUX_LENGTH, BLOCK_LENGTH, FRAME_LENGTH,
};
pub use header::{newer, newest_header};
pub use print_sheet::{print_sheet, SheetEnd};
pub use read_all::{read_all, read_deliveries, read_with};
pub use reader::{Delivery, ReadNext, Reader};
pub use record_all::{record_all, record_with};
pub use recorder::{Next, Recorder};
pub use refusal::Refusal;
pub use reply::{Reply, Sense};
pub use setup::Setup;
pub use sheet::{SheetLine, ShelfSheet, LINE_LENGTH};
pub use summary::Summary;
