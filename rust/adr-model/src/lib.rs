//! A plain model of the layer between an archive program and an OnStream ADR
//! tape drive (ADR Logical Tape Format 1.3, by the rules of the scope), and a
//! simulated drive that is hostile within the conduct it is held to.
//!
//! * [`geometry`], [`frame`], [`header`], [`judgement`]: what stands on tape.
//! * [`reply`], [`command`]: what passes between host, session and drive.
//! * [`recording`] (with [`header_copies`] and [`elements`]) and [`reading`]:
//!   the two sessions, call by call; [`state`]: where they stand.
//! * [`drive`] (with [`hostility`], [`tape`] and [`random`]): the drive.
//! * [`sheet`]: the shelf sheet of a dump of AUX fields.
//! * [`check`]: whole cartridges recorded and read back; [`fault`]: planted
//!   faults that the checks must find.
//!
//! No call panics, whatever it is given; refusals are numbers from 1 to 13.

pub mod check;
pub mod command;
pub mod drive;
pub mod elements;
pub mod fault;
pub mod frame;
pub mod geometry;
pub mod header;
pub mod header_copies;
pub mod hostility;
pub mod judgement;
pub mod random;
pub mod reading;
pub mod recording;
pub mod reply;
pub mod sheet;
pub mod state;
pub mod tape;

pub use command::{Answer, Command, Outcome, ReadAnswer, ReadOutcome};
pub use fault::Fault;
pub use geometry::{Address, Geometry, SequenceNumber};
pub use reading::Reading;
pub use recording::Recording;
pub use reply::{Reply, Sense};
