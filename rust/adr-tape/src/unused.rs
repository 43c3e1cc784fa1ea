//! What is opened and left unused is told by the compiler.
//!
//! ```
//! #![deny(unused_must_use)]
//! let geometry = adr_tape::Geometry::beginning(3_001, 1);
//! let setup = adr_tape::Setup { depth: 4, blocks: 2, tail: 1 };
//! let _recorder = adr_tape::Recorder::open(geometry, setup, None).unwrap();
//! let _reader = adr_tape::Reader::open(geometry, &[]).map(|_reader| ());
//! let (mut sheet, _heading) = adr_tape::ShelfSheet::open();
//! let _line = sheet.finish();
//! ```
//!
//! ```compile_fail
//! #![deny(unused_must_use)]
//! let geometry = adr_tape::Geometry::beginning(3_001, 1);
//! let setup = adr_tape::Setup { depth: 4, blocks: 2, tail: 1 };
//! adr_tape::Recorder::open(geometry, setup, None).unwrap();
//! ```
//!
//! ```compile_fail
//! #![deny(unused_must_use)]
//! let geometry = adr_tape::Geometry::beginning(3_001, 1);
//! adr_tape::Reader::open(geometry, &[]).unwrap();
//! ```
//!
//! ```compile_fail
//! #![deny(unused_must_use)]
//! adr_tape::ShelfSheet::open();
//! ```
//!
//! ```compile_fail
//! #![deny(unused_must_use)]
//! let (mut sheet, _heading) = adr_tape::ShelfSheet::open();
//! sheet.finish();
//! ```
