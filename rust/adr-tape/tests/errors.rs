//! What failed, and why: each error gives what it came from as its source.

use std::error::Error;
use std::fmt;
use std::io;

use adr_tape::{AppendError, Full, HeaderError, ReadError, RecordError, Refusal, SheetError};

/// An error of the host's own.
#[derive(Clone, Copy, Debug, PartialEq)]
struct Cable;

impl fmt::Display for Cable {
    fn fmt(&self, formatter: &mut fmt::Formatter<'_>) -> fmt::Result {
        formatter.write_str("the cable is off")
    }
}

impl Error for Cable {}

/// The error has `cause` as its source and does not repeat its text.
fn comes_from<C: Error + PartialEq + 'static>(error: &dyn Error, cause: &C) {
    let source = error.source().and_then(|source| source.downcast_ref::<C>());
    assert_eq!(source, Some(cause), "{error}");
    assert!(!error.to_string().contains(&cause.to_string()), "{error}");
}

#[test]
fn a_header_is_not_found() {
    type Failed = HeaderError<Cable>;
    comes_from(&Failed::Refused(Refusal::Header), &Refusal::Header);
    comes_from(&Failed::Drive(Cable), &Cable);
}

#[test]
fn a_recording_fails() {
    type Failed = RecordError<Cable, fmt::Error>;
    comes_from(&Failed::Refused(Refusal::TapeFull), &Refusal::TapeFull);
    comes_from(&Failed::Drive(Cable), &Cable);
    comes_from(&Failed::Source(fmt::Error), &fmt::Error);
    comes_from(&Failed::Full(Full::default()), &Refusal::TapeFull);
}

#[test]
fn a_reading_fails() {
    type Failed = ReadError<Cable, fmt::Error>;
    comes_from(&Failed::Refused(Refusal::Missing), &Refusal::Missing);
    comes_from(&Failed::Drive(Cable), &Cable);
    comes_from(&Failed::Sink(fmt::Error), &fmt::Error);
}

#[test]
fn an_addition_fails() {
    type Failed = AppendError<Cable, fmt::Error>;
    let read = ReadError::Drive(Cable);
    comes_from(&Failed::Read(read), &read);
    let record = RecordError::Source(fmt::Error);
    comes_from(&Failed::Record(record.clone()), &record);
}

#[test]
fn a_sheet_fails() {
    for failed in [SheetError::Dump, SheetError::Output] {
        let error = failed(io::Error::other(Cable));
        let source = error.source().and_then(|source| source.downcast_ref());
        let source: &io::Error = source.expect("the system's");
        assert_eq!(source.to_string(), Cable.to_string());
        assert!(!error.to_string().contains(&Cable.to_string()), "{error}");
    }
}
