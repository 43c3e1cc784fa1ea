//! What is told of a session in which the mains went, or did not yet.

use std::path::Path;

use crate::failure::Failure;
use crate::output;
use crate::text::{count, grouped};

/// The mains went behind so many frames of the session, and so many that the drive
/// held are lost.
pub fn failure(path: &Path, on_tape: u64, lost: u64) -> Failure {
    let held = match lost {
        0 => String::from("the drive held no other"),
        1 => String::from("1 more that the drive held is lost"),
        _ => format!("{} more that the drive held are lost", grouped(lost)),
    };
    Failure::new(format!(
        "{}: the mains went behind {} of this session, and {held}; \
         the recording was not reported whole, and the image holds what the tape holds: \
         'adr list' and 'adr check' tell what stands and what can be done, \
         'adr restore' restores the jobs that are whole",
        path.display(),
        count(on_tape, "frame", "frames"),
    ))
}

/// Tells that the session was done before the mains were to go.
pub fn tell_done(path: &Path, on_tape: u64, cut_after: u64) {
    output::message(format!(
        "{}: the session was done with {}, and the mains were to go behind {}: \
         it was not cut short",
        path.display(),
        count(on_tape, "frame", "frames"),
        grouped(cut_after),
    ));
}
