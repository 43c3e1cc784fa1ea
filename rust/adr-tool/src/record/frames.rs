//! What is told of the frames that a recording sent.

use adr_tape::{Setup, Summary};

use crate::text::{count, grouped};

/// The frames of elements and the end of data, and those of headers, each with
/// the most that there could have been.
pub fn told(summary: &Summary, setup: Setup) -> [String; 2] {
    let sent = summary.sent;
    let errors = |number| count(number, "write error", "write errors");
    [
        format!(
            "{} sent of at most {}, for {} and the end of data with {}",
            count(sent.elements, "frame", "frames"),
            grouped(summary.frames_at_most(setup)),
            count(summary.elements(), "element", "elements"),
            errors(sent.errors),
        ),
        format!(
            "{} sent of at most {}, with {}",
            count(sent.headers, "header frame", "header frames"),
            grouped(summary.header_frames_at_most(setup)),
            errors(sent.header_errors),
        ),
    ]
}
