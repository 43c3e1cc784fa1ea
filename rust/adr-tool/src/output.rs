//! Standard output, line by line, and messages on standard error.

use std::fmt::Display;
use std::io::Write;

use crate::failure::Failure;
use crate::progress;
use crate::system;
use crate::text::printable;

/// Refuses standard output that is closed, where all that is printed is lost.
pub fn require_open() -> Result<(), Failure> {
    if system::output_is_open() {
        return Ok(());
    }
    Err(Failure::new(
        "standard output is closed or opened for reading: give it a file, a pipe or /dev/null",
    ))
}

/// Prints a line.
pub fn line(text: impl Display) -> Result<(), Failure> {
    plain(&format!("{text}\n"))
}

/// Prints a text as it is.
pub fn plain(text: &str) -> Result<(), Failure> {
    require_open()?;
    progress::clear();
    let mut output = std::io::stdout().lock();
    output
        .write_all(text.as_bytes())
        .and_then(|()| output.flush())
        .map_err(|error| Failure::of_output(&error))
}

/// Prints a text as it is on standard error.
pub fn plain_error(text: &str) {
    progress::clear();
    // Where it cannot be printed there is nobody to be told so.
    let _ = std::io::stderr().write_all(text.as_bytes());
}

/// Prints a message on standard error. Names from a tape are among its words:
/// none of them gives the terminal orders.
pub fn message(text: impl Display) {
    let text = printable(text.to_string().as_bytes());
    plain_error(&format!("adr: {text}\n"));
}
