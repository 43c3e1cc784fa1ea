//! Signals that ask a command to end.
//!
//! They end it in order: a recording leaves the old content in force and gives
//! the room of the new one back, and no file is left that is not whole.

use std::ffi::c_int;
use std::fs::File;
use std::io::{self, Read};
use std::sync::atomic::{AtomicI32, Ordering};
use std::time::Duration;

use crate::failure::Failure;
use crate::system;

const HANGUP: c_int = 1;
const INTERRUPT: c_int = 2;
const TERMINATE: c_int = 15;

/// A signal that comes between a look at `CAUGHT` and a wait for input is
/// seen after this time at the latest.
const BETWEEN_LOOKS: Duration = Duration::from_millis(100);

/// The signal that was caught, 0 if none was.
static CAUGHT: AtomicI32 = AtomicI32::new(0);

extern "C" fn catch(number: c_int) {
    CAUGHT.store(number, Ordering::Relaxed);
}

/// From now on the signals that end a program are caught.
pub fn watch() {
    for number in [HANGUP, INTERRUPT, TERMINATE] {
        system::on_signal(number, catch);
    }
}

/// Fails if a signal was caught.
pub fn check() -> Result<(), Failure> {
    match CAUGHT.load(Ordering::Relaxed) {
        0 => Ok(()),
        number => Err(Failure::Interrupted(number, String::from("interrupted"))),
    }
}

/// A file that may have nothing to read for a long time: a reading of it ends
/// with [`io::ErrorKind::Interrupted`] every now and then.
pub struct Stream(pub File);

impl Read for Stream {
    fn read(&mut self, part: &mut [u8]) -> io::Result<usize> {
        if system::wait_to_read(&self.0, BETWEEN_LOOKS) {
            self.0.read(part)
        } else {
            Err(io::ErrorKind::Interrupted.into())
        }
    }
}
