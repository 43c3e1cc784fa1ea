//! What tells, in debug builds, that a recording was left before it was whole.

use std::io::{self, Write};
use std::sync::atomic::{AtomicBool, Ordering};
use std::sync::Arc;
use std::thread;

const LEFT_OPEN: &str = "adr-tape: a Recorder was dropped before its recording was whole: \
                         close it and fetch until Next::Done, or abandon it";

/// Whether a recording has begun and not come to its end.
///
/// The clones of a recorder are one recording and share this: the last of them
/// tells, and only if none came to an end.
#[derive(Clone, Default)]
pub(crate) struct Unclosed(Arc<AtomicBool>);

impl Unclosed {
    /// An element was accepted, or a command given: what was on the cartridge
    /// may be gone.
    pub(crate) fn begun(&self) {
        self.0.store(true, Ordering::Relaxed);
    }

    /// The recording is whole, was refused, or is given up knowingly.
    pub(crate) fn over(&self) {
        self.0.store(false, Ordering::Relaxed);
    }
}

impl Drop for Unclosed {
    fn drop(&mut self) {
        let told = cfg!(debug_assertions)
            && self.0.load(Ordering::Relaxed)
            && Arc::strong_count(&self.0) == 1
            && !thread::panicking();
        if told {
            // Not eprintln, which panics where standard error is closed.
            let _ = writeln!(io::stderr(), "{LEFT_OPEN}");
        }
    }
}
