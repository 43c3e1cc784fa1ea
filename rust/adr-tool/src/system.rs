//! Calls of the system that the standard library does not have. The tool has
//! no other unsafe code.

use std::ffi::{c_int, c_short};
use std::fs::File;
use std::os::fd::AsRawFd;
use std::sync::atomic::{AtomicI32, Ordering};
use std::time::Duration;

/// What a signal does by itself.
const DEFAULT: usize = 0;
/// A signal that does nothing.
const IGNORED: usize = 1;

/// There is something to read.
const READABLE: c_short = 1;

#[cfg(target_os = "linux")]
type Count = std::ffi::c_ulong;
#[cfg(not(target_os = "linux"))]
type Count = std::ffi::c_uint;

#[repr(C)]
struct Polled {
    file: c_int,
    asked: c_short,
    told: c_short,
}

extern "C" {
    fn signal(number: c_int, action: usize) -> usize;
    fn raise(number: c_int) -> c_int;
    fn poll(files: *mut Polled, count: Count, milliseconds: c_int) -> c_int;
    fn fcntl(file: c_int, command: c_int, ...) -> c_int;
}

const STANDARD_OUTPUT: c_int = 1;
/// Asks for the flags that a file was opened with.
const GET_FLAGS: c_int = 3;
/// What the system tells of a file that is closed.
const CLOSED: c_int = -1;
/// The flags that tell what a file is opened for, and two of their values.
const ACCESS_MODE: c_int = 3;
const READ_ALONE: c_int = 0;
const WRITE_ALONE: c_int = 1;

/// The flags of standard output when the tool was started.
static OUTPUT: AtomicI32 = AtomicI32::new(WRITE_ALONE);

/// Runs before Rust's own start, which opens /dev/null in place of a standard
/// output that is closed, so that nothing tells it any more.
#[used]
#[cfg_attr(target_os = "linux", link_section = ".init_array")]
static LOOK_AT_OUTPUT: extern "C" fn() = look_at_output;

extern "C" fn look_at_output() {
    // SAFETY: no memory is lent.
    let flags = unsafe { fcntl(STANDARD_OUTPUT, GET_FLAGS) };
    OUTPUT.store(flags, Ordering::Relaxed);
}

/// Whether standard output was opened for writing when the tool was started.
/// Rust lets writes succeed where it was not.
pub fn output_is_open() -> bool {
    let flags = OUTPUT.load(Ordering::Relaxed);
    flags != CLOSED && flags & ACCESS_MODE != READ_ALONE
}

/// Lets a signal call `action`, unless whoever started the tool had the
/// signal ignored (as `nohup` does). `action` may store to an atomic alone.
pub fn on_signal(number: c_int, action: extern "C" fn(c_int)) {
    // SAFETY: `action` lives as long as the program, and what it may do is
    // allowed in a signal's handler.
    unsafe {
        if signal(number, IGNORED) != IGNORED {
            signal(number, action as *const () as usize);
        }
    }
}

/// Ends the program as a signal does that nobody caught, so that a shell sees
/// what ended it.
pub fn end_by(number: c_int) {
    // SAFETY: no memory is lent.
    unsafe {
        signal(number, DEFAULT);
        raise(number);
    }
}

/// Waits until a file can be read without waiting, or has an end or an error
/// to tell. False if a signal came or the time was over before.
pub fn wait_to_read(file: &File, limit: Duration) -> bool {
    let mut polled = Polled {
        file: file.as_raw_fd(),
        asked: READABLE,
        told: 0,
    };
    let limit = c_int::try_from(limit.as_millis()).unwrap_or(c_int::MAX);
    // SAFETY: one structure is lent, for the time of the call.
    let ready = unsafe { poll(&raw mut polled, 1, limit) };
    let interrupted = || {
        let error = std::io::Error::last_os_error();
        error.kind() == std::io::ErrorKind::Interrupted
    };
    // A file that cannot be waited for tells that when it is read.
    ready > 0 || (ready < 0 && !interrupted())
}

/// Gives a stretch of a file back to the file system; it reads as zeros then.
/// Where there is no such thing the file stays as it is.
#[cfg(all(target_os = "linux", target_pointer_width = "64"))]
pub fn punch_hole(file: &File, offset: u64, length: u64) {
    const KEEP_SIZE: c_int = 1;
    const PUNCH_HOLE: c_int = 2;
    extern "C" {
        fn fallocate(file: c_int, mode: c_int, offset: i64, length: i64) -> c_int;
    }
    if let (Ok(offset), Ok(length)) = (i64::try_from(offset), i64::try_from(length)) {
        // SAFETY: no memory is lent.
        unsafe {
            fallocate(file.as_raw_fd(), KEEP_SIZE | PUNCH_HOLE, offset, length);
        }
    }
}

/// Does nothing: this system is not known to have a call for it.
#[cfg(not(all(target_os = "linux", target_pointer_width = "64")))]
pub fn punch_hole(_file: &File, _offset: u64, _length: u64) {}
