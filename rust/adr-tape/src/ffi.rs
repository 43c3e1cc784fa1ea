//! The layer's calls as `include/adr.h` declares them, over slices.
//!
//! For hosts that keep window and frame in buffers of their own; others use
//! [`Recorder`](crate::Recorder) and [`Reader`](crate::Reader). A session is
//! kept by the host: each call takes it by value and hands it back. Every
//! call takes every number and every length; what it can't serve it refuses.
//!
//! This is the only file with `unsafe`. Its calls are sound because
//!
//! * the structs are `#[repr(C)]`, hold only integers, and have the sizes and
//!   offsets of `include/adr.h`, asserted in `layout` and there, so every value of
//!   them is one that the layer was proved for;
//! * a slice goes over as its own pointer and length, is not null, and is
//!   valid for the whole call; `&mut` keeps what is written apart from
//!   everything else that is lent;
//! * the layer keeps no pointer, has no state of its own, reads only what is
//!   lent and writes only to the window of [`record_block`], the frame of
//!   [`record_fetch`] and the line of [`sheet_open`], [`sheet_enter`] and
//!   [`sheet_finish`].
#![allow(unsafe_code)]

mod layout;
mod structs;

pub use structs::*;

/// Stage of a recording: the closing headers; EOD is on tape.
pub const CLOSING_HEADERS: u8 = 2;

/// Operation code of READ.
pub const READ: u8 = 0x08;
/// Operation code of WRITE.
pub const WRITE: u8 = 0x0A;
/// Operation code of LOCATE.
pub const LOCATE: u8 = 0x2B;
/// Operation code of READ POSITION.
pub const READ_POSITION: u8 = 0x34;

/// Answer: refused, `number` says why.
pub const REFUSED: u8 = 0;
/// Answer: a command for the drive.
pub const COMMAND: u8 = 1;
/// Answer: nothing to do until the host accepts an element or closes.
pub const IDLE: u8 = 2;
/// Answer: the recording is whole and closed.
pub const DONE: u8 = 3;
/// Answer: the reading has come to its end.
pub const END: u8 = 4;
/// Answer: nothing is delivered, or nothing is to be printed.
pub const NOTHING: u8 = 5;
/// Answer: the frame's first 32,768 bytes are the next block.
pub const BLOCK: u8 = 6;
/// Answer: the next element is a filemark.
pub const FILEMARK: u8 = 7;
/// Answer: the lent line is to be printed.
pub const LINE: u8 = 8;

mod calls {
    use super::*;

    extern "C" {
        pub(super) fn adr_frames(geometry: Geometry) -> u32;
        pub(super) fn adr_last(geometry: Geometry) -> Place;
        pub(super) fn adr_is_user(last: u32, address: u32) -> u8;
        pub(super) fn adr_header_address(group: u32, copy: u32) -> u32;
        pub(super) fn adr_choose(
            geometry: Geometry,
            first: *const u8,
            first_length: usize,
            second: *const u8,
            second_length: usize,
        ) -> Choice;
        pub(super) fn adr_record_open(
            geometry: Geometry,
            depth: u32,
            blocks: u32,
            tail: u32,
            header: *const u8,
            header_length: usize,
        ) -> RecordOutcome;
        pub(super) fn adr_record_open_blank(
            geometry: Geometry,
            depth: u32,
            blocks: u32,
            tail: u32,
        ) -> RecordOutcome;
        pub(super) fn adr_record_open_at_end(
            reading: Reading,
            depth: u32,
            blocks: u32,
            tail: u32,
        ) -> RecordOutcome;
        pub(super) fn adr_record_block(
            session: Recording,
            block: *const u8,
            block_length: usize,
            window: *mut u8,
            window_length: usize,
        ) -> RecordOutcome;
        pub(super) fn adr_record_filemark(session: Recording) -> RecordOutcome;
        pub(super) fn adr_record_close(session: Recording) -> RecordOutcome;
        pub(super) fn adr_record_fetch(
            session: Recording,
            window: *const u8,
            window_length: usize,
            frame: *mut u8,
            frame_length: usize,
        ) -> RecordFetched;
        pub(super) fn adr_record_reply(session: Recording, reply: Reply) -> RecordOutcome;
        pub(super) fn adr_frames_sent_at_most(
            elements: u32,
            errors: u32,
            depth: u32,
            blocks: u32,
        ) -> u64;
        pub(super) fn adr_header_frames_sent_at_most(errors: u32, depth: u32) -> u64;
        pub(super) fn adr_read_open(
            geometry: Geometry,
            header: *const u8,
            header_length: usize,
        ) -> ReadOpened;
        pub(super) fn adr_read_fetch(session: Reading) -> ReadFetched;
        pub(super) fn adr_read_reply(
            session: Reading,
            reply: Reply,
            frame: *const u8,
            frame_length: usize,
        ) -> ReadReplied;
        pub(super) fn adr_sheet_open(line: *mut u8, line_length: usize) -> SheetEntered;
        pub(super) fn adr_sheet_enter(
            sheet: Sheet,
            aux: *const u8,
            aux_length: usize,
            line: *mut u8,
            line_length: usize,
        ) -> SheetEntered;
        pub(super) fn adr_sheet_finish(
            sheet: Sheet,
            line: *mut u8,
            line_length: usize,
        ) -> SheetEntered;
    }
}

/// `adr_frames`: the frames on tape.
#[must_use]
pub fn frames(geometry: Geometry) -> u32 {
    // SAFETY: only numbers go over.
    unsafe { calls::adr_frames(geometry) }
}

/// `adr_last`: the highest address.
#[must_use]
pub fn last(geometry: Geometry) -> Place {
    // SAFETY: only numbers go over.
    unsafe { calls::adr_last(geometry) }
}

/// `adr_is_user`: 1 where `address` is a user frame's.
#[must_use]
pub fn is_user(last: u32, address: u32) -> u8 {
    // SAFETY: only numbers go over.
    unsafe { calls::adr_is_user(last, address) }
}

/// `adr_header_address`: the address of a header copy.
#[must_use]
pub fn header_address(group: u32, copy: u32) -> u32 {
    // SAFETY: only numbers go over.
    unsafe { calls::adr_header_address(group, copy) }
}

/// `adr_choose`: the newer of two header frames.
#[must_use]
pub fn choose(geometry: Geometry, first: &[u8], second: &[u8]) -> Choice {
    // SAFETY: both slices are lent for the call and only read.
    unsafe {
        calls::adr_choose(
            geometry,
            first.as_ptr(),
            first.len(),
            second.as_ptr(),
            second.len(),
        )
    }
}

/// `adr_record_open`: opens a recording on the newest header.
#[must_use]
pub fn record_open(
    geometry: Geometry,
    depth: u32,
    blocks: u32,
    tail: u32,
    header: &[u8],
) -> RecordOutcome {
    // SAFETY: the slice is lent for the call and only read.
    unsafe { calls::adr_record_open(geometry, depth, blocks, tail, header.as_ptr(), header.len()) }
}

/// `adr_record_open_blank`: opens a recording on a cartridge without header.
#[must_use]
pub fn record_open_blank(geometry: Geometry, depth: u32, blocks: u32, tail: u32) -> RecordOutcome {
    // SAFETY: only numbers go over.
    unsafe { calls::adr_record_open_blank(geometry, depth, blocks, tail) }
}

/// `adr_record_open_at_end`: opens a recording behind what a reading has delivered.
#[must_use]
pub fn record_open_at_end(reading: Reading, depth: u32, blocks: u32, tail: u32) -> RecordOutcome {
    // SAFETY: only numbers go over.
    unsafe { calls::adr_record_open_at_end(reading, depth, blocks, tail) }
}

/// `adr_record_block`: accepts a block into the window.
#[must_use]
pub fn record_block(session: Recording, block: &[u8], window: &mut [u8]) -> RecordOutcome {
    // SAFETY: the block is lent for the call and only read; the window is
    // lent for the call and overlaps nothing.
    unsafe {
        calls::adr_record_block(
            session,
            block.as_ptr(),
            block.len(),
            window.as_mut_ptr(),
            window.len(),
        )
    }
}

/// `adr_record_filemark`: accepts a filemark.
#[must_use]
pub fn record_filemark(session: Recording) -> RecordOutcome {
    // SAFETY: only numbers go over.
    unsafe { calls::adr_record_filemark(session) }
}

/// `adr_record_close`: asks for the recording to be ended.
#[must_use]
pub fn record_close(session: Recording) -> RecordOutcome {
    // SAFETY: only numbers go over.
    unsafe { calls::adr_record_close(session) }
}

/// `adr_record_fetch`: the next command; a WRITE fills the frame.
#[must_use]
pub fn record_fetch(session: Recording, window: &[u8], frame: &mut [u8]) -> RecordFetched {
    // SAFETY: the window is lent for the call and only read; the frame is
    // lent for the call and overlaps nothing.
    unsafe {
        calls::adr_record_fetch(
            session,
            window.as_ptr(),
            window.len(),
            frame.as_mut_ptr(),
            frame.len(),
        )
    }
}

/// `adr_record_reply`: brings the drive's reply.
#[must_use]
pub fn record_reply(session: Recording, reply: Reply) -> RecordOutcome {
    // SAFETY: only numbers go over.
    unsafe { calls::adr_record_reply(session, reply) }
}

/// `adr_frames_sent_at_most`: the most frames of elements and EOD.
#[must_use]
pub fn frames_sent_at_most(elements: u32, errors: u32, depth: u32, blocks: u32) -> u64 {
    // SAFETY: only numbers go over.
    unsafe { calls::adr_frames_sent_at_most(elements, errors, depth, blocks) }
}

/// `adr_header_frames_sent_at_most`: the most frames of headers.
#[must_use]
pub fn header_frames_sent_at_most(errors: u32, depth: u32) -> u64 {
    // SAFETY: only numbers go over.
    unsafe { calls::adr_header_frames_sent_at_most(errors, depth) }
}

/// `adr_read_open`: opens a reading on the newest header.
#[must_use]
pub fn read_open(geometry: Geometry, header: &[u8]) -> ReadOpened {
    // SAFETY: the slice is lent for the call and only read.
    unsafe { calls::adr_read_open(geometry, header.as_ptr(), header.len()) }
}

/// `adr_read_fetch`: the next command.
#[must_use]
pub fn read_fetch(session: Reading) -> ReadFetched {
    // SAFETY: only numbers go over.
    unsafe { calls::adr_read_fetch(session) }
}

/// `adr_read_reply`: brings the drive's reply and the frame read.
#[must_use]
pub fn read_reply(session: Reading, reply: Reply, frame: &[u8]) -> ReadReplied {
    // SAFETY: the slice is lent for the call and only read.
    unsafe { calls::adr_read_reply(session, reply, frame.as_ptr(), frame.len()) }
}

/// `adr_sheet_open`: a new sheet, and its header line.
#[must_use]
pub fn sheet_open(line: &mut [u8]) -> SheetEntered {
    // SAFETY: the line is lent for the call and overlaps nothing.
    unsafe { calls::adr_sheet_open(line.as_mut_ptr(), line.len()) }
}

/// `adr_sheet_enter`: the AUX field of the next delivery, or of EOD.
#[must_use]
pub fn sheet_enter(sheet: Sheet, aux: &[u8], line: &mut [u8]) -> SheetEntered {
    // SAFETY: the field is lent for the call and only read; the line is lent
    // for the call and overlaps nothing.
    unsafe {
        calls::adr_sheet_enter(
            sheet,
            aux.as_ptr(),
            aux.len(),
            line.as_mut_ptr(),
            line.len(),
        )
    }
}

/// `adr_sheet_finish`: no further field comes.
#[must_use]
pub fn sheet_finish(sheet: Sheet, line: &mut [u8]) -> SheetEntered {
    // SAFETY: the line is lent for the call and overlaps nothing.
    unsafe { calls::adr_sheet_finish(sheet, line.as_mut_ptr(), line.len()) }
}
