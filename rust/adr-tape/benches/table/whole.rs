//! Whole recordings and readings over a drive in memory.

use std::convert::Infallible;
use std::hint::black_box;
use std::ops::ControlFlow;

use adr_tape::{
    newest_header, read_all, record_all, Address, Drive, Element, Geometry, Reply, Sense, Setup,
    BLOCK_LENGTH, FRAME_LENGTH,
};

use crate::measure::{median, ratio, time};

const FRAMES: usize = 3_001;
const BLOCKS: usize = 2_000;
const GEOMETRY: Geometry = Geometry::beginning(FRAMES as u32, 1);
const SETUP: Setup = Setup {
    depth: 16,
    blocks: 16,
    tail: 0,
};

/// Writes at once. The whole tape is touched before it is measured.
struct Memory {
    tape: Vec<u8>,
    written: Vec<bool>,
    at: usize,
}

impl Memory {
    fn new() -> Memory {
        Memory {
            tape: vec![0xFF; FRAMES * FRAME_LENGTH],
            written: vec![false; FRAMES],
            at: 0,
        }
    }

    fn place(&mut self) -> &mut [u8] {
        let start = self.at * FRAME_LENGTH;
        self.at += 1;
        &mut self.tape[start..start + FRAME_LENGTH]
    }
}

impl Drive for Memory {
    type Error = Infallible;

    fn locate(&mut self, address: Address) -> Result<Reply, Infallible> {
        self.at = address.0 as usize;
        Ok(Reply::good())
    }

    fn write(&mut self, _: Address, frame: &[u8]) -> Result<Reply, Infallible> {
        self.written[self.at] = true;
        self.place().copy_from_slice(frame);
        Ok(Reply::good())
    }

    fn read(&mut self, _: Address, frame: &mut [u8]) -> Result<Reply, Infallible> {
        let written = self.written[self.at];
        frame.copy_from_slice(self.place());
        Ok(if written {
            Reply::good()
        } else {
            Reply::sense(Sense::UNREADABLE)
        })
    }

    fn read_position(&mut self) -> Result<Reply, Infallible> {
        Ok(Reply::buffered(0))
    }
}

fn rate(nanoseconds: f64) -> f64 {
    (BLOCKS * BLOCK_LENGTH) as f64 * 1e3 / nanoseconds
}

fn copy_to(drive: &mut Memory, block: &[u8]) {
    drive.at = 10;
    for _ in 0..BLOCKS {
        drive.place()[..BLOCK_LENGTH].copy_from_slice(black_box(block));
    }
}

fn copy_from(drive: &mut Memory, block: &mut [u8]) {
    drive.at = 10;
    for _ in 0..BLOCKS {
        block.copy_from_slice(&drive.place()[..BLOCK_LENGTH]);
        black_box(&mut *block);
    }
}

fn record(drive: &mut Memory, block: &[u8]) {
    let blocks = (0..BLOCKS).map(|_| Ok::<_, Infallible>(Element::from(block)));
    let summary = record_all(drive, GEOMETRY, SETUP, None, blocks, |_| {});
    assert!(summary.is_ok_and(|summary| summary.blocks == BLOCKS as u64));
}

fn read(drive: &mut Memory, header: &[u8], target: &mut [u8]) {
    let take = |element: Element<'_>| {
        if let Element::Block(block) = element {
            target.copy_from_slice(&block);
            black_box(&mut *target);
        }
        Ok::<_, Infallible>(ControlFlow::Continue(()))
    };
    let summary = read_all(drive, GEOMETRY, header, take, |_| {});
    assert!(summary.is_ok_and(|summary| summary.blocks == BLOCKS as u64));
}

/// Nanoseconds of a copy to the tape, a recording, a copy from the tape and a
/// reading.
fn round(drive: &mut Memory) -> [f64; 4] {
    let block = vec![9; BLOCK_LENGTH];
    let mut target = vec![0; BLOCK_LENGTH];
    let to = time(1, |_| copy_to(drive, &block));
    drive.written.fill(false);
    let recorded = time(1, |_| record(drive, &block));
    let header = newest_header(drive, GEOMETRY).ok().flatten();
    let header = header.unwrap_or_default();
    let from = time(1, |_| copy_from(drive, &mut target));
    let read = time(1, |_| read(drive, &header, &mut target));
    [to, recorded, from, read]
}

/// MB/s of a recording and of a reading, each behind a plain copy of as many
/// blocks to or from the same tape, and the share of that copy's rate.
pub fn rates(rounds: u32) -> Vec<(&'static str, f64, f64)> {
    let mut drive = Memory::new();
    let rounds: Vec<[f64; 4]> = (0..rounds).map(|_| round(&mut drive)).collect();
    let times = |at: usize| rounds.iter().map(|times| times[at]).collect::<Vec<_>>();
    let named = [
        ("a copy to the tape", 0, 0),
        ("a recording", 1, 0),
        ("a copy from the tape", 2, 2),
        ("a reading", 3, 2),
    ];
    let rated = named.map(|(name, at, copy)| {
        let share = ratio(&times(copy), &times(at));
        (name, rate(median(times(at))), share)
    });
    rated.to_vec()
}
