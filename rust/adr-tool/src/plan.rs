//! `adr plan`: the most frames that a recording sends, and the time for them.

use adr_tape::{frames_sent_at_most, header_frames_sent_at_most, Geometry, Setup};

use crate::arguments::{Arguments, Options};
use crate::cartridge::require_sizes;
use crate::failure::Failure;
use crate::output;
use crate::record;
use crate::size::bytes_in_frames;
use crate::text::{count, grouped};

/// The options of `plan`.
pub const OPTIONS: Options = Options {
    valued: &[
        "--blocks",
        "--filemarks",
        "--errors",
        "--depth",
        "--window",
        "--rate",
    ],
    plain: &[],
};

/// The filemark of one job.
const FILEMARKS: u32 = 1;
/// The most that the drives sustain, 0831h in their Maximum Speed Supported.
const RATE: u32 = 0x0831;
/// What a rate is counted in, in bytes a second.
const RATE_UNIT: u64 = 1_000;
/// Headers are reckoned without errors: they are few, whatever is recorded.
const HEADER_ERRORS: u32 = 0;
/// Sizes are taken or refused alike on every cartridge.
const ANY_CARTRIDGE: Geometry = Geometry::beginning(3_001, 1);

/// Runs the command.
pub fn run(arguments: &Arguments) -> Result<(), Failure> {
    arguments.no_operands()?;
    output::plain(&Plan::parse(arguments)?.text())
}

/// What is to be recorded, and what is feared.
struct Plan {
    blocks: u32,
    filemarks: u32,
    elements: u32,
    errors: u32,
    setup: Setup,
    /// Bytes that the drive writes in a second.
    rate: u64,
}

impl Plan {
    fn parse(arguments: &Arguments) -> Result<Plan, Failure> {
        let blocks = required(arguments, "--blocks", "the blocks to be recorded")?;
        let errors = required(arguments, "--errors", "the write errors to allow for")?;
        let filemarks = arguments.number("--filemarks")?.unwrap_or(FILEMARKS);
        let setup = record::setup(arguments)?;
        require_sizes(ANY_CARTRIDGE, setup)?;
        Ok(Plan {
            blocks,
            filemarks,
            elements: together(blocks, filemarks)?,
            errors,
            setup,
            rate: rate(arguments)?,
        })
    }

    fn text(&self) -> String {
        let frames = frames_sent_at_most(self.elements, self.errors, self.setup);
        let headers = header_frames_sent_at_most(HEADER_ERRORS, self.setup);
        let bytes = bytes_in_frames(frames.saturating_add(headers));
        format!(
            "frames: at most {} for {}, {} and the end of data, with {}\n\
             header frames: {headers}, if none of them fails\n\
             time to write all these: {} at {} bytes a second; \
             busy times, LOCATEs and reading are not in it\n",
            grouped(frames),
            count(self.blocks.into(), "block", "blocks"),
            count(self.filemarks.into(), "filemark", "filemarks"),
            count(self.errors.into(), "write error", "write errors"),
            hours_and_minutes(bytes.div_ceil(self.rate)),
            grouped(self.rate),
        )
    }
}

/// The number of an option that has to be given.
fn required(arguments: &Arguments, name: &str, what: &str) -> Result<u32, Failure> {
    let number = arguments.number(name)?;
    number.ok_or_else(|| Failure::usage(format!("give '{name} N', {what}")))
}

/// Blocks and filemarks, as far as they can be counted.
fn together(blocks: u32, filemarks: u32) -> Result<u32, Failure> {
    blocks.checked_add(filemarks).ok_or_else(|| {
        let most = grouped(u32::MAX.into());
        Failure::usage(format!(
            "--blocks and --filemarks: give at most {most} together"
        ))
    })
}

/// Bytes a second.
fn rate(arguments: &Arguments) -> Result<u64, Failure> {
    match arguments.number("--rate")?.unwrap_or(RATE) {
        0 => Err(Failure::usage(
            "--rate: give 1 or more, in units of 1,000 bytes a second",
        )),
        rate => Ok(u64::from(rate).saturating_mul(RATE_UNIT)),
    }
}

/// Seconds as hours and minutes, of which one that is begun counts.
fn hours_and_minutes(seconds: u64) -> String {
    let minutes = seconds.div_ceil(60);
    let (hours, minutes) = (minutes / 60, minutes % 60);
    let minutes = count(minutes, "minute", "minutes");
    match hours {
        0 => minutes,
        hours => format!("{} {minutes}", count(hours, "hour", "hours")),
    }
}

#[cfg(test)]
mod tests {
    use super::*;

    #[test]
    fn times() {
        for (seconds, told) in [
            (0, "0 minutes"),
            (1, "1 minute"),
            (60, "1 minute"),
            (61, "2 minutes"),
            (3_540, "59 minutes"),
            (3_541, "1 hour 0 minutes"),
            (7_261, "2 hours 2 minutes"),
            (u64::MAX, "5,124,095,576,030,431 hours 1 minute"),
        ] {
            assert_eq!(hours_and_minutes(seconds), told);
        }
    }
}
