//! Files as jobs on a cartridge.
//!
//! A job is a block that describes it, the file's bytes in blocks of 32 KiB
//! (the last padded with zeros), a block that tells how many bytes they are
//! and their SHA-256, and a filemark. Length and checksum stand behind the
//! data because those of a pipe are not known before its end, and a tape has
//! no way back.

pub mod reading;
pub mod source;

use std::fmt::{self, Display};

use adr_tape::BLOCK_LENGTH;

use crate::checksum::checksum;
use crate::digest::Digest;
use crate::size::bytes_in;
use crate::text::{count, grouped};
use crate::timestamp::Timestamp;

/// A block of a job.
pub type Block = Vec<u8>;

/// The longest name of a job, in bytes.
pub const LONGEST_NAME: usize = 255;

/// Whether a job's name is a file's name in any directory, and in no other.
pub fn is_plain_name(name: &[u8]) -> bool {
    let leads_on = name.contains(&b'/') || name.contains(&0);
    !leads_on && !matches!(name, b"" | b"." | b"..")
}

const BEGIN_MAGIC: [u8; 8] = *b"ADRJOB 2";
/// The first version told whole seconds since 1970 and no mode.
const FIRST_BEGIN_MAGIC: [u8; 8] = *b"ADRJOB 1";
const END_MAGIC: [u8; 8] = *b"ADREND 1";
const SUM: usize = BLOCK_LENGTH - 8;
const SECONDS: usize = 8;
const LENGTH: usize = 16;
const NAME_LENGTH: usize = 24;
const NAME: usize = 26;
/// Behind the longest name.
const NANOSECONDS: usize = 288;
const MODE: usize = 292;
const UNKNOWN: u64 = u64::MAX;
const NO_MODE: u16 = u16::MAX;
/// The bits of a mode that are recorded.
pub const PERMISSIONS: u16 = 0o7777;

/// What a job's first block tells.
#[derive(Clone, Debug, PartialEq, Eq)]
pub struct Description {
    /// The file's name, without directories.
    pub name: Vec<u8>,
    /// When the file was last changed.
    pub time: Timestamp,
    /// The file's length, if it was known when recording began.
    pub length: Option<u64>,
    /// The file's permission bits, if it was a file.
    pub mode: Option<u16>,
}

/// What a job's last block tells.
#[derive(Clone, Copy, Debug, PartialEq, Eq)]
pub struct Closing {
    /// The bytes of the file.
    pub length: u64,
    /// The SHA-256 of these bytes.
    pub digest: Digest,
}

impl Description {
    /// The block with this description.
    pub fn block(&self) -> Block {
        let name = self.name.get(..LONGEST_NAME).unwrap_or(&self.name);
        let length = self.length.unwrap_or(UNKNOWN);
        let name_length = u16::try_from(name.len()).unwrap_or(0);
        let mut content = Vec::with_capacity(BLOCK_LENGTH);
        content.extend(BEGIN_MAGIC);
        content.extend(self.time.seconds.to_be_bytes());
        content.extend(length.to_be_bytes());
        content.extend(name_length.to_be_bytes());
        content.extend_from_slice(name);
        content.resize(NANOSECONDS, 0);
        content.extend(self.time.nanoseconds.to_be_bytes());
        content.extend(self.mode.unwrap_or(NO_MODE).to_be_bytes());
        sealed(content)
    }

    /// The description in a block, none if there is none.
    pub fn read(block: &[u8]) -> Option<Description> {
        let (block, first) = match unsealed(block, BEGIN_MAGIC) {
            Some(block) => (block, false),
            None => (unsealed(block, FIRST_BEGIN_MAGIC)?, true),
        };
        let length = u64::from_be_bytes(bytes(block, LENGTH)?);
        let name_length = usize::from(u16::from_be_bytes(bytes(block, NAME_LENGTH)?));
        let mode = u16::from_be_bytes(bytes(block, MODE)?);
        Some(Description {
            name: block.get(NAME..)?.get(..name_length)?.to_vec(),
            time: Timestamp {
                seconds: i64::from_be_bytes(bytes(block, SECONDS)?),
                nanoseconds: u32::from_be_bytes(bytes(block, NANOSECONDS)?),
            },
            length: (length != UNKNOWN).then_some(length),
            mode: (!first && mode != NO_MODE).then_some(mode),
        })
    }

    /// How the file's length changed while it was recorded, if it did.
    pub fn tear(&self, closing: &Closing) -> Option<String> {
        let before = self.length.filter(|before| *before != closing.length)?;
        let how = if closing.length < before {
            "shrank"
        } else {
            "grew"
        };
        Some(format!(
            "{how} from {} to {} while it was recorded",
            grouped(before),
            count(closing.length, "byte", "bytes")
        ))
    }
}

/// Why a job is cut off.
#[derive(Clone, Copy, Debug, PartialEq, Eq)]
pub enum Cause {
    /// The tape was full.
    FullTape,
    /// Its session was not closed.
    CutSession,
}

/// How far a job got that is cut off.
#[derive(Clone, Copy, Debug, PartialEq, Eq)]
pub struct Cut {
    /// The bytes of it that are on tape; padding may be among them if its length
    /// is not known.
    bytes: u64,
    /// Its length, if it was known when recording began.
    length: Option<u64>,
    cause: Cause,
}

impl Cut {
    /// A job of this length, cut by a full tape behind so many blocks of its data.
    pub fn behind(blocks: u64, length: Option<u64>) -> Cut {
        let bytes = bytes_in(blocks).min(length.unwrap_or(u64::MAX));
        Cut {
            bytes,
            length,
            cause: Cause::FullTape,
        }
    }

    /// The same for another cause.
    pub fn by(self, cause: Cause) -> Cut {
        Cut { cause, ..self }
    }
}

impl Display for Cut {
    fn fmt(&self, formatter: &mut fmt::Formatter<'_>) -> fmt::Result {
        let bytes = grouped(self.bytes);
        match self.length {
            Some(length) => write!(
                formatter,
                "cut off behind {bytes} of its {}",
                count(length, "byte", "bytes")
            )?,
            None => write!(formatter, "cut off behind at most {bytes} bytes")?,
        }
        formatter.write_str(match self.cause {
            Cause::FullTape => ": the tape was full",
            Cause::CutSession => ": its session was not closed",
        })
    }
}

/// Why a job is not whole that lacks nothing else.
pub const NO_FILEMARK: &str = "its filemark is missing";

/// What is told of a job that is not whole.
pub fn not_whole(number: u64, why: impl Display) -> String {
    format!("job {number} is not whole: {why}")
}

/// What is told of a job whose file changed so while it was recorded.
pub fn torn(number: u64, tear: &str) -> String {
    format!("job {number} is torn: its file {tear}")
}

impl Closing {
    /// The block with this closing.
    pub fn block(&self) -> Block {
        let mut content = Vec::with_capacity(BLOCK_LENGTH);
        content.extend(END_MAGIC);
        content.extend(self.length.to_be_bytes());
        content.extend(self.digest);
        sealed(content)
    }

    /// The closing in a block, none if there is none.
    pub fn read(block: &[u8]) -> Option<Closing> {
        let block = unsealed(block, END_MAGIC)?;
        Some(Closing {
            length: u64::from_be_bytes(bytes(block, 8)?),
            digest: bytes(block, 16)?,
        })
    }
}

fn sealed(mut content: Block) -> Block {
    content.resize(SUM, 0);
    let sum = checksum(&content);
    content.extend(sum.to_be_bytes());
    content
}

fn unsealed(block: &[u8], magic: [u8; 8]) -> Option<&[u8]> {
    let (content, sum) = block.split_at_checked(SUM)?;
    let whole = content.starts_with(&magic) && checksum(content).to_be_bytes() == *sum;
    whole.then_some(content)
}

fn bytes<const N: usize>(from: &[u8], at: usize) -> Option<[u8; N]> {
    from.get(at..)?.first_chunk().copied()
}

#[cfg(test)]
mod tests {
    use super::*;

    fn description(name: &[u8], length: Option<u64>) -> Description {
        Description {
            name: name.to_vec(),
            time: Timestamp {
                seconds: -1_700_000_000,
                nanoseconds: 999_999_999,
            },
            length,
            mode: Some(PERMISSIONS),
        }
    }

    #[test]
    fn blocks_and_back() {
        for (name, length) in [
            (&b"parts.tar"[..], Some(0)),
            (&[0xFF; LONGEST_NAME], None),
            (b"", Some(UNKNOWN - 1)),
        ] {
            let mut description = description(name, length);
            if length.is_none() {
                description.mode = None;
            }
            let mut block = description.block();
            assert_eq!(block.len(), BLOCK_LENGTH);
            assert_eq!(Description::read(&block), Some(description));
            assert_eq!(Closing::read(&block), None);
            block[9] ^= 1;
            assert_eq!(Description::read(&block), None);
        }
        let closing = Closing {
            length: 77,
            digest: [9; 32],
        };
        let block = closing.block();
        assert_eq!(block.len(), BLOCK_LENGTH);
        assert_eq!(Closing::read(&block), Some(closing));
        assert_eq!(Closing::read(&block[1..]), None);
        assert_eq!(Description::read(&block), None);
    }

    /// As the tool wrote it that knew the first version alone.
    #[test]
    fn the_first_version() {
        let mut content = FIRST_BEGIN_MAGIC.to_vec();
        content.extend(1_700_000_000u64.to_be_bytes());
        content.extend(5u64.to_be_bytes());
        content.extend(b"\0\x04file");
        let read = Description {
            name: b"file".to_vec(),
            time: Timestamp::of_seconds(1_700_000_000),
            length: Some(5),
            mode: None,
        };
        assert_eq!(Description::read(&sealed(content)), Some(read));
    }

    #[test]
    fn cuts() {
        for (blocks, length, told) in [
            (
                0,
                Some(1),
                "cut off behind 0 of its 1 byte: the tape was full",
            ),
            (
                2,
                Some(100_000),
                "cut off behind 65,536 of its 100,000 bytes: the tape was full",
            ),
            (
                4,
                Some(100_000),
                "cut off behind 100,000 of its 100,000 bytes: the tape was full",
            ),
            (
                4,
                None,
                "cut off behind at most 131,072 bytes: the tape was full",
            ),
        ] {
            assert_eq!(Cut::behind(blocks, length).to_string(), told);
        }
    }

    #[test]
    fn tears() {
        let closing = Closing {
            length: 1_000,
            digest: [0; 32],
        };
        let tear = |length| description(b"file", length).tear(&closing);
        assert_eq!((tear(None), tear(Some(1_000))), (None, None));
        let shrank = "shrank from 1,001 to 1,000 bytes while it was recorded";
        assert_eq!(tear(Some(1_001)).as_deref(), Some(shrank));
        let grew = "grew from 0 to 1,000 bytes while it was recorded";
        assert_eq!(tear(Some(0)).as_deref(), Some(grew));
    }
}
