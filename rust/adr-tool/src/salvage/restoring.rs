//! Jobs that were put together, on their way to files.

use std::collections::BTreeSet;
use std::ffi::OsStr;
use std::ops::ControlFlow;
use std::os::unix::ffi::OsStrExt;
use std::path::{Path, PathBuf};

use adr_model::frame::data_of;
use adr_tape::Element;

use super::found::Found;
use super::job::Job;
use crate::failure::Failure;
use crate::image::{refuse_itself, Frames};
use crate::interruption;
use crate::job::reading::{Event, Jobs, Verdict};
use crate::job::{is_plain_name, Closing, Description};
use crate::progress::Progress;
use crate::size::bytes_in_frames;
use crate::text::printable;
use crate::writer::{NewFile, Writer};

/// Choices between frames of one number that are tried.
const ATTEMPTS: usize = 64;
const NO_DESCRIPTION: &str = "its first block is not what was recorded";

/// Jobs on their way to a directory.
pub struct Restoring<'a> {
    directory: Directory<'a>,
    progress: Progress,
    /// Frames read so far.
    done: u64,
}

/// Where the jobs go.
struct Directory<'a> {
    image: &'a Path,
    path: &'a Path,
    overwrite: bool,
    /// The names of the files written so far.
    written: BTreeSet<Vec<u8>>,
}

/// What came of a job whose blocks are all there.
pub enum Outcome {
    /// It was written to a file of this name.
    Restored(Closing, Vec<u8>),
    /// It is not what was recorded, for this reason.
    Broken(&'static str),
}

impl<'a> Restoring<'a> {
    /// Jobs of an image, to be written into a directory.
    pub fn new(image: &'a Path, path: &'a Path, overwrite: bool, quiet: bool) -> Restoring<'a> {
        Restoring {
            directory: Directory {
                image,
                path,
                overwrite,
                written: BTreeSet::new(),
            },
            progress: Progress::new("restoring", quiet),
            done: 0,
        }
    }

    /// Restores a job. Where several frames bear a number and their data are
    /// not alike, the job's checksum decides between them.
    pub fn restore(&mut self, job: &Job<'_>, frames: &Frames) -> Result<Outcome, Failure> {
        let blocks: Vec<Vec<&Found>> = job.blocks.iter().map(|same| unlike(same, frames)).collect();
        let mut first_reason = None;
        for attempt in 0..ATTEMPTS {
            let Some(choice) = chosen(&blocks, attempt) else {
                break;
            };
            match self.attempt(job.number, &choice, frames)? {
                Outcome::Broken(reason) => {
                    first_reason.get_or_insert(reason);
                }
                restored => return Ok(restored),
            }
        }
        Ok(Outcome::Broken(first_reason.unwrap_or("it has no blocks")))
    }

    fn attempt(
        &mut self,
        job: u64,
        blocks: &[&Found],
        frames: &Frames,
    ) -> Result<Outcome, Failure> {
        let directory = &self.directory;
        let mut target: Option<(Writer, Vec<u8>)> = None;
        let mut verdict = Verdict::Foreign;
        let mut taker = |_: u64, event: Event<'_>| {
            match event {
                Event::Begin(description) => target = Some(directory.open(job, description)?),
                Event::Data(data) => {
                    if let Some((writer, _)) = &mut target {
                        writer.write(data)?;
                    }
                }
                Event::End(end) => verdict = end.clone(),
            }
            Ok(ControlFlow::Continue(()))
        };
        let mut jobs = Jobs::new(&mut taker);
        for found in blocks {
            interruption::check()?;
            let Some(frame) = frames.read(&found.origin) else {
                return Ok(Outcome::Broken("a block of it cannot be read again"));
            };
            let _ = jobs.take(&Element::from(data_of(&frame)))?;
            self.done = self.done.saturating_add(1);
            self.progress
                .update(bytes_in_frames(self.done), self.done, None);
        }
        let _ = jobs.take(&Element::Filemark)?;
        let closing = match verdict {
            Verdict::Whole(closing) => closing,
            Verdict::Broken(reason) => return Ok(Outcome::Broken(reason)),
            // A filemark was taken: nothing is cut off.
            Verdict::Cut(_) | Verdict::Unclosed | Verdict::Foreign => {
                return Ok(Outcome::Broken(NO_DESCRIPTION))
            }
        };
        let Some((writer, name)) = target else {
            return Ok(Outcome::Broken(NO_DESCRIPTION));
        };
        writer.finish()?;
        self.directory.written.insert(name.clone());
        Ok(Outcome::Restored(closing, name))
    }
}

impl Directory<'_> {
    fn open(&self, job: u64, description: &Description) -> Result<(Writer, Vec<u8>), Failure> {
        let name = self.name_for(job, &description.name)?;
        let path: PathBuf = self.path.join(OsStr::from_bytes(&name));
        refuse_itself(self.image, &path)?;
        let file = NewFile::open(&path, self.overwrite, description)?;
        Ok((Writer::File(file), name))
    }

    /// A job's name as a file's name in the directory, with the job's number
    /// if an earlier job has that name.
    fn name_for(&self, job: u64, name: &[u8]) -> Result<Vec<u8>, Failure> {
        if !is_plain_name(name) {
            return Err(Failure::new(format!(
                "the name '{}' would lead out of the directory",
                printable(name)
            )));
        }
        let mut own = name.to_vec();
        if self.written.contains(name) {
            own.extend(format!(".job-{job}").into_bytes());
        }
        Ok(own)
    }
}

/// Frames of one number whose data are not alike.
fn unlike<'f>(same: &'f [Found], frames: &Frames) -> Vec<&'f Found> {
    if let [only] = same {
        return vec![only];
    }
    let mut data: Vec<Vec<u8>> = Vec::new();
    let mut unlike = Vec::new();
    for found in same.iter().take(ATTEMPTS) {
        let Some(frame) = frames.read(&found.origin) else {
            continue;
        };
        if !data.iter().any(|other| other == data_of(&frame)) {
            data.push(data_of(&frame).to_vec());
            unlike.push(found);
        }
    }
    unlike
}

/// One frame for each block; the first attempt takes the first of each. None
/// if every choice was tried.
fn chosen<'f>(blocks: &[Vec<&'f Found>], attempt: usize) -> Option<Vec<&'f Found>> {
    let mut rest = attempt;
    let mut choice = Vec::with_capacity(blocks.len());
    for block in blocks {
        let turn = rest.checked_rem(block.len())?;
        rest = rest.checked_div(block.len())?;
        choice.push(*block.get(turn)?);
    }
    (rest == 0 && !choice.is_empty()).then_some(choice)
}
