//! Files on their way to tape: the elements of their jobs.

use std::collections::VecDeque;
use std::ffi::OsStr;
use std::fmt::{self, Display};
use std::fs::{File, Metadata};
use std::io::{self, Read};
use std::os::fd::AsFd;
use std::os::unix::ffi::OsStrExt;
use std::os::unix::fs::PermissionsExt;
use std::path::{Path, PathBuf};
use std::time::{SystemTime, UNIX_EPOCH};

use adr_tape::{Element, BLOCK_LENGTH};

use super::{is_plain_name, Closing, Cut, Description, LONGEST_NAME, PERMISSIONS};
use crate::digest::Sha256;
use crate::failure::Failure;
use crate::image::{open_regular, refuse_itself, Access};
use crate::interruption::{self, Stream};
use crate::timestamp::Timestamp;

/// The links behind one another that a system follows.
const MOST_LINKS: u32 = 40;

/// What a job is made of.
pub struct Input {
    /// What it is called in messages; a file's path.
    shown: PathBuf,
    description: Description,
    bytes: Bytes,
    /// Whether its path leads to something else in another process.
    inherited: bool,
}

enum Bytes {
    /// A regular file's, which is opened when its turn comes, unless it is
    /// this image by then.
    File(PathBuf),
    /// They can be read once.
    Stream(Box<dyn Read>),
}

impl Input {
    /// The file at a path, to be recorded on an image, after a look at it:
    /// what cannot be recorded is told before the first frame is written.
    pub fn file(path: &Path, image: &Path) -> Result<Input, Failure> {
        refuse_itself(image, path)?;
        let file = File::open(path).map_err(|error| Failure::of_file(path, &error))?;
        let description = describe(path, &file)?;
        let bytes = match description.length {
            Some(_) => Bytes::File(image.to_path_buf()),
            // A pipe that is opened twice has lost its writer.
            None => Bytes::Stream(Box::new(Stream(file))),
        };
        Ok(Input {
            shown: path.to_path_buf(),
            description,
            bytes,
            inherited: is_descriptor(path),
        })
    }

    /// Standard input.
    pub fn standard_input(name: &OsStr) -> Result<Input, Failure> {
        let description = Description {
            name: job_name(name)?,
            time: SystemTime::now().into(),
            length: None,
            mode: None,
        };
        let shown = Path::new("standard input");
        let file = io::stdin().as_fd().try_clone_to_owned();
        let file = file.map_err(|error| Failure::of_file(shown, &error))?;
        Ok(Input {
            shown: shown.to_path_buf(),
            ..Input::bytes(description, Stream(file.into()))
        })
    }

    /// Bytes under a description.
    pub fn bytes(description: Description, bytes: impl Read + 'static) -> Input {
        Input {
            shown: PathBuf::from(OsStr::from_bytes(&description.name)),
            description,
            bytes: Bytes::Stream(Box::new(bytes)),
            inherited: false,
        }
    }

    /// What it is called in messages.
    pub fn shown(&self) -> &Path {
        &self.shown
    }

    /// Whether a later recording can read it too: what is no regular file gives
    /// its bytes once, and a file that a shell opened may have no other name.
    pub fn can_be_read_again(&self) -> bool {
        matches!(self.bytes, Bytes::File(_)) && !self.inherited
    }

    /// What is known of it before it is read.
    pub fn description(&self) -> &Description {
        &self.description
    }

    fn open(self) -> Result<Job, Failure> {
        let (description, bytes, file): (_, Box<dyn Read>, _) = match self.bytes {
            Bytes::File(image) => {
                // Something else may have come in its place since the first
                // look, even the image.
                refuse_itself(&image, &self.shown)?;
                let opened = open_regular(&self.shown, Access::Read);
                let opened = opened.map_err(|error| Failure::of_file(&self.shown, &error));
                let (file, _) = opened?;
                let again = file.try_clone();
                let again = again.map_err(|error| Failure::of_file(&self.shown, &error))?;
                let description = describe(&self.shown, &file)?;
                (description, Box::new(file), Some(again))
            }
            Bytes::Stream(bytes) => (self.description, bytes, None),
        };
        Ok(Job {
            shown: self.shown,
            bytes,
            file,
            description,
            stage: Stage::Description,
            digest: Sha256::new(),
            length: 0,
            change: None,
        })
    }
}

/// Whether a path names a descriptor of this process, as `/dev/stdin`,
/// `/dev/fd/3` and `/proc/self/fd/3` do.
fn is_descriptor(path: &Path) -> bool {
    let mut path = path.to_path_buf();
    for _ in 0..MOST_LINKS {
        let directory = match path.parent() {
            Some(parent) if !parent.as_os_str().is_empty() => parent,
            _ => Path::new("."),
        };
        let Ok(directory) = directory.canonicalize() else {
            return false;
        };
        let of_process = directory.starts_with("/proc") && directory.ends_with("fd");
        if of_process || directory == Path::new("/dev/fd") {
            return true;
        }
        match path.read_link() {
            Ok(target) => path = directory.join(target),
            Err(_) => return false,
        }
    }
    false
}

fn describe(path: &Path, file: &File) -> Result<Description, Failure> {
    let metadata = file.metadata();
    let metadata = metadata.map_err(|error| Failure::of_file(path, &error))?;
    let shown = path.display();
    if metadata.is_dir() {
        return Err(Failure::new(format!(
            "{shown}: is a directory; record it as 'tar c {shown} | adr record IMAGE -'"
        )));
    }
    let name = path.file_name().unwrap_or(path.as_os_str());
    let regular = metadata.is_file();
    Ok(Description {
        name: job_name(name)?,
        time: changed(&metadata),
        length: regular.then_some(metadata.len()),
        mode: regular.then(|| permissions(&metadata)),
    })
}

fn changed(metadata: &Metadata) -> Timestamp {
    metadata.modified().unwrap_or(UNIX_EPOCH).into()
}

fn permissions(metadata: &Metadata) -> u16 {
    let bits = metadata.permissions().mode() & u32::from(PERMISSIONS);
    u16::try_from(bits).unwrap_or(0)
}

fn job_name(name: &OsStr) -> Result<Vec<u8>, Failure> {
    let name = name.as_bytes();
    if name.len() > LONGEST_NAME {
        return Err(Failure::usage(format!(
            "a job's name has at most {LONGEST_NAME} bytes"
        )));
    }
    if !is_plain_name(name) {
        let shown = String::from_utf8_lossy(name);
        return Err(Failure::usage(format!(
            "'{shown}' cannot be a job's name: it must be that of a file, without directories"
        )));
    }
    Ok(name.to_vec())
}

/// A job under way.
struct Job {
    shown: PathBuf,
    bytes: Box<dyn Read>,
    /// A regular file, to be looked at again when it was read.
    file: Option<File>,
    description: Description,
    stage: Stage,
    digest: Sha256,
    length: u64,
    /// How the file changed while it was read, if it did.
    change: Option<String>,
}

/// What a job sends next.
enum Stage {
    Description,
    Data,
    Filemark,
}

impl Job {
    /// The next element; the last is a filemark.
    fn next(&mut self, allow_empty: bool) -> Result<Element<'static>, Failure> {
        match self.stage {
            Stage::Description => {
                self.stage = Stage::Data;
                Ok(self.description.block().into())
            }
            Stage::Data => self.data(allow_empty),
            Stage::Filemark => Ok(Element::Filemark),
        }
    }

    /// A block of data, or the closing behind the last of them.
    fn data(&mut self, allow_empty: bool) -> Result<Element<'static>, Failure> {
        let mut block = vec![0; BLOCK_LENGTH];
        let filled = fill(&self.shown, &mut self.bytes, &mut block)?;
        self.digest.add(block.get(..filled).unwrap_or(&[]));
        self.length += u64::try_from(filled).unwrap_or(0);
        if filled > 0 {
            return Ok(block.into());
        }
        if self.length == 0 && self.file.is_none() && !allow_empty {
            return Err(Failure::new(format!(
                "{}: there is nothing to read: see why, \
                 or record an empty job with '--allow-empty'",
                self.shown.display()
            )));
        }
        self.stage = Stage::Filemark;
        let closing = Closing {
            length: self.length,
            digest: std::mem::replace(&mut self.digest, Sha256::new()).finish(),
        };
        let tear = self.description.tear(&closing);
        self.change = tear.or_else(|| self.touched());
        Ok(closing.block().into())
    }

    /// Tells a file that was written to while it was read, at one length.
    fn touched(&self) -> Option<String> {
        let metadata = self.file.as_ref()?.metadata().ok()?;
        let same = changed(&metadata) == self.description.time;
        (!same).then(|| String::from("changed while it was recorded"))
    }
}

/// Reads until a block is full or nothing more comes.
fn fill(shown: &Path, bytes: &mut dyn Read, block: &mut [u8]) -> Result<usize, Failure> {
    let mut filled = 0;
    while let Some(rest) = block.get_mut(filled..).filter(|rest| !rest.is_empty()) {
        match bytes.read(rest) {
            Ok(0) => break,
            Ok(count) => filled += count,
            Err(error) if error.kind() == io::ErrorKind::Interrupted => interruption::check()?,
            Err(error) => return Err(Failure::of_file(shown, &error)),
        }
    }
    Ok(filled)
}

/// The elements of all jobs, in turn.
pub struct Elements {
    waiting: VecDeque<Input>,
    current: Option<Job>,
    allow_empty: bool,
    /// The jobs before these.
    before: u64,
    /// The jobs begun, in turn.
    begun: Vec<Begun>,
    /// Elements sent.
    sent: u64,
    changed: Vec<Change>,
}

/// A file that changed while it was read.
pub struct Change {
    /// The job that was made of it.
    pub job: u64,
    /// The file and how it changed.
    how: String,
}

impl Display for Change {
    fn fmt(&self, formatter: &mut fmt::Formatter<'_>) -> fmt::Result {
        write!(formatter, "{}, as job {}", self.how, self.job)
    }
}

/// A job of which elements were sent.
struct Begun {
    /// The elements sent before it, and with it if it came to its end.
    start: u64,
    end: Option<u64>,
    /// Its length, if it is known.
    length: Option<u64>,
}

/// How far a recording got on a tape that was full.
#[derive(Clone, Copy, Debug, PartialEq, Eq)]
pub struct Reach {
    /// The jobs that are on tape from beginning to end.
    pub whole: usize,
    /// The one behind them, if a part of it is.
    pub cut: Option<Cut>,
}

impl Elements {
    /// The elements of these inputs. A stream with nothing to read is a
    /// failure, unless empty ones are allowed.
    pub fn new(inputs: Vec<Input>, allow_empty: bool) -> Elements {
        Elements {
            waiting: inputs.into(),
            current: None,
            allow_empty,
            before: 0,
            begun: Vec::new(),
            sent: 0,
            changed: Vec::new(),
        }
    }

    /// The same behind so many jobs, which are on the cartridge already.
    pub fn behind(self, jobs: u64) -> Elements {
        Elements {
            before: jobs,
            ..self
        }
    }

    /// The files that changed while they were read, and how.
    pub fn changed(&self) -> &[Change] {
        &self.changed
    }

    /// How far these got if so many of them are on tape.
    pub fn reach(&self, on_tape: u64) -> Reach {
        let is_whole = |job: &&Begun| job.end.is_some_and(|end| end <= on_tape);
        let whole = self.begun.iter().take_while(is_whole).count();
        let next = self.begun.get(whole).filter(|job| job.start < on_tape);
        let cut = next.map(|job| {
            // The first of its elements describes it.
            let blocks = on_tape.saturating_sub(job.start).saturating_sub(1);
            Cut::behind(blocks, job.length)
        });
        Reach { whole, cut }
    }

    /// Whether a job is whole where they got so far: one whose file changed is not.
    pub fn has_whole_job(&self, reach: Reach) -> bool {
        let whole = u64::try_from(reach.whole).unwrap_or(u64::MAX);
        let last = self.before.saturating_add(whole);
        let changed = self.changed.iter().filter(|change| change.job <= last);
        reach.whole > changed.count()
    }

    fn current(&mut self) -> Option<Result<Job, Failure>> {
        if let Some(job) = self.current.take() {
            return Some(Ok(job));
        }
        let input = self.waiting.pop_front()?;
        let opened = input.open();
        self.begun.push(Begun {
            start: self.sent,
            end: None,
            length: opened.as_ref().ok().and_then(|job| job.description.length),
        });
        Some(opened)
    }

    fn element_of(&mut self, mut job: Job) -> Result<Element<'static>, Failure> {
        interruption::check()?;
        let element = job.next(self.allow_empty)?;
        if let Some(change) = job.change.take() {
            let begun = u64::try_from(self.begun.len()).unwrap_or(u64::MAX);
            self.changed.push(Change {
                job: self.before.saturating_add(begun),
                how: format!("{}: {change}", job.shown.display()),
            });
        }
        self.sent += 1;
        if element != Element::Filemark {
            self.current = Some(job);
        } else if let Some(begun) = self.begun.last_mut() {
            begun.end = Some(self.sent);
        }
        Ok(element)
    }
}

impl Iterator for Elements {
    type Item = Result<Element<'static>, Failure>;

    fn next(&mut self) -> Option<Self::Item> {
        let job = self.current()?;
        Some(job.and_then(|job| self.element_of(job)))
    }
}

#[cfg(test)]
mod tests {
    use super::*;
    use std::io::Write;

    /// How a file of 100,000 bytes is told that something happens to after
    /// its first block was sent.
    fn told(name: &str, happens: impl FnOnce(&mut File)) -> Vec<String> {
        told_behind(0, name, happens)
    }

    /// The same behind so many jobs.
    fn told_behind(jobs: u64, name: &str, happens: impl FnOnce(&mut File)) -> Vec<String> {
        let path = format!("adr-source-{name}-{}", std::process::id());
        let path = std::env::temp_dir().join(path);
        std::fs::write(&path, vec![7; 100_000]).expect("room for a file");
        let mut file = File::options().append(true).open(&path).expect("it");
        let inputs = vec![Input::file(&path, Path::new("none.adr")).expect("a file")];
        let mut elements = Elements::new(inputs, false).behind(jobs);
        assert!(elements.next().is_some_and(|element| element.is_ok()));
        assert!(elements.next().is_some_and(|element| element.is_ok()));
        happens(&mut file);
        assert!(elements.by_ref().all(|element| element.is_ok()));
        std::fs::remove_file(&path).expect("it");
        let shown = format!("{}: ", path.display());
        let told = elements.changed().iter();
        told.map(|change| change.to_string().replace(&shown, ""))
            .collect()
    }

    #[test]
    fn files_that_change() {
        assert_eq!(told("same", |_| {}), [""; 0]);
        assert_eq!(
            told("shrinks", |file| file.set_len(50_000).expect("room")),
            ["shrank from 100,000 to 50,000 bytes while it was recorded, as job 1"]
        );
        assert_eq!(
            told("grows", |file| file.write_all(b"more").expect("room")),
            ["grew from 100,000 to 100,004 bytes while it was recorded, as job 1"]
        );
        assert_eq!(
            told("touched", |file| file.set_modified(UNIX_EPOCH).expect("it")),
            ["changed while it was recorded, as job 1"]
        );
        assert_eq!(
            told_behind(2, "third", |file| file
                .set_modified(UNIX_EPOCH)
                .expect("it")),
            ["changed while it was recorded, as job 3"]
        );
    }

    /// Two jobs of four elements and one, as more and more of them are on tape.
    #[test]
    fn reaches() {
        let input = |length: usize| {
            let description = Description {
                name: b"file".to_vec(),
                time: Timestamp::of_seconds(0),
                length: u64::try_from(length).ok(),
                mode: None,
            };
            Input::bytes(description, io::Cursor::new(vec![7; length]))
        };
        let inputs = vec![input(5), input(40_000), input(1)];
        let mut elements = Elements::new(inputs, false);
        assert_eq!(elements.by_ref().take(8).count(), 8);
        let cut = |blocks, length| Some(Cut::behind(blocks, Some(length)));
        for (on_tape, whole, cut) in [
            (0, 0, None),
            (1, 0, cut(0, 5)),
            (3, 0, cut(1, 5)),
            (4, 1, None),
            (5, 1, cut(0, 40_000)),
            (7, 1, cut(2, 40_000)),
            (8, 1, cut(2, 40_000)),
        ] {
            assert_eq!(elements.reach(on_tape), Reach { whole, cut }, "{on_tape}");
        }
        assert_eq!(elements.by_ref().count(), 5);
        let reach = elements.reach(13);
        assert_eq!((reach.whole, reach.cut), (3, None));
    }

    #[test]
    fn descriptors() {
        for path in ["/dev/stdin", "/dev/fd/0", "/proc/self/fd/0"] {
            assert!(is_descriptor(Path::new(path)), "{path}");
        }
        let directory = std::env::temp_dir();
        for (name, target) in [("in", "/dev/stdin"), ("on", "on")] {
            let link = directory.join(format!("adr-source-{name}-{}", std::process::id()));
            let target = match target {
                "on" => link.clone(),
                target => PathBuf::from(target),
            };
            std::os::unix::fs::symlink(&target, &link).expect("room for a link");
            assert_eq!(is_descriptor(&link), name == "in");
            std::fs::remove_file(&link).expect("it");
        }
        for path in [
            "file",
            "/dev/null",
            "/dev",
            "/",
            "",
            "/proc/self/status",
            "none/fd/0",
        ] {
            assert!(!is_descriptor(Path::new(path)), "{path}");
        }
    }

    #[test]
    fn streams_with_nothing_to_read() {
        let elements = |allow_empty| {
            let description = Description {
                name: b"stream".to_vec(),
                time: Timestamp::of_seconds(0),
                length: None,
                mode: None,
            };
            let inputs = vec![Input::bytes(description, io::empty())];
            let elements = Elements::new(inputs, allow_empty);
            elements.take(9).map(|element| element.is_ok()).collect()
        };
        let sent: Vec<bool> = elements(true);
        assert_eq!(sent, [true, true, true]);
        let sent: Vec<bool> = elements(false);
        assert_eq!(sent, [true, false]);
    }
}
