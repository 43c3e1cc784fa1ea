//! `adr restore`: jobs from a cartridge back to files.

mod wanted;

use std::collections::BTreeMap;
use std::ffi::OsStr;
use std::io::{ErrorKind, IsTerminal};
use std::ops::ControlFlow;
use std::os::unix::ffi::OsStrExt;
use std::path::{Path, PathBuf};

use crate::arguments::{Arguments, Options};
use crate::cartridge::Cartridge;
use crate::failure::Failure;
use crate::image::{refuse_itself, Access};
use crate::interruption;
use crate::job::reading::{Event, Verdict};
use crate::job::{is_plain_name, not_whole, torn, Closing, Description, NO_FILEMARK};
use crate::output;
use crate::progress::Progress;
use crate::record::DEPTH;
use crate::text::{count, printable};
use crate::writer::{is_device, NewFile, Writer};
use wanted::Wanted;

/// The options of `restore`.
pub const OPTIONS: Options = Options {
    valued: &["--faults", "--into", "--output", "-o"],
    plain: &["--overwrite", "--quiet"],
};

/// Where restored jobs go.
enum Target {
    /// Standard output.
    Output,
    /// One file.
    File(PathBuf),
    /// A directory, under the jobs' own names.
    Directory(PathBuf),
}

/// Runs the command.
pub fn run(arguments: &Arguments) -> Result<(), Failure> {
    let (path, words) = arguments.image()?;
    let wanted = Wanted::parse(words)?;
    let target = target(arguments, &wanted)?;
    target.require()?;
    if target.is_new_file() {
        interruption::watch();
    }
    let seed = arguments.number("--faults")?;
    let mut cartridge = Cartridge::load(path, Access::Read, DEPTH, seed)?;
    let quiet = arguments.has("--quiet") || target.is_terminal();
    let mut progress = Progress::new("reading", quiet);
    let mut restoring = Restoring {
        image: path,
        wanted,
        target,
        overwrite: arguments.has("--overwrite"),
        current: None,
        written: BTreeMap::new(),
        passed_over: 0,
        torn: 0,
    };
    let mut taker = |number: u64, event: Event<'_>| restoring.take(number, &event);
    let jobs = cartridge.read_jobs(&mut taker, &mut progress)?;
    drop(progress);
    let finished = restoring.finish(jobs.number);
    let Some(session) = jobs.cut else {
        return finished;
    };
    session.tell(path);
    finished.and(Err(Failure::new(format!(
        "{}: the jobs asked for are restored as far as they are whole; \
         the last session was not closed, and whether it was to hold more is not known",
        path.display()
    ))))
}

fn target(arguments: &Arguments, wanted: &Wanted) -> Result<Target, Failure> {
    let output = match (arguments.value("--output"), arguments.value("-o")) {
        (Some(_), Some(_)) => return Err(Failure::usage("give --output or -o, not both")),
        (long, short) => long.or(short),
    };
    match (arguments.value("--into"), output) {
        (Some(_), Some(_)) => Err(Failure::usage("give --into or --output, not both")),
        (Some(directory), None) => Ok(Target::Directory(PathBuf::from(directory))),
        (None, _) if wanted.is_all() => Err(Failure::usage(
            "name jobs, or '--into DIRECTORY' for all of them",
        )),
        (None, Some(file)) if file == "-" => Ok(Target::Output),
        (None, Some(_)) if !wanted.is_one() => Err(Failure::usage(
            "--output takes one job: use '--into DIRECTORY' for several",
        )),
        (None, Some(file)) => Ok(Target::File(PathBuf::from(file))),
        (None, None) if std::io::stdout().is_terminal() => Err(Failure::usage(
            "a job's bytes are not for a terminal: redirect them, or use '--into' or '--output'",
        )),
        (None, None) => Ok(Target::Output),
    }
}

impl Target {
    /// Refuses what nothing can be written to.
    fn require(&self) -> Result<(), Failure> {
        match self {
            Target::Output => output::require_open(),
            Target::File(_) => Ok(()),
            Target::Directory(directory) => require_directory(directory),
        }
    }

    /// Whether the bytes of jobs go where progress would be shown.
    fn is_terminal(&self) -> bool {
        matches!(self, Target::Output) && std::io::stdout().is_terminal()
    }

    /// Whether jobs go to files that are removed if this ends before they are
    /// whole.
    fn is_new_file(&self) -> bool {
        match self {
            Target::Output => false,
            Target::File(path) => !is_device(path),
            Target::Directory(_) => true,
        }
    }

    fn is_directory(&self) -> bool {
        matches!(self, Target::Directory(_))
    }
}

/// Refuses a directory that is not there.
pub fn require_directory(directory: &Path) -> Result<(), Failure> {
    let shown = directory.display();
    match directory.metadata() {
        Ok(metadata) if metadata.is_dir() => Ok(()),
        Ok(_) => Err(Failure::new(format!("{shown}: not a directory"))),
        Err(error) if error.kind() == ErrorKind::NotFound => Err(Failure::new(format!(
            "{shown}: no such directory; make it with 'mkdir {shown}'"
        ))),
        Err(error) => Err(Failure::of_file(directory, &error)),
    }
}

/// Jobs on their way to files.
struct Restoring<'a> {
    image: &'a Path,
    wanted: Wanted,
    target: Target,
    overwrite: bool,
    /// The job that is being written, if the present one is.
    current: Option<Current>,
    /// The names restored, and by which jobs.
    written: BTreeMap<Vec<u8>, u64>,
    /// How many jobs were not restored, beside others that were.
    passed_over: u64,
    /// How many jobs were restored whose files changed as they were recorded.
    torn: u64,
}

struct Current {
    description: Description,
    writer: Writer,
}

impl Restoring<'_> {
    fn take(&mut self, number: u64, event: &Event<'_>) -> Result<ControlFlow<()>, Failure> {
        interruption::check()?;
        match event {
            Event::Begin(description) => self.begin(number, description)?,
            Event::Data(data) => {
                if let Some(current) = &mut self.current {
                    current.writer.write(data)?;
                }
            }
            Event::End(verdict) => {
                self.end(number, verdict)?;
                if self.wanted.ends(number) {
                    return Ok(ControlFlow::Break(()));
                }
            }
        }
        Ok(ControlFlow::Continue(()))
    }

    fn begin(&mut self, number: u64, description: &Description) -> Result<(), Failure> {
        self.current = None;
        let name = &description.name;
        if !self.wanted.begins(number, name) {
            return Ok(());
        }
        let by_name = !self.wanted.is_all() && !self.wanted.has_number(number);
        // A name stands for its first job, and a directory has it once.
        let once = self.target.is_directory() || by_name;
        if let Some(first) = self.written.get(name).filter(|_| once) {
            let again = format!(
                "{}: job {number}, '{}': job {first} has that name too: \
                 restore it by number with '--output FILE'",
                self.image.display(),
                printable(name)
            );
            if by_name {
                output::message(again);
                return Ok(());
            }
            return self.pass_over(Failure::new(again));
        }
        match self.open(description) {
            Ok(writer) => {
                let description = description.clone();
                self.current = Some(Current {
                    description,
                    writer,
                });
                Ok(())
            }
            Err(failure) => self.pass_over(failure),
        }
    }

    fn open(&self, description: &Description) -> Result<Writer, Failure> {
        let path = match &self.target {
            Target::Output => return Ok(Writer::Output),
            Target::File(path) if is_device(path) => return Writer::device(path),
            Target::File(path) => path.clone(),
            Target::Directory(directory) => directory.join(own_name(&description.name)?),
        };
        refuse_itself(self.image, &path)?;
        NewFile::open(&path, self.overwrite, description).map(Writer::File)
    }

    fn end(&mut self, number: u64, verdict: &Verdict) -> Result<(), Failure> {
        let current = self.current.take();
        match verdict {
            Verdict::Whole(closing) => match current {
                Some(current) => self.keep(number, current, closing),
                None => Ok(()),
            },
            Verdict::Broken(why) if current.is_some() => self.broken(not_whole(number, why)),
            Verdict::Cut(cut) if current.is_some() => self.broken(not_whole(number, cut)),
            Verdict::Unclosed if current.is_some() => {
                let why = format!("{NO_FILEMARK}, and 'adr salvage' restores it");
                self.broken(not_whole(number, why))
            }
            Verdict::Foreign if self.wanted.is_all() || self.wanted.has_number(number) => {
                let foreign = format!("job {number} was not recorded by this tool");
                self.pass_over(self.failure(foreign))
            }
            Verdict::Broken(_) | Verdict::Cut(_) | Verdict::Unclosed | Verdict::Foreign => Ok(()),
        }
    }

    /// Ends a job that is not whole.
    fn broken(&mut self, why: String) -> Result<(), Failure> {
        let broken = self.failure(why);
        // Bytes that went elsewhere cannot be taken back, and others behind them
        // would not stand where they are looked for.
        if self.target.is_directory() {
            self.pass_over(broken)
        } else {
            Err(broken)
        }
    }

    /// Ends a job that was whole. The bytes of a torn one are kept all the
    /// same: they are what was recorded.
    fn keep(&mut self, number: u64, current: Current, closing: &Closing) -> Result<(), Failure> {
        let Current {
            description,
            writer,
        } = current;
        match writer.finish() {
            Ok(()) => {
                if let Some(tear) = description.tear(closing) {
                    let shown = self.image.display();
                    output::message(format!("{shown}: {}", torn(number, &tear)));
                    self.torn += 1;
                }
                self.written.insert(description.name, number);
                Ok(())
            }
            Err(failure) if self.target.is_directory() => self.pass_over(failure),
            Err(failure) => Err(failure),
        }
    }

    fn failure(&self, why: String) -> Failure {
        Failure::new(format!("{}: {why}", self.image.display()))
    }

    /// Tells why a job is not restored and goes on to others, if there may be
    /// others.
    fn pass_over(&mut self, failure: Failure) -> Result<(), Failure> {
        match failure {
            Failure::Failed(message) if !self.wanted.is_one() => {
                output::message(message);
                self.passed_over += 1;
                Ok(())
            }
            failure => Err(failure),
        }
    }

    /// Tells which jobs the cartridge, with so many, does not hold; it failed
    /// if any was not restored, or is torn.
    fn finish(mut self, jobs: u64) -> Result<(), Failure> {
        for missing in self.wanted.missing(jobs) {
            self.pass_over(self.failure(missing))?;
        }
        let jobs = count(self.passed_over, "job was", "jobs were");
        match (self.passed_over, self.torn) {
            (0, 0) => Ok(()),
            (0, _) => Err(self.failure(String::from(
                "what was recorded is restored, but not every file as it was",
            ))),
            _ => Err(self.failure(format!("{jobs} not restored"))),
        }
    }
}

/// A job's name as a file's name in the target directory, and nowhere else.
fn own_name(name: &[u8]) -> Result<&OsStr, Failure> {
    if !is_plain_name(name) {
        return Err(Failure::new(format!(
            "the job's name '{}' would lead out of the directory; \
             restore it by its number and '--output FILE'",
            printable(name)
        )));
    }
    Ok(OsStr::from_bytes(name))
}

#[cfg(test)]
mod tests {
    use super::*;

    #[test]
    fn names_stay_in_the_directory() {
        for name in [
            &b""[..],
            b".",
            b"..",
            b"/etc/passwd",
            b"../x",
            b"a/b",
            b"a/../../b",
            b"a\0b",
        ] {
            assert!(own_name(name).is_err());
        }
        for name in [&b"parts.tar"[..], b"..x", b"...", b"\xFF", b" "] {
            assert_eq!(own_name(name).ok(), Some(OsStr::from_bytes(name)));
        }
    }
}
