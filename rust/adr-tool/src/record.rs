//! `adr record`: files to a cartridge.

mod frames;
mod full;
mod power_cut;

use std::collections::BTreeMap;
use std::ffi::{OsStr, OsString};
use std::io::IsTerminal;
use std::path::Path;

use adr_tape::{Setup, Summary};

use crate::arguments::{Arguments, Options};
use crate::cartridge::{require_sizes, Cartridge, Recorded};
use crate::earlier_jobs::EarlierJobs;
use crate::failure::Failure;
use crate::image::Access;
use crate::interruption;
use crate::job::source::{Change, Elements, Input};
use crate::output;
use crate::progress::Progress;
use crate::room::{frames_of_job, Room};
use crate::size::bytes_in;
use crate::text::{amount, count, grouped, printable};
use full::FullTape;

/// The options of `record`.
pub const OPTIONS: Options = Options {
    valued: &[
        "--name",
        "--faults",
        "--cut-after",
        "--depth",
        "--window",
        "--tail",
    ],
    plain: &["--allow-empty", "--append", "--overwrite", "--quiet"],
};

/// Frames that the simulated drive buffers.
pub const DEPTH: u32 = 32;
/// Blocks that may wait for the drive.
pub const WINDOW: u32 = 64;
/// Frames that are kept for the end of data.
pub const TAIL: u32 = 8;
/// The most that can be.
const LONGEST_TAIL: u32 = 255;

/// What helps where files changed while they were read.
const IF_CHANGED: &str = "record again when nothing writes to the files";

/// Runs the command.
pub fn run(arguments: &Arguments) -> Result<(), Failure> {
    let command = Command::parse(arguments)?;
    let seed = arguments.number("--faults")?;
    let inputs = inputs(command.path, command.files, arguments.value("--name"))?;
    let mut cartridge = Cartridge::load(command.path, Access::Record, command.setup.depth, seed)?;
    cartridge.cut_after(command.cut_after);
    interruption::watch();
    let earlier_jobs = command.look(&mut cartridge, &inputs)?;
    tell_names_that_come_again(&inputs, &earlier_jobs);
    command.record(&mut cartridge, inputs, &earlier_jobs)
}

/// What is to be done.
struct Command<'a> {
    arguments: &'a Arguments,
    path: &'a Path,
    files: &'a [OsString],
    setup: Setup,
    /// The frames behind which the mains go, if they do.
    cut_after: Option<u64>,
    quiet: bool,
}

impl Command<'_> {
    fn parse(arguments: &Arguments) -> Result<Command<'_>, Failure> {
        let (path, files) = arguments.image()?;
        if arguments.has("--append") && arguments.has("--overwrite") {
            return Err(Failure::usage("give --append or --overwrite, not both"));
        }
        Ok(Command {
            arguments,
            path,
            files,
            setup: setup(arguments)?,
            cut_after: arguments.number("--cut-after")?,
            quiet: arguments.has("--quiet"),
        })
    }

    /// Refuses what cannot be recorded here; the jobs that others are added to.
    fn look(&self, cartridge: &mut Cartridge, inputs: &[Input]) -> Result<EarlierJobs, Failure> {
        let tail = self.setup.tail;
        if self.arguments.has("--append") {
            require_sizes(cartridge.image().geometry(), self.setup)?;
            return read_earlier_jobs(cartridge, self.path, inputs, tail, self.quiet);
        }
        if !self.arguments.has("--overwrite") {
            refuse_content(cartridge, self.path)?;
        }
        require_place(cartridge, self.path, inputs, tail)?;
        Ok(EarlierJobs::default())
    }

    /// Records the inputs, puts them in force and tells what came of it.
    fn record(
        &self,
        cartridge: &mut Cartridge,
        inputs: Vec<Input>,
        earlier_jobs: &EarlierJobs,
    ) -> Result<(), Failure> {
        let jobs = u64::try_from(inputs.len()).unwrap_or(u64::MAX);
        let again: Vec<bool> = inputs.iter().map(Input::can_be_read_again).collect();
        let total = known_length(&inputs);
        let replaces = earlier_jobs.end().is_none() && cartridge.holds_frames();
        let elements = Elements::new(inputs, self.arguments.has("--allow-empty"));
        let mut elements = elements.behind(earlier_jobs.jobs());
        let mut progress = Progress::new("recording", self.quiet);
        let update = |summary: &Summary| {
            let bytes = bytes_in(summary.blocks);
            progress.update(bytes, bytes, total);
        };
        let recorded = match earlier_jobs.end() {
            None => cartridge.record(self.setup, &mut elements, update),
            Some(end) => cartridge.append(end, self.setup, &mut elements, update),
        }?;
        if let Some(lost) = recorded.frames.lost {
            // A trial of what a tape holds then, asked for as such.
            cartridge.put_in_force()?;
            return Err(power_cut::failure(self.path, recorded.frames.on_tape, lost));
        }
        let reach = recorded.full.map(|on_tape| elements.reach(on_tape));
        // What a cartridge holds is not given for a part of a job.
        let in_force = !replaces || reach.is_none_or(|reach| elements.has_whole_job(reach));
        if in_force {
            cartridge.put_in_force()?;
        }
        drop(progress);
        if let Some(cut_after) = self.cut_after {
            power_cut::tell_done(self.path, recorded.frames.on_tape, cut_after);
        }
        let Some(reach) = reach else {
            return self.tell_whole(cartridge, &recorded, jobs, elements.changed());
        };
        let full = FullTape {
            path: self.path,
            geometry: cartridge.image().geometry(),
            arguments: self.arguments,
            files: self.files,
            again: &again,
            before: earlier_jobs.jobs(),
            reach,
            in_force,
            changed: elements.changed(),
        };
        Err(self.tell_full(cartridge, &full, &recorded.summary))
    }

    /// Tells what came of a recording that is whole; it failed if files changed.
    fn tell_whole(
        &self,
        cartridge: &mut Cartridge,
        recorded: &Recorded,
        jobs: u64,
        changed: &[Change],
    ) -> Result<(), Failure> {
        if !self.quiet && std::io::stderr().is_terminal() {
            output::message(told(jobs, &recorded.summary));
        }
        self.tell_room(cartridge)?;
        self.tell_frames(&recorded.summary);
        tell_changed(self.path, changed)
    }

    /// Tells what is on a full tape, and then its room and its frames; it failed.
    fn tell_full(
        &self,
        cartridge: &mut Cartridge,
        full: &FullTape<'_>,
        summary: &Summary,
    ) -> Failure {
        let failure = full.tell();
        if full.in_force {
            if let Err(Failure::Failed(message)) = self.tell_room(cartridge) {
                output::message(message);
            }
        }
        self.tell_frames(summary);
        failure
    }

    /// Tells the frames that were sent, and the most that could have been.
    fn tell_frames(&self, summary: &Summary) {
        if !self.quiet {
            for told in frames::told(summary, self.setup) {
                output::message(format!("{}: {told}", self.path.display()));
            }
        }
    }

    fn tell_room(&self, cartridge: &mut Cartridge) -> Result<(), Failure> {
        if !self.quiet {
            let room = cartridge.room(self.setup.tail)?;
            output::message(format!("{}: {room}", self.path.display()));
        }
        Ok(())
    }
}

/// The sizes that are asked for.
pub fn setup(arguments: &Arguments) -> Result<Setup, Failure> {
    Ok(Setup {
        depth: arguments.number("--depth")?.unwrap_or(DEPTH),
        blocks: arguments.number("--window")?.unwrap_or(WINDOW),
        tail: tail(arguments)?,
    })
}

/// The frames that are kept for the end of data.
fn tail(arguments: &Arguments) -> Result<u32, Failure> {
    let tail = arguments.number("--tail")?.unwrap_or(TAIL);
    if tail > LONGEST_TAIL {
        return Err(Failure::usage(format!(
            "--tail: give 0 to {LONGEST_TAIL} frames for the end of data"
        )));
    }
    Ok(tail)
}

/// Refuses files that there is no room for from the beginning on.
fn require_place(
    cartridge: &Cartridge,
    path: &Path,
    inputs: &[Input],
    tail: u32,
) -> Result<(), Failure> {
    let room = |tail| Room::new(cartridge.image().geometry(), None, tail).map_err(Failure::new);
    refuse_too_much(&room(tail)?, &room(0)?, path, inputs, true)
}

/// Reads what the cartridge holds, if there is room behind it.
fn read_earlier_jobs(
    cartridge: &mut Cartridge,
    path: &Path,
    inputs: &[Input],
    tail: u32,
    quiet: bool,
) -> Result<EarlierJobs, Failure> {
    let header = cartridge.header_for_appending()?;
    let (room, all) = (cartridge.room(tail)?, cartridge.room(0)?);
    // Whether the last job is closed is known only when all was read.
    refuse_too_much(&room, &all, path, inputs, true)?;
    let earlier_jobs = EarlierJobs::read(cartridge, &header, quiet)?;
    if let Some(end) = earlier_jobs.end().filter(|end| !end.is_closed()) {
        refuse_too_much(&room, &all, path, inputs, false)?;
        let (shown, job) = (path.display(), end.jobs);
        output::message(format!(
            "{shown}: job {job} has no filemark at its end: one is recorded before the new jobs"
        ));
    }
    Ok(earlier_jobs)
}

/// The bytes of all inputs together, if they are known.
fn known_length(inputs: &[Input]) -> Option<u64> {
    inputs.iter().try_fold(0u64, |sum, input| {
        Some(sum.saturating_add(input.description().length?))
    })
}

/// Refuses files of known length that the cartridge has no room for, of all that
/// it has without a tail. A last job there that is not closed takes a filemark
/// besides.
fn refuse_too_much(
    room: &Room,
    all: &Room,
    path: &Path,
    inputs: &[Input],
    closed: bool,
) -> Result<(), Failure> {
    let free = room.free();
    let what = if room.is_empty() { "" } else { " free" };
    let filemark = if closed {
        ""
    } else {
        " and a filemark for the last job"
    };
    let mut needed = u64::from(!closed);
    let mut full = None;
    for input in inputs {
        let length = input.description().length.unwrap_or(0);
        needed = needed.saturating_add(frames_of_job(length));
        if needed > free {
            full.get_or_insert(input.shown().display());
        }
    }
    let shorter = if needed > all.free() {
        ""
    } else {
        "; a shorter '--tail' leaves room for them"
    };
    match full {
        None => Ok(()),
        Some(file) => Err(Failure::new(format!(
            "{}: the files{filemark} take {} frames, and the cartridge has at most {}{what} ({}): \
             it would be full in '{file}'; nothing was changed: \
             record fewer or smaller files, or use a larger cartridge{shorter}",
            path.display(),
            grouped(needed),
            grouped(free),
            amount(bytes_in(free)),
        ))),
    }
}

/// Tells jobs that have the name of an earlier one: they are recorded, but
/// two files of one name cannot be restored to one directory.
fn tell_names_that_come_again(inputs: &[Input], earlier_jobs: &EarlierJobs) {
    let mut first: BTreeMap<&[u8], u64> = BTreeMap::new();
    for (number, input) in (earlier_jobs.jobs().saturating_add(1)..).zip(inputs) {
        let name = input.description().name.as_slice();
        let there = earlier_jobs.first_named(name).unwrap_or(number);
        let earlier = *first.entry(name).or_insert(there);
        if earlier != number {
            output::message(format!(
                "job {number}, '{}': job {earlier} has that name too, \
                 and 'restore --into' will pass over job {number}",
                printable(name)
            ));
        }
    }
}

/// Tells files that changed while they were recorded; it failed if any did.
fn tell_changed(path: &Path, changed: &[Change]) -> Result<(), Failure> {
    changed.iter().for_each(output::message);
    if changed.is_empty() {
        return Ok(());
    }
    Err(Failure::new(format!(
        "{}: recorded and in force, but {} while being read; the other jobs are whole: \
         {IF_CHANGED}",
        path.display(),
        files_changed(changed),
    )))
}

/// How many files changed.
fn files_changed(changed: &[Change]) -> String {
    let number = u64::try_from(changed.len()).unwrap_or(u64::MAX);
    count(number, "file changed", "files changed")
}

/// A recording starts at the first user frame: what stands there is lost.
fn refuse_content(cartridge: &Cartridge, path: &Path) -> Result<(), Failure> {
    if !cartridge.holds_frames() {
        return Ok(());
    }
    Err(Failure::new(format!(
        "{}: the cartridge holds a recording, and a new one replaces it; \
         nothing was changed: use '--overwrite' to replace it, or another cartridge; \
         '--append' records behind it",
        path.display()
    )))
}

/// What is to be recorded.
fn inputs(image: &Path, files: &[OsString], name: Option<&OsStr>) -> Result<Vec<Input>, Failure> {
    let streams = files.iter().filter(|file| *file == "-").count();
    if files.is_empty() {
        return Err(Failure::usage("name the files to record, or '-'"));
    }
    if streams > 1 {
        return Err(Failure::usage("standard input can be recorded once"));
    }
    if name.is_some() && streams == 0 {
        return Err(Failure::usage("--name is for standard input, '-'"));
    }
    if streams == 1 && std::io::stdin().is_terminal() {
        return Err(Failure::usage(
            "standard input is a terminal: pipe something into it",
        ));
    }
    let mut inputs = Vec::new();
    for file in files {
        if file == "-" {
            let name = name.unwrap_or(OsStr::new("stdin"));
            inputs.push(Input::standard_input(name)?);
        } else {
            inputs.push(Input::file(Path::new(file), image)?);
        }
    }
    Ok(inputs)
}

/// What came of a recording, in a sentence.
pub fn told(jobs: u64, summary: &Summary) -> String {
    format!(
        "recorded {} in {} ({}) with {}; {}, {}",
        count(jobs, "job", "jobs"),
        count(summary.blocks, "block", "blocks"),
        amount(bytes_in(summary.blocks)),
        count(summary.commands, "command", "commands"),
        count(summary.write_errors, "write error", "write errors"),
        count(summary.busy, "busy reply", "busy replies"),
    )
}
