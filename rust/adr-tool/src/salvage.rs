//! `adr salvage`: what can still be had of a damaged cartridge.
//!
//! A reading ends at the first element that is missing. Here every frame is
//! read by itself, and a job whose blocks are all there is restored whatever
//! is missing before it. Nothing of this passes through the layer: a job's
//! own checksum tells that it is what was recorded.

mod found;
mod job;
mod missing;
mod piece;
mod report;
mod restoring;

use std::path::Path;

use adr_model::frame::Kind;

use crate::arguments::{Arguments, Options};
use crate::failure::Failure;
use crate::image::Frames;
use crate::interruption;
use crate::output;
use crate::progress::Progress;
use crate::restore::require_directory;
use crate::size::bytes_in_frames;
use found::{Finds, Found, Recording};
use job::{Entry, Job, State};
use report::{shown, Report};
use restoring::{Outcome, Restoring};

/// The options of `salvage`.
pub const OPTIONS: Options = Options {
    valued: &["--into"],
    plain: &["--overwrite", "--quiet"],
};

/// Runs the command.
pub fn run(arguments: &Arguments) -> Result<(), Failure> {
    let path = arguments.only_image()?;
    let directory = arguments.value("--into").map(Path::new);
    let directory = directory
        .ok_or_else(|| Failure::usage("name a directory for the jobs: '--into DIRECTORY'"))?;
    require_directory(directory)?;
    output::require_open()?;
    let quiet = arguments.has("--quiet");
    let frames = Frames::open(path)?;
    if frames.has_index() && frames.count() == 0 {
        return output::line(format!("{}: holds no recording", path.display()));
    }
    let finds = look(&frames, quiet);
    let mut report = Report::default();
    let recording = choose(&finds, &frames, &mut report).ok_or_else(|| {
        let shown = path.display();
        Failure::new(format!("{shown}: no frame of a recording was found in it"))
    })?;
    let found = finds.of(&recording);
    interruption::watch();
    let restoring = Restoring::new(path, directory, arguments.has("--overwrite"), quiet);
    restore(&found, &frames, restoring, &mut report)?;
    report.tell(path)
}

/// Looks at every frame.
fn look(frames: &Frames, quiet: bool) -> Finds {
    let mut progress = Progress::new("looking", quiet);
    let mut finds = Finds::default();
    frames.each(|turn, frame| {
        if let Some((origin, frame)) = frame {
            finds.take(origin, frame, frames.last());
        }
        progress.update(bytes_in_frames(turn), turn, Some(frames.count()));
    });
    finds
}

/// The recording that is salvaged, none if nothing was found.
fn choose(finds: &Finds, frames: &Frames, report: &mut Report) -> Option<Recording> {
    if !frames.has_index() {
        report.note("its index cannot be read: every cell was looked at instead");
    }
    let by_header = finds.by_header(frames.has_index());
    let recording = by_header.or_else(|| finds.by_frames())?;
    let pass = recording.pass;
    if by_header.is_none() {
        report.missing(format!(
            "no header of a closed recording is left: write pass {pass} is the newest found"
        ));
    }
    if finds.has_later(&recording) {
        report.missing(format!(
            "frames of a later recording than write pass {pass} were found, \
             but no header that closes it: they were left out"
        ));
    }
    Some(recording)
}

/// Restores the jobs that are whole, and reports what is missing.
fn restore(
    found: &[Found],
    frames: &Frames,
    mut restoring: Restoring<'_>,
    report: &mut Report,
) -> Result<(), Failure> {
    let mut jobs = 0;
    for entry in job::entries(found, frames) {
        match entry {
            Entry::Job(job) => {
                restore_job(&job, frames, &mut restoring, report)?;
                jobs = job.number;
            }
            Entry::Gone {
                first,
                last,
                elements,
            } => {
                report.gone((first, last), elements);
                jobs = last;
            }
        }
    }
    if !found.iter().any(|found| found.kind == Kind::Eod) {
        report.missing(format!(
            "the end of data is missing: whether there were more jobs than {jobs} is not known"
        ));
    }
    Ok(())
}

fn restore_job(
    job: &Job<'_>,
    frames: &Frames,
    restoring: &mut Restoring<'_>,
    report: &mut Report,
) -> Result<(), Failure> {
    match &job.state {
        State::Foreign => report.not_restored(job, "it was not recorded by this tool"),
        State::Incomplete(missing) => report.not_restored(job, &missing.to_string()),
        State::Cut(cut) => report.not_restored(job, &cut.to_string()),
        State::Complete => match restoring.restore(job, frames) {
            Ok(Outcome::Restored(closing, name)) => report.restored(job, &closing, &name),
            Ok(Outcome::Broken(reason)) => report.not_restored(job, reason),
            // The other jobs may fare better.
            Err(Failure::Failed(message)) => report.not_restored(job, &message),
            Err(failure) => return Err(failure),
        },
    }
    if job.lacks_filemark {
        report.missing(format!(
            "{}: the filemark at its end is missing",
            shown(job)
        ));
    }
    Ok(())
}
