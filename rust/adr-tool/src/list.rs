//! `adr list`: the jobs on a cartridge.

use std::fmt::Display;
use std::ops::ControlFlow;
use std::path::Path;

use crate::arguments::{Arguments, Options};
use crate::cartridge::{Cartridge, ReadJobs};
use crate::cut_session::IF_CUT;
use crate::digest::hexadecimal;
use crate::failure::Failure;
use crate::image::Access;
use crate::job::reading::{Event, Verdict};
use crate::job::{Description, NO_FILEMARK};
use crate::output;
use crate::progress::Progress;
use crate::record::{DEPTH, TAIL};
use crate::text::{date, grouped, printable};

/// The options of `list`.
pub const OPTIONS: Options = Options {
    valued: &["--faults"],
    plain: &["--checksums", "--quiet"],
};

/// Runs the command.
pub fn run(arguments: &Arguments) -> Result<(), Failure> {
    let path = arguments.only_image()?;
    let seed = arguments.number("--faults")?;
    // Told before the tape is read to the first job's end.
    output::require_open()?;
    let mut cartridge = Cartridge::load(path, Access::Read, DEPTH, seed)?;
    let mut progress = Progress::new("reading", arguments.has("--quiet"));
    let checksums = arguments.has("--checksums");
    let mut broken = 0u64;
    let mut description: Option<Description> = None;
    let mut taker = |number: u64, event: Event<'_>| {
        match event {
            Event::Begin(begun) => description = Some(begun.clone()),
            Event::Data(_) => {}
            Event::End(verdict) => {
                broken += u64::from(!matches!(verdict, Verdict::Whole(_) | Verdict::Foreign));
                let description = description.take();
                output::line(job_line(number, description.as_ref(), verdict, checksums))?;
            }
        }
        Ok(ControlFlow::Continue(()))
    };
    let jobs = cartridge.read_jobs(&mut taker, &mut progress)?;
    drop(progress);
    if !arguments.has("--quiet") {
        // Beside the rows, which other programs read.
        output::message(format!("{}: {}", path.display(), cartridge.room(TAIL)?));
    }
    tell_end(path, &jobs, broken)
}

/// Tells what is not as it should be at the end of the jobs; it failed if one of
/// them, or the session that they end with, is not whole.
fn tell_end(path: &Path, jobs: &ReadJobs, broken: u64) -> Result<(), Failure> {
    let shown = path.display();
    if let Some(was_full) = jobs.was_full() {
        output::message(format!("{shown}: {was_full}"));
    }
    if let Some(session) = jobs.cut {
        session.tell(path);
        return Err(Failure::new(format!("{shown}: {IF_CUT}")));
    }
    if broken > 0 {
        return Err(Failure::new(format!(
            "{shown}: not every job is whole: see 'adr check'"
        )));
    }
    Ok(())
}

fn job_line(
    number: u64,
    description: Option<&Description>,
    verdict: &Verdict,
    checksums: bool,
) -> String {
    let Some(description) = description else {
        return format!("{number:>4}  (not recorded by this tool)");
    };
    let name = printable(&description.name);
    let time = date(description.time.seconds);
    match verdict {
        Verdict::Whole(closing) => {
            let length = grouped(closing.length);
            let digest = checksums.then(|| hexadecimal(&closing.digest) + "  ");
            let digest = digest.unwrap_or_default();
            let tear = description.tear(closing).map(|tear| format!(" ({tear})"));
            let tear = tear.unwrap_or_default();
            format!("{number:>4}  {length:>15}  {time}  {digest}{name}{tear}")
        }
        Verdict::Broken(why) => incomplete(number, &time, &name, why),
        Verdict::Cut(cut) => incomplete(number, &time, &name, cut),
        Verdict::Unclosed => incomplete(number, &time, &name, NO_FILEMARK),
        Verdict::Foreign => format!("{number:>4}  (not recorded by this tool)"),
    }
}

/// The row of a job that is not whole.
fn incomplete(number: u64, time: &str, name: &str, why: impl Display) -> String {
    format!("{number:>4}  {:>15}  {time}  {name} ({why})", "?")
}
