//! `adr check`: reads everything and verifies it.

use std::ops::ControlFlow;
use std::path::Path;

use crate::arguments::{Arguments, Options};
use crate::cartridge::Cartridge;
use crate::cut_session::{CutSession, IF_CUT};
use crate::failure::Failure;
use crate::frame_checksums;
use crate::image::Access;
use crate::job::reading::{Event, Verdict};
use crate::job::{not_whole, torn, Description, NO_FILEMARK};
use crate::output;
use crate::progress::Progress;
use crate::record::DEPTH;
use crate::text::{amount, count};

/// The options of `check`.
pub const OPTIONS: Options = Options {
    valued: &["--faults"],
    plain: &["--quiet"],
};

/// What was found.
#[derive(Default)]
struct Findings {
    jobs: u64,
    foreign: u64,
    bytes: u64,
    was_full: Option<String>,
    cut: Option<CutSession>,
    wrong: Vec<String>,
}

impl Findings {
    /// How much is wrong, and what is done next where a session was not closed.
    fn failure(&self, path: &Path) -> Failure {
        let wrong = u64::try_from(self.wrong.len()).unwrap_or(u64::MAX);
        let wrong = count(wrong, "thing is", "things are");
        let failure = Failure::new(format!("{}: {wrong} wrong", path.display()));
        match self.cut {
            None => failure,
            Some(_) => failure.with(IF_CUT),
        }
    }
}

/// Runs the command.
pub fn run(arguments: &Arguments) -> Result<(), Failure> {
    let path = arguments.only_image()?;
    let seed = arguments.number("--faults")?;
    let quiet = arguments.has("--quiet");
    // Told before the whole tape is read.
    output::require_open()?;
    let mut cartridge = Cartridge::load(path, Access::Read, DEPTH, seed)?;
    let mut findings = Findings::default();
    if !cartridge.image().has_both_roots() {
        findings.wrong.push(String::from(
            "one of the image's two roots is damaged, perhaps by a power cut; \
             the next recording writes it anew",
        ));
    }
    read_jobs(&mut cartridge, &mut findings, quiet)?;
    let frames = read_frames(&mut cartridge, &mut findings, quiet)?;

    let shown = path.display();
    if let Some(was_full) = &findings.was_full {
        output::message(format!("{shown}: {was_full}"));
    }
    for wrong in &findings.wrong {
        output::message(format!("{shown}: {wrong}"));
    }
    if !findings.wrong.is_empty() {
        return Err(findings.failure(path));
    }
    let mut told = format!(
        "{shown}: {}, {}, {} on tape: every checksum holds",
        count(findings.jobs, "job", "jobs"),
        amount(findings.bytes),
        count(frames, "frame", "frames"),
    );
    if findings.foreign > 0 {
        let foreign = count(findings.foreign, "job has", "jobs have");
        told.push_str(&format!(" ({foreign} none, not being of this tool)"));
    }
    output::line(told)
}

fn read_jobs(
    cartridge: &mut Cartridge,
    findings: &mut Findings,
    quiet: bool,
) -> Result<(), Failure> {
    let mut progress = Progress::new("reading", quiet);
    let mut broken = Vec::new();
    let (mut foreign, mut bytes) = (0, 0);
    let mut description: Option<Description> = None;
    let mut taker = |number: u64, event: Event<'_>| {
        match event {
            Event::End(Verdict::Whole(closing)) => {
                bytes += closing.length;
                let tear = description.take().and_then(|begun| begun.tear(closing));
                broken.extend(tear.map(|tear| torn(number, &tear)));
            }
            Event::End(Verdict::Broken(why)) => broken.push(not_whole(number, why)),
            Event::End(Verdict::Cut(cut)) => broken.push(not_whole(number, cut)),
            Event::End(Verdict::Unclosed) => broken.push(not_whole(number, NO_FILEMARK)),
            Event::End(Verdict::Foreign) => foreign += 1,
            Event::Begin(begun) => description = Some(begun.clone()),
            Event::Data(_) => {}
        }
        Ok(ControlFlow::Continue(()))
    };
    let read = cartridge.read_jobs(&mut taker, &mut progress);
    findings.wrong.append(&mut broken);
    findings.foreign = foreign;
    findings.bytes = bytes;
    match read {
        Ok(jobs) => {
            findings.jobs = jobs.number;
            findings.was_full = jobs.was_full();
            findings.cut = jobs.cut;
            let told = jobs.cut.map(|session| session.told().join("; "));
            findings.wrong.extend(told);
        }
        // The rest can be looked at all the same.
        Err(Failure::Failed(message)) => {
            let path = cartridge.image().path().display().to_string();
            let message = message.strip_prefix(&format!("{path}: "));
            let message = message.unwrap_or("reading stopped");
            findings.wrong.push(message.to_string());
        }
        Err(failure) => return Err(failure),
    }
    Ok(())
}

/// Tests every frame.
fn read_frames(
    cartridge: &mut Cartridge,
    findings: &mut Findings,
    quiet: bool,
) -> Result<u64, Failure> {
    let image = cartridge.image_mut();
    let all = frame_checksums::test_all(image, quiet)?;
    let damaged = image
        .damaged()
        .map(|address| format!("the frame at address {address} is damaged"));
    findings.wrong.extend(damaged);
    Ok(all)
}
