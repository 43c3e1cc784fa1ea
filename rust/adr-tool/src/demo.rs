//! `adr demo`: a recording on a faulty drive, read back and compared.

use std::io::Cursor;
use std::ops::ControlFlow;
use std::path::{Path, PathBuf};

use adr_model::random::Random;
use adr_tape::{Geometry, LoadPoint, Setup, Summary};

use crate::arguments::{Arguments, Options};
use crate::cartridge::Cartridge;
use crate::failure::Failure;
use crate::image::{self, Access};
use crate::job::reading::{Event, Verdict};
use crate::job::source::{Elements, Input};
use crate::job::Description;
use crate::map::{Destination, Map};
use crate::output;
use crate::progress::Progress;
use crate::record::told;
use crate::sheet;
use crate::text::grouped;
use crate::timestamp::Timestamp;

/// The options of `demo`.
pub const OPTIONS: Options = Options {
    valued: &["--faults", "--svg"],
    plain: &["--keep", "--overwrite"],
};

const SEED: u64 = 27;
const SETUP: Setup = Setup {
    depth: 8,
    blocks: 16,
    tail: 0,
};
const GEOMETRY: Geometry = Geometry {
    segtrk: 3_200,
    trks: 1,
    load: LoadPoint::Beginning,
};
/// 2001-02-03 04:05, so that every run is the same.
const TIME: Timestamp = Timestamp::of_seconds(981_173_100);

struct Made {
    name: &'static str,
    bytes: Vec<u8>,
}

/// Runs the command.
pub fn run(arguments: &Arguments) -> Result<(), Failure> {
    arguments.no_operands()?;
    let seed = arguments.number("--faults")?.unwrap_or(SEED);
    let destination = Destination::asked_for(arguments, None)?;
    let directory = Directory::make(arguments.has("--keep"))?;
    let path = directory.path.join("demo.adr");
    image::format(&path, GEOMETRY, false)?;
    output::line(format!(
        "A cartridge of {} frames, formatted.\n",
        grouped(u64::from(GEOMETRY.frames()))
    ))?;

    let earlier = [made("last-season.tar", 4_500_000, 1)];
    output::line("An earlier recording, on a drive without faults:")?;
    record(&path, &earlier, None)?;

    let files = [
        made("soprano.ps", 700_000, 2),
        made("full-score.pdf", 1_500_000, 3),
        made("orders.csv", 20_000, 4),
    ];
    output::line(format!(
        "\nA new recording over it, on a drive with faults (seed {seed}):"
    ))?;
    record(&path, &files, Some(seed))?;

    output::line("\nRead back on the same drive and compared:")?;
    compare(&path, &files, seed)?;

    output::line("\nThe sheet for its box:\n")?;
    let cartridge = Cartridge::load(&path, Access::Read, SETUP.depth, Some(seed))?;
    sheet::print(cartridge, Progress::new("reading", true))?;

    output::line("\nThe cartridge now:\n")?;
    let map = Map::of(&path, true)?;
    output::plain(&map.text())?;
    if let Some(destination) = destination {
        destination.write(&map.picture())?;
    }
    directory.tell()
}

fn made(name: &'static str, length: usize, seed: u64) -> Made {
    let mut random = Random::new(seed);
    let mut bytes: Vec<u8> = Vec::with_capacity(length + 8);
    while bytes.len() < length {
        bytes.extend(random.bits().to_be_bytes());
    }
    bytes.truncate(length);
    Made { name, bytes }
}

fn inputs(files: &[Made]) -> Vec<Input> {
    files
        .iter()
        .map(|file| {
            let description = Description {
                name: file.name.as_bytes().to_vec(),
                time: TIME,
                length: u64::try_from(file.bytes.len()).ok(),
                mode: None,
            };
            Input::bytes(description, Cursor::new(file.bytes.clone()))
        })
        .collect()
}

fn record(path: &Path, files: &[Made], seed: Option<u64>) -> Result<(), Failure> {
    let mut cartridge = Cartridge::load(path, Access::Record, SETUP.depth, seed)?;
    let elements = Elements::new(inputs(files), false);
    let recorded = cartridge.record(SETUP, elements, |_: &Summary| {})?;
    cartridge.put_in_force()?;
    for error in cartridge.write_errors() {
        let address = grouped(u64::from(error.position.0));
        output::line(if error.position.is_header() {
            format!("  write error at {address}: that header copy is given up")
        } else {
            let skip = error.skip;
            let target = grouped(u64::from(error.target().0));
            format!("  write error at {address}, skip {skip}: sent again from {target} on")
        })?;
    }
    let jobs = u64::try_from(files.len()).unwrap_or(u64::MAX);
    output::line(format!("  {}", told(jobs, &recorded.summary)))
}

fn compare(path: &Path, files: &[Made], seed: u64) -> Result<(), Failure> {
    let mut cartridge = Cartridge::load(path, Access::Read, SETUP.depth, Some(seed))?;
    let mut read: Vec<(Vec<u8>, bool)> = Vec::new();
    let mut taker = |_: u64, event: Event<'_>| {
        match event {
            Event::Begin(_) => read.push((Vec::new(), false)),
            Event::Data(data) => {
                if let Some((bytes, _)) = read.last_mut() {
                    bytes.extend_from_slice(data);
                }
            }
            Event::End(verdict) => {
                if let Some((_, whole)) = read.last_mut() {
                    *whole = matches!(verdict, Verdict::Whole(_));
                }
            }
        }
        Ok(ControlFlow::Continue(()))
    };
    let mut progress = Progress::new("reading", true);
    cartridge.read_jobs(&mut taker, &mut progress)?;
    if read.len() != files.len() {
        return Err(Failure::new("the cartridge holds another number of jobs"));
    }
    for (file, (bytes, whole)) in files.iter().zip(&read) {
        let name = file.name;
        if !whole || *bytes != file.bytes {
            return Err(Failure::new(format!("{name}: not what was recorded")));
        }
        let length = u64::try_from(bytes.len()).unwrap_or(u64::MAX);
        let length = grouped(length);
        output::line(format!("  {name:<16} {length:>9} bytes, all as recorded"))?;
    }
    Ok(())
}

/// A directory of the demo's own, removed at the end unless it is kept.
struct Directory {
    path: PathBuf,
    kept: bool,
}

impl Directory {
    fn make(kept: bool) -> Result<Directory, Failure> {
        let name = format!("adr-demo-{}", std::process::id());
        let path = std::env::temp_dir().join(name);
        std::fs::create_dir(&path).map_err(|error| Failure::of_file(&path, &error))?;
        Ok(Directory { path, kept })
    }

    fn tell(&self) -> Result<(), Failure> {
        if !self.kept {
            return Ok(());
        }
        let image = self.path.join("demo.adr");
        output::line(format!("\nThe image is kept: {}", image.display()))
    }
}

impl Drop for Directory {
    fn drop(&mut self) {
        if !self.kept {
            let _ = std::fs::remove_dir_all(&self.path);
        }
    }
}
