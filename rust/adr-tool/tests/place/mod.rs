//! A directory for one test, and runs of the tool in it.
#![allow(dead_code)] // Each test program uses its own part.

pub mod image;

use std::io::Write;
use std::path::PathBuf;
use std::process::{Child, Command, Output, Stdio};
use std::time::Duration;

use image::{end_of_data, move_frame, tell_end, GROUP};

/// The tool.
pub const ADR: &str = env!("CARGO_BIN_EXE_adr");

/// A directory that is removed when the test is over.
pub struct Place {
    directory: PathBuf,
}

/// What a run came to.
#[derive(Debug, Default)]
pub struct Ran {
    pub status: Option<i32>,
    pub output: Vec<u8>,
    pub error: String,
}

impl Place {
    pub fn new(name: &str) -> Place {
        let name = format!("adr-tool-{name}-{}", std::process::id());
        let directory = std::env::temp_dir().join(name);
        std::fs::create_dir(&directory).expect("a directory of its own");
        Place { directory }
    }

    /// A place with an image of one recording of `file`, and `new` beside it,
    /// of so many bytes.
    pub fn recorded(name: &str, file: usize, new: usize) -> Place {
        let place = Place::new(name);
        place.write("file", &bytes(file, 1));
        place.write("new", &bytes(new, 2));
        place.adr(&["format", "a.adr"]).succeeded();
        place.adr(&["record", "a.adr", "file"]).succeeded();
        place
    }

    /// A place with an image of so many frames with the job `mon`, whose end of
    /// data stands so many frames before the second header group, behind a long
    /// stretch that does not read.
    pub fn nearly_full(name: &str, frames: usize, free: usize) -> Place {
        let place = Place::new(name);
        place.write("mon", &bytes(40_000, 1));
        let size = ["--segtrk", &frames.to_string(), "--trks", "1"];
        place
            .adr(&[&["format", "a.adr"], &size[..]].concat())
            .succeeded();
        place.adr(&["record", "a.adr", "mon"]).succeeded();
        let mut image = place.read("a.adr");
        let end = end_of_data(&image);
        move_frame(&mut image, end, GROUP - free);
        tell_end(&mut image, GROUP - free);
        place.write("a.adr", &image);
        place
    }

    pub fn path(&self, name: &str) -> PathBuf {
        self.directory.join(name)
    }

    pub fn read(&self, name: &str) -> Vec<u8> {
        std::fs::read(self.path(name)).expect("a file")
    }

    pub fn write(&self, name: &str, bytes: &[u8]) {
        std::fs::write(self.path(name), bytes).expect("room for a file");
    }

    pub fn directory(&self, name: &str) {
        std::fs::create_dir(self.path(name)).expect("room for a directory");
    }

    /// What stands in a directory, sorted.
    pub fn names(&self, directory: &str) -> Vec<String> {
        let entries = std::fs::read_dir(self.path(directory)).expect("a directory");
        let name = |entry: std::io::Result<std::fs::DirEntry>| entry.expect("it").file_name();
        let names = entries.map(|entry| name(entry).to_string_lossy().into_owned());
        let mut names: Vec<String> = names.collect();
        names.sort();
        names
    }

    /// The directory holds files of these names and no others, as they are here.
    #[track_caller]
    pub fn has_copies(&self, directory: &str, names: &[&str]) {
        let mut sorted = names.to_vec();
        sorted.sort_unstable();
        assert_eq!(self.names(directory), sorted);
        for name in names {
            let copy = self.read(&format!("{directory}/{name}"));
            assert!(copy == self.read(name), "{name}");
        }
    }

    /// The tool with some words, not yet run.
    pub fn command(&self, words: &[&str]) -> Command {
        let mut command = Command::new(ADR);
        command.args(words).current_dir(&self.directory);
        command.stdin(Stdio::null());
        command
    }

    pub fn adr(&self, words: &[&str]) -> Ran {
        Ran::of(self.command(words).output().expect("the tool"))
    }

    /// Runs the commands of the first example in a section of docs/TOOL.md, made
    /// ready for a shell: they must print what stands there.
    #[track_caller]
    pub fn runs_example(&self, section: &str, ready: impl Fn(&str) -> String) {
        let text = include_str!("../../../../docs/TOOL.md");
        let (_, section) = text.split_once(&format!("## {section}\n")).expect("it");
        let (_, example) = section.split_once("```sh\n").expect("an example");
        let (example, _) = example.split_once("```").expect("its end");
        let mut printed = String::new();
        for line in example.lines().filter(|line| !line.starts_with('#')) {
            let ran = self.shell(&ready(line).replacen("adr", ADR, 1));
            printed.push_str(&format!("{line}\n"));
            let lines = ran.output_text().lines().chain(ran.error.lines());
            lines.for_each(|line| printed.push_str(&format!("# {line}\n")));
        }
        assert_eq!(printed, example);
    }

    /// Runs a shell's command line; `$ADR` is the tool.
    pub fn shell(&self, line: &str) -> Ran {
        let mut command = Command::new("sh");
        command.args(["-c", line]).env("ADR", ADR);
        command.current_dir(&self.directory).stdin(Stdio::null());
        Ran::of(command.output().expect("a shell"))
    }
}

impl Drop for Place {
    fn drop(&mut self) {
        let _ = std::fs::remove_dir_all(&self.directory);
    }
}

impl Ran {
    pub fn of(output: Output) -> Ran {
        Ran {
            status: output.status.code(),
            output: output.stdout,
            error: String::from_utf8_lossy(&output.stderr).into_owned(),
        }
    }

    pub fn output_text(&self) -> &str {
        std::str::from_utf8(&self.output).expect("text")
    }

    #[track_caller]
    pub fn succeeded(self) -> Ran {
        assert_eq!(self.status, Some(0), "{}", self.error);
        self
    }

    /// Failed with a message.
    #[track_caller]
    pub fn failed(self) -> Ran {
        assert_eq!(self.status, Some(1), "{}", self.error);
        assert!(self.error.starts_with("adr: "), "{}", self.error);
        assert!(!self.error.contains("panicked"), "{}", self.error);
        self
    }
}

/// Bytes that are alike in every run.
pub fn bytes(length: usize, seed: u64) -> Vec<u8> {
    let mut random = adr_model::random::Random::new(seed);
    (0..length).map(|_| random.byte()).collect()
}

/// Waits until something is so; the child must not end before.
#[track_caller]
pub fn wait_beside(child: &mut Child, is_so: impl Fn() -> bool) {
    while !is_so() {
        let ended = child.try_wait().expect("a child");
        assert_eq!(ended, None, "it ended too soon");
        std::thread::sleep(Duration::from_millis(1));
    }
}

/// Gives a child some bytes, and keeps its input open.
pub fn feed(child: &mut Child, amount: usize) {
    let input = child.stdin.as_mut().expect("a pipe");
    let some = bytes(40_000, 7);
    let mut left = amount;
    while left > 0 {
        let part = &some[..left.min(some.len())];
        input.write_all(part).expect("it reads");
        left -= part.len();
    }
}
