//! What is told of a tape that was full before all was recorded.

use std::ffi::{OsStr, OsString};
use std::os::unix::ffi::{OsStrExt, OsStringExt};
use std::path::{Path, PathBuf};

use adr_tape::{Geometry, LoadPoint};

use super::{files_changed, IF_CHANGED};
use crate::arguments::{is_option, Arguments};
use crate::failure::{Failure, UNRECORDED};
use crate::job::source::{Change, Reach};
use crate::output;
use crate::shell::quoted;
use crate::text::{count, printable};

/// Options that the rest is recorded with too, if they were given. With
/// `--allow-empty` a pipe that was read before would be an empty job.
const KEPT_VALUED: [&str; 3] = ["--depth", "--window", "--tail"];
const KEPT_PLAIN: &str = "--quiet";

/// What helps a job that no tape of this size has room for.
const LARGER: &str = "it needs a larger cartridge, or one with fewer bad spots";

/// Names of cartridges are counted up to here: a higher number in one is taken
/// for a year, or the like.
const COUNTED: u32 = 1_000;

/// A recording that the tape had no room for all of.
pub struct FullTape<'a> {
    /// The image.
    pub path: &'a Path,
    /// Its size.
    pub geometry: Geometry,
    /// How it was called.
    pub arguments: &'a Arguments,
    /// The files that were to be recorded.
    pub files: &'a [OsString],
    /// Whether each of them can be read again.
    pub again: &'a [bool],
    /// The jobs that were there before.
    pub before: u64,
    /// How far it got.
    pub reach: Reach,
    /// Whether that is in force.
    pub in_force: bool,
    /// The files that changed while they were read.
    pub changed: &'a [Change],
}

impl FullTape<'_> {
    /// Tells what is on the tape and what is not, and the commands that record
    /// the rest; it failed.
    pub fn tell(&self) -> Failure {
        self.tell_content();
        self.changed.iter().for_each(output::message);
        let shown = self.path.display();
        if !self.changed.is_empty() {
            let changed = files_changed(self.changed);
            output::message(format!("{shown}: {changed} while being read: {IF_CHANGED}"));
        }
        if let Some(file) = self.longest() {
            output::message(format!(
                "'{}' had the tape from its beginning: {LARGER}",
                name(file)
            ));
        }
        for file in self.read_once() {
            output::message(format!(
                "{} can be read only once: give it again, from its beginning, \
                 to the command that records the rest",
                name(file)
            ));
        }
        let recorded = if self.in_force {
            "not everything"
        } else {
            "nothing"
        };
        let rest = match (self.print_commands(), self.longest().map(|file| name(file))) {
            (None, _) => String::new(),
            (Some(place), None) => {
                format!(": the two commands on {place} record the rest on another cartridge")
            }
            (Some(place), Some(longest)) => format!(
                ": the two commands on {place} record what follows '{longest}' \
                 on another cartridge, and not '{longest}'"
            ),
        };
        Failure::new(format!("{shown}: {recorded} was recorded{rest}"))
    }

    /// Tells what is on the tape and what is not.
    fn tell_content(&self) {
        let shown = self.path.display();
        let mut unrecorded = self.rest();
        if self.in_force {
            output::message(format!(
                "{shown}: the tape is full, and was closed behind what it could take; {}",
                self.whole()
            ));
        } else {
            output::message(format!(
                "{shown}: the tape is full, and no new job is whole on it: {UNRECORDED}"
            ));
        }
        let cut = self.reach.cut.filter(|_| self.in_force);
        if let Some((cut, (file, behind))) = cut.zip(unrecorded.split_first()) {
            let number = self.number(self.reach.whole);
            output::message(format!("{shown}: job {number}, '{}': {cut}", name(file)));
            unrecorded = behind;
        }
        if let [first, others @ ..] = unrecorded {
            let others = match u64::try_from(others.len()).unwrap_or(u64::MAX) {
                0 => String::new(),
                others => format!(" and {} behind it", count(others, "file", "files")),
            };
            output::message(format!("{shown}: not on it: '{}'{others}", name(first)));
        }
    }

    /// Which of the new jobs are whole.
    fn whole(&self) -> String {
        let Some(last) = self.reach.whole.checked_sub(1) else {
            return String::from("no new job is whole on it");
        };
        let (first, last) = (self.number(0), self.number(last));
        let jobs = if first == last {
            format!("job {first} is")
        } else {
            format!("jobs {first} to {last} are")
        };
        let changed = self.changed.iter().map(|change| change.job);
        let changed = changed.filter(|job| *job <= last);
        let changed: Vec<String> = changed.map(|job| job.to_string()).collect();
        if changed.is_empty() {
            return format!("{jobs} whole on it");
        }
        format!(
            "{jobs} on it, whole but for those whose files changed while being read: {}",
            changed.join(", ")
        )
    }

    /// The number of a new job, by its turn from 0 on.
    fn number(&self, turn: usize) -> u64 {
        let turn = u64::try_from(turn).unwrap_or(u64::MAX);
        self.before.saturating_add(turn).saturating_add(1)
    }

    /// The jobs that the tape then holds.
    fn held(&self) -> usize {
        if self.in_force {
            self.reach.whole
        } else {
            0
        }
    }

    /// The files of the others.
    fn rest(&self) -> &[OsString] {
        self.files.get(self.held()..).unwrap_or_default()
    }

    /// The file of a job that had all of the tape and found no room: another tape
    /// of that size would be full in it too.
    fn longest(&self) -> Option<&OsString> {
        let alone = self.before == 0 && self.reach.whole == 0;
        self.rest().first().filter(|_| alone)
    }

    /// The turn of the first file that goes to another cartridge of that size.
    fn first_to_record(&self) -> usize {
        let left_out = usize::from(self.longest().is_some());
        self.held().saturating_add(left_out)
    }

    /// The files that go there.
    fn to_record(&self) -> &[OsString] {
        self.files.get(self.first_to_record()..).unwrap_or_default()
    }

    /// Those of them that can't be read again.
    fn read_once(&self) -> impl Iterator<Item = &OsString> {
        let again = self.again.iter().skip(self.first_to_record());
        let files = self.to_record().iter().zip(again);
        files.filter(|(_, again)| !**again).map(|(file, _)| file)
    }

    /// Prints the commands, if there is something to record; where they are.
    fn print_commands(&self) -> Option<&'static str> {
        if self.to_record().is_empty() {
            return None;
        }
        let other = next_name(self.path);
        let commands = [self.format_command(&other), self.record_command(&other)];
        let commands: String = commands.map(|command| command + "\n").concat();
        if output::plain(&commands).is_ok() {
            return Some("standard output");
        }
        // Quoted as they are, they give a terminal no orders.
        output::plain_error(&commands);
        Some("standard error")
    }

    /// The command that makes another cartridge of the same size.
    fn format_command(&self, other: &Path) -> String {
        let Geometry { segtrk, trks, load } = self.geometry;
        let mut words = vec![program(), OsString::from("format")];
        for (name, number) in [("--segtrk", segtrk), ("--trks", trks)] {
            words.extend([name.into(), number.to_string().into()]);
        }
        if load == LoadPoint::Centre {
            words.push("--centre".into());
        }
        line(words, other, &[])
    }

    /// The command that records the rest there: the job that was cut once more,
    /// and what follows it.
    fn record_command(&self, other: &Path) -> String {
        let files = self.to_record();
        let mut words = vec![program(), OsString::from("record")];
        if self.arguments.has(KEPT_PLAIN) {
            words.push(KEPT_PLAIN.into());
        }
        let mut valued = KEPT_VALUED.to_vec();
        if files.iter().any(|file| file == "-") {
            valued.push("--name");
        }
        for option in valued {
            if let Some(value) = self.arguments.value(option) {
                words.extend([option.into(), value.to_os_string()]);
            }
        }
        line(words, other, files)
    }
}

/// A file as it is told.
fn name(file: &OsStr) -> String {
    match file.as_bytes() {
        b"-" => String::from("standard input"),
        bytes => printable(bytes),
    }
}

/// The word that this program was called by.
fn program() -> OsString {
    let called = std::env::args_os().next();
    let called = called.filter(|word| !word.is_empty());
    called.unwrap_or_else(|| OsString::from("adr"))
}

/// A command line for a shell, which works on an image.
fn line(mut words: Vec<OsString>, image: &Path, operands: &[OsString]) -> String {
    let all = || std::iter::once(image.as_os_str()).chain(operands.iter().map(OsString::as_os_str));
    if all().any(is_option) {
        words.push("--".into());
    }
    let words = words.iter().map(OsString::as_os_str).chain(all());
    let words: Vec<String> = words.map(quoted).collect();
    words.join(" ")
}

/// A name for the cartridge behind this one that nothing has yet:
/// `parts-2.adr` behind `parts.adr`, `parts-3.adr` behind that.
fn next_name(path: &Path) -> PathBuf {
    let stem = path.file_stem().unwrap_or_default().as_bytes();
    let (base, number) = counted(stem).unwrap_or((stem, 1));
    let named = |number: u32| {
        let mut name = base.to_vec();
        name.extend(format!("-{number}").into_bytes());
        if let Some(extension) = path.extension() {
            name.push(b'.');
            name.extend_from_slice(extension.as_bytes());
        }
        path.with_file_name(OsString::from_vec(name))
    };
    let free = |path: &PathBuf| path.symlink_metadata().is_err();
    let mut names = (number.saturating_add(1)..=u32::MAX).map(named);
    names.find(free).unwrap_or_else(|| path.to_path_buf())
}

/// A name that ends in a number, and the number.
fn counted(stem: &[u8]) -> Option<(&[u8], u32)> {
    let dash = stem.iter().rposition(|byte| *byte == b'-')?;
    let (base, number) = stem.split_at_checked(dash)?;
    let number = std::str::from_utf8(number.get(1..)?).ok()?;
    let digits = number.bytes().all(|byte| byte.is_ascii_digit());
    let number = number.parse().ok().filter(|_| digits);
    number
        .filter(|number| *number < COUNTED)
        .map(|number| (base, number))
}

#[cfg(test)]
mod tests {
    use super::*;
    use crate::job::Cut;

    #[test]
    fn names() {
        for (name, next) in [
            ("nowhere/parts.adr", "nowhere/parts-2.adr"),
            ("nowhere/parts-2.adr", "nowhere/parts-3.adr"),
            ("nowhere/parts", "nowhere/parts-2"),
            ("nowhere/in-2024.adr", "nowhere/in-2024-2.adr"),
            ("nowhere/in-.adr", "nowhere/in--2.adr"),
            ("nowhere/a-+2.adr", "nowhere/a-+2-2.adr"),
            ("nowhere/.adr", "nowhere/.adr-2"),
            ("nowhere/-3.adr", "nowhere/-4.adr"),
        ] {
            assert_eq!(next_name(Path::new(name)), Path::new(next));
        }
    }

    /// A job that had a whole tape goes to no other of that size, even if nothing
    /// of it is on tape.
    #[test]
    fn what_goes_to_another_cartridge() {
        let files = ["a", "b", "-"].map(OsString::from);
        let arguments = Arguments::default();
        let cut = Some(Cut::behind(3, None));
        for (before, whole, cut, longest, to_record) in [
            (0, 0, None, Some("a"), &["b", "-"][..]),
            (0, 0, cut, Some("a"), &["b", "-"]),
            (1, 0, None, None, &["a", "b", "-"]),
            (1, 0, cut, None, &["a", "b", "-"]),
            (0, 1, cut, None, &["b", "-"]),
            (0, 2, None, None, &["-"]),
        ] {
            let full = FullTape {
                path: Path::new("nowhere/a.adr"),
                geometry: Geometry::beginning(3_001, 1),
                arguments: &arguments,
                files: &files,
                again: &[true, true, false],
                before,
                reach: Reach { whole, cut },
                in_force: true,
                changed: &[],
            };
            assert_eq!(
                full.longest().map(OsString::as_os_str),
                longest.map(OsStr::new)
            );
            assert_eq!(full.to_record(), to_record);
            let once: Vec<&OsString> = full.read_once().collect();
            assert_eq!(once, ["-"]);
        }
    }

    #[test]
    fn lines() {
        let words = || vec![OsString::from("adr"), OsString::from("record")];
        let operands = [OsString::from("a b"), OsString::from("-")];
        let plain = line(words(), Path::new("x.adr"), &operands);
        assert_eq!(plain, "adr record x.adr 'a b' -");
        let dashed = line(words(), Path::new("-x.adr"), &operands);
        assert_eq!(dashed, "adr record -- -x.adr 'a b' -");
    }
}
