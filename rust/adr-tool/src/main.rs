//! `adr`: files on cartridge images, through the proved layer.
//!
//! A cartridge is an image file in a simulated drive; everything between the
//! files and the drive is what an archive program would run.

mod arguments;
mod cartridge;
mod check;
mod checksum;
mod cut_session;
mod demo;
mod digest;
mod dump;
mod earlier_jobs;
mod failure;
mod faults;
mod format;
mod frame_checksums;
mod image;
mod interruption;
mod job;
mod list;
mod lone_frame;
mod mains;
mod map;
mod output;
mod part;
mod plan;
mod progress;
mod record;
mod restore;
mod room;
mod salvage;
mod sheet;
mod shell;
mod size;
#[allow(unsafe_code)]
mod system;
mod text;
mod timestamp;
mod usage;
mod writer;

use std::ffi::OsString;
use std::process::ExitCode;

use arguments::{Arguments, Options};
use failure::Failure;

/// A command of the tool.
struct Command {
    name: &'static str,
    help: &'static str,
    options: Options,
    run: fn(&Arguments) -> Result<(), Failure>,
}

static COMMANDS: [Command; 11] = [
    Command {
        name: "format",
        help: usage::FORMAT,
        options: format::OPTIONS,
        run: format::run,
    },
    Command {
        name: "record",
        help: usage::RECORD,
        options: record::OPTIONS,
        run: record::run,
    },
    Command {
        name: "list",
        help: usage::LIST,
        options: list::OPTIONS,
        run: list::run,
    },
    Command {
        name: "restore",
        help: usage::RESTORE,
        options: restore::OPTIONS,
        run: restore::run,
    },
    Command {
        name: "check",
        help: usage::CHECK,
        options: check::OPTIONS,
        run: check::run,
    },
    Command {
        name: "salvage",
        help: usage::SALVAGE,
        options: salvage::OPTIONS,
        run: salvage::run,
    },
    Command {
        name: "map",
        help: usage::MAP,
        options: map::OPTIONS,
        run: map::run,
    },
    Command {
        name: "plan",
        help: usage::PLAN,
        options: plan::OPTIONS,
        run: plan::run,
    },
    Command {
        name: "sheet",
        help: usage::SHEET,
        options: sheet::OPTIONS,
        run: sheet::run,
    },
    Command {
        name: "dump",
        help: usage::DUMP,
        options: dump::OPTIONS,
        run: dump::run,
    },
    Command {
        name: "demo",
        help: usage::DEMO,
        options: demo::OPTIONS,
        run: demo::run,
    },
];

fn main() -> ExitCode {
    let mut words = std::env::args_os().skip(1);
    let name = words.next();
    let result = run(name.as_deref().and_then(|name| name.to_str()), words);
    let Err(failure) = result else {
        return ExitCode::SUCCESS;
    };
    match &failure {
        Failure::Usage(message) => {
            let known = COMMANDS
                .iter()
                .find(|command| name.as_deref().is_some_and(|name| name == command.name));
            let help = known.map_or(String::from("adr --help"), |command| {
                format!("adr {} --help", command.name)
            });
            output::message(format!("{message}; see '{help}'"));
        }
        Failure::Failed(message) => output::message(message),
        Failure::Interrupted(signal, message) => {
            output::message(message);
            system::end_by(*signal);
        }
        Failure::OutputClosed => {}
    }
    ExitCode::from(failure.status())
}

fn run(name: Option<&str>, words: impl Iterator<Item = OsString>) -> Result<(), Failure> {
    let words: Vec<OsString> = words.collect();
    let name = match name {
        None => return Err(Failure::usage("name a command")),
        Some("-h" | "--help" | "help") => return help(&words),
        Some("-V" | "--version") => {
            return output::line(format!("adr {}", env!("CARGO_PKG_VERSION")));
        }
        Some(name) => name,
    };
    let command = find(name)?;
    if asks_for_help(&words) {
        return output::plain(command.help);
    }
    (command.run)(&Arguments::parse(words, command.options)?)
}

fn help(words: &[OsString]) -> Result<(), Failure> {
    match words.first().and_then(|word| word.to_str()) {
        None => output::plain(usage::WHOLE),
        Some(name) => output::plain(find(name)?.help),
    }
}

fn find(name: &str) -> Result<&'static Command, Failure> {
    COMMANDS
        .iter()
        .find(|command| command.name == name)
        .ok_or_else(|| Failure::usage(format!("unknown command '{name}'")))
}

/// Whether help is asked for, which `--` ends.
fn asks_for_help(words: &[OsString]) -> bool {
    words
        .iter()
        .take_while(|word| *word != "--")
        .any(|word| word == "--help" || word == "-h")
}
