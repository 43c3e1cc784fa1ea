//! Why the tool stops, and what it tells the shell.

use std::fmt::Display;
use std::io;
use std::path::Path;

/// What is told of a recording that was not put in force.
pub const UNRECORDED: &str = "nothing was recorded, the cartridge holds what it held before";

/// Why a command stopped.
#[derive(Debug)]
pub enum Failure {
    /// The command line is wrong: exit status 2.
    Usage(String),
    /// The work failed: exit status 1.
    Failed(String),
    /// A signal ended the work: the program ends by that signal.
    Interrupted(i32, String),
    /// Whoever read the output went away: exit status 1, no message.
    OutputClosed,
}

impl Failure {
    /// A failure with a message.
    pub fn new(message: impl Display) -> Failure {
        Failure::Failed(message.to_string())
    }

    /// A wrong command line.
    pub fn usage(message: impl Display) -> Failure {
        Failure::Usage(message.to_string())
    }

    /// A failure of a file.
    pub fn of_file(path: &Path, error: &io::Error) -> Failure {
        Failure::Failed(format!("{}: {}", path.display(), reason(error)))
    }

    /// A failure of standard output.
    pub fn of_output(error: &io::Error) -> Failure {
        if error.kind() == io::ErrorKind::BrokenPipe {
            Failure::OutputClosed
        } else {
            Failure::Failed(format!("standard output: {}", reason(error)))
        }
    }

    /// This failure, of a recording that was not put in force.
    pub fn unrecorded(self) -> Failure {
        self.with(UNRECORDED)
    }

    /// This failure with more to tell, if there is a message.
    pub fn with(self, more: impl Display) -> Failure {
        let told = |message| format!("{message}; {more}");
        match self {
            Failure::Failed(message) => Failure::Failed(told(message)),
            Failure::Interrupted(signal, message) => Failure::Interrupted(signal, told(message)),
            other => other,
        }
    }

    /// The exit status.
    pub fn status(&self) -> u8 {
        match self {
            Failure::Usage(_) => 2,
            Failure::Failed(_) | Failure::OutputClosed => 1,
            Failure::Interrupted(signal, _) => u8::try_from(128 + signal).unwrap_or(1),
        }
    }
}

/// What an error of the system means, without its number.
pub fn reason(error: &io::Error) -> String {
    let text = error.to_string();
    match text.split_once(" (os error") {
        Some((words, _)) => words.to_string(),
        None => text,
    }
}
