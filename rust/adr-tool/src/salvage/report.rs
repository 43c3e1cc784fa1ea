//! What a salvage has to tell.

use std::path::Path;

use super::job::Job;
use super::missing::are_missing;
use crate::failure::Failure;
use crate::job::{torn, Closing};
use crate::output;
use crate::text::{amount, count, printable};

/// What was restored, and what is to be told when all is done.
#[derive(Debug, Default)]
pub struct Report {
    messages: Vec<String>,
    missing: u64,
    restored: u64,
    bytes: u64,
}

impl Report {
    /// Something that is not missing.
    pub fn note(&mut self, message: impl Into<String>) {
        self.messages.push(message.into());
    }

    /// Something that is.
    pub fn missing(&mut self, message: impl Into<String>) {
        self.missing += 1;
        self.note(message);
    }

    /// A job that was restored, to a file of this name.
    pub fn restored(&mut self, job: &Job<'_>, closing: &Closing, name: &[u8]) {
        self.restored += 1;
        self.bytes = self.bytes.saturating_add(closing.length);
        let Some(description) = &job.description else {
            return;
        };
        if description.name != name {
            let name = printable(name);
            self.note(format!(
                "{}: an earlier job has that name too: restored as '{name}'",
                shown(job)
            ));
        }
        if let Some(tear) = description.tear(closing) {
            self.missing(torn(job.number, &tear));
        }
    }

    /// A job that was not restored, for this reason.
    pub fn not_restored(&mut self, job: &Job<'_>, reason: &str) {
        self.missing(format!("{}: not restored: {reason}", shown(job)));
    }

    /// Jobs of which nothing is left, and the elements missing there.
    pub fn gone(&mut self, jobs: (u64, u64), elements: (u64, u64)) {
        let which = match jobs {
            (first, last) if first == last => format!("job {first}: nothing of it"),
            (first, last) => format!("jobs {first} to {last}: nothing of them"),
        };
        // Frames that contradict each other may leave no number between them.
        let numbers = match elements.0 <= elements.1 {
            true => format!(": {}", are_missing(&[elements])),
            false => String::new(),
        };
        self.missing(format!("{which} is left{numbers}"));
    }

    /// Tells everything; something failed if anything is missing.
    pub fn tell(self, image: &Path) -> Result<(), Failure> {
        let image = image.display();
        for message in &self.messages {
            output::message(format!("{image}: {message}"));
        }
        let restored = format!(
            "{image}: {} restored, {}",
            count(self.restored, "job was", "jobs were"),
            amount(self.bytes)
        );
        if self.missing == 0 {
            return output::line(format!("{restored}; nothing is missing"));
        }
        let missing = count(self.missing, "thing is", "things are");
        Err(Failure::new(format!(
            "{restored}; {missing} missing or not restored"
        )))
    }
}

/// A job's number, and its name if that is known.
pub fn shown(job: &Job<'_>) -> String {
    let name = job.description.as_ref();
    let name = name.map(|description| format!(", '{}'", printable(&description.name)));
    format!("job {}{}", job.number, name.unwrap_or_default())
}
