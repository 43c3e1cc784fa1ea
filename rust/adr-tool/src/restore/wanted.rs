//! The jobs that a command line asks for.

use std::collections::BTreeMap;
use std::ffi::{OsStr, OsString};
use std::os::unix::ffi::OsStrExt;

use crate::failure::Failure;
use crate::text::{count, printable};

/// Jobs asked for by number or by name, or all of them if none is.
///
/// A word of digits is a number and never a name: that a cartridge has no job
/// of that number is known only at its end, when one of that name has gone by.
#[derive(Debug, Default)]
pub struct Wanted {
    numbers: BTreeMap<u64, ByNumber>,
    /// The names, and whether a job has them.
    names: BTreeMap<Vec<u8>, bool>,
}

/// A job asked for by number.
#[derive(Debug)]
struct ByNumber {
    /// The word that asks for it.
    word: Vec<u8>,
    /// Whether it was read.
    read: bool,
    /// The first job that has the word for its name.
    namesake: Option<u64>,
}

impl Wanted {
    /// The jobs that these words ask for.
    pub fn parse(words: &[OsString]) -> Result<Wanted, Failure> {
        let mut wanted = Wanted::default();
        for word in words {
            wanted.add(word)?;
        }
        Ok(wanted)
    }

    fn add(&mut self, word: &OsStr) -> Result<(), Failure> {
        let name = word.as_bytes().to_vec();
        if !name.iter().all(u8::is_ascii_digit) {
            self.names.insert(name, false);
            return Ok(());
        }
        let number = word.to_str().and_then(|text| text.parse().ok());
        let number = number.filter(|number| *number > 0).ok_or_else(|| {
            let shown = word.to_string_lossy();
            Failure::usage(format!(
                "'{shown}' is no job's number: 'adr list' shows them"
            ))
        })?;
        let by_number = ByNumber {
            word: name,
            read: false,
            namesake: None,
        };
        self.numbers.insert(number, by_number);
        Ok(())
    }

    /// Whether every job is asked for.
    pub fn is_all(&self) -> bool {
        self.numbers.is_empty() && self.names.is_empty()
    }

    /// Whether a single job is asked for.
    pub fn is_one(&self) -> bool {
        self.numbers.len() + self.names.len() == 1
    }

    /// Whether this number is asked for.
    pub fn has_number(&self, number: u64) -> bool {
        self.numbers.contains_key(&number)
    }

    /// Takes note of a job that begins; whether it is asked for.
    pub fn begins(&mut self, number: u64, name: &[u8]) -> bool {
        for wanted in self.numbers.values_mut() {
            if wanted.word == name {
                wanted.namesake.get_or_insert(number);
            }
        }
        let by_name = self.names.get_mut(name);
        let named = by_name.map(|found| *found = true).is_some();
        named || self.is_all() || self.has_number(number)
    }

    /// Takes note of a job that ended; whether no other can be asked for. A
    /// name may come again up to the end of the tape.
    pub fn ends(&mut self, number: u64) -> bool {
        if let Some(wanted) = self.numbers.get_mut(&number) {
            wanted.read = true;
        }
        !self.is_all() && self.names.is_empty() && self.numbers.values().all(|wanted| wanted.read)
    }

    /// What is to be told of jobs that a cartridge of so many does not hold.
    pub fn missing(&self, jobs: u64) -> Vec<String> {
        let numbers = self.numbers.iter().filter(|(_, wanted)| !wanted.read);
        let numbers = numbers.map(|(number, wanted)| {
            let jobs = count(jobs, "job", "jobs");
            let missing = format!("there is no job {number}; the cartridge holds {jobs}");
            match wanted.namesake {
                None => missing,
                Some(job) => format!("{missing}, and job {job} has that name: ask for {job}"),
            }
        });
        let names = self.names.iter().filter(|(_, found)| !**found);
        let names = names.map(|(name, _)| {
            let name = printable(name);
            format!("there is no job named '{name}': 'adr list' shows the names")
        });
        numbers.chain(names).collect()
    }
}
