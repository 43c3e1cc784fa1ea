//! The jobs on a cartridge that others are added to.

use std::collections::BTreeMap;
use std::ops::ControlFlow;

use crate::cartridge::{Cartridge, End};
use crate::failure::Failure;
use crate::interruption;
use crate::job::reading::Event;
use crate::progress::Progress;

/// The jobs before those that are to be recorded, none where these start at
/// the beginning.
#[derive(Default)]
pub struct EarlierJobs {
    end: Option<End>,
    /// The names, and the first job that has each.
    names: BTreeMap<Vec<u8>, u64>,
}

impl EarlierJobs {
    /// Reads a cartridge to its end on its newest header.
    pub fn read(
        cartridge: &mut Cartridge,
        header: &[u8],
        quiet: bool,
    ) -> Result<EarlierJobs, Failure> {
        let mut progress = Progress::new("reading", quiet);
        let mut names = BTreeMap::new();
        let mut taker = |number: u64, event: Event<'_>| {
            interruption::check()?;
            if let Event::Begin(description) = event {
                names.entry(description.name.clone()).or_insert(number);
            }
            Ok(ControlFlow::Continue(()))
        };
        let end = cartridge.read_to_end(header, &mut taker, &mut progress);
        let end = Some(end.map_err(Failure::unrecorded)?);
        Ok(EarlierJobs { end, names })
    }

    /// Where they end, if others are added there.
    pub fn end(&self) -> Option<&End> {
        self.end.as_ref()
    }

    /// How many there are.
    pub fn jobs(&self) -> u64 {
        self.end.as_ref().map_or(0, |end| end.jobs)
    }

    /// The first job of a name.
    pub fn first_named(&self, name: &[u8]) -> Option<u64> {
        self.names.get(name).copied()
    }
}
