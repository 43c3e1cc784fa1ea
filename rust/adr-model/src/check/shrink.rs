//! Makes a failing case smaller.

use std::fmt::Debug;

use super::case::{Call, Case, Setup};
use super::chain::{run_chain_on, Chain};
use super::layer::{Layer, Model};
use super::{run_on, Tally};
use crate::geometry::Address;
use crate::hostility::Hostility;

/// The runs a shrinking may take.
const RUNS: u32 = 1_500;

/// What can be run, and made smaller where it fails.
trait Shrinks<L: Layer>: Clone + Debug {
    fn run(&self) -> Result<Tally, String>;

    /// Smaller ones, of which some may fail too.
    fn smaller(&self) -> Vec<Self>;

    fn seed(&self) -> u64;
}

impl<L: Layer> Shrinks<L> for Case {
    fn run(&self) -> Result<Tally, String> {
        run_on::<L>(self)
    }

    fn smaller(&self) -> Vec<Case> {
        candidates(self)
    }

    fn seed(&self) -> u64 {
        self.seed
    }
}

impl<L: Layer> Shrinks<L> for Chain {
    fn run(&self) -> Result<Tally, String> {
        run_chain_on::<L>(self)
    }

    fn smaller(&self) -> Vec<Chain> {
        let with = |case| Chain {
            case,
            ..self.clone()
        };
        let mut found: Vec<Chain> = candidates(&self.case).into_iter().map(with).collect();
        for turn in 0..self.setups.len() {
            let mut smaller = self.clone();
            smaller.setups[turn] = Setup::of(self.setups[turn].window_blocks, 0);
            found.extend(Some(smaller).filter(|smaller| smaller != self));
        }
        found
    }

    fn seed(&self) -> u64 {
        self.case.seed
    }
}

/// A smaller one that fails too.
fn shrunk<L: Layer, S: Shrinks<L>>(failing: &S) -> S {
    let mut smallest = failing.clone();
    let mut runs = 0;
    loop {
        let smaller = smallest.smaller().into_iter().find(|candidate| {
            runs += 1;
            runs <= RUNS && candidate.run().is_err()
        });
        match smaller {
            Some(smaller) => smallest = smaller,
            None => return smallest,
        }
    }
}

fn run_or_shrink<L: Layer, S: Shrinks<L>>(tried: &S) -> Result<Tally, String> {
    tried.run().map_err(|wrong| {
        let small = shrunk::<L, S>(tried);
        let small_wrong = small.run().err().unwrap_or_default();
        let seed = tried.seed();
        format!("seed {seed}: {wrong}\nshrunk: {small_wrong}\n{small:?}")
    })
}

/// A smaller case that fails too: fewer recordings, shorter lists, fewer
/// ways of being hostile.
#[must_use]
pub fn shrink(case: &Case) -> Case {
    shrink_on::<Model>(case)
}

/// A smaller case that fails too on this layer.
#[must_use]
pub fn shrink_on<L: Layer>(case: &Case) -> Case {
    shrunk::<L, Case>(case)
}

/// Runs a case; a failure is shrunk and told with its seed.
///
/// # Errors
/// The failure, the seed and the shrunk case.
pub fn run_and_shrink(case: &Case) -> Result<Tally, String> {
    run_and_shrink_on::<Model>(case)
}

/// Runs a case on this layer; a failure is shrunk and told with its seed.
///
/// # Errors
/// The failure, the seed and the shrunk case.
pub fn run_and_shrink_on<L: Layer>(case: &Case) -> Result<Tally, String> {
    run_or_shrink::<L, Case>(case)
}

/// A smaller chain that fails too on this layer.
#[must_use]
pub fn shrink_chain_on<L: Layer>(chain: &Chain) -> Chain {
    shrunk::<L, Chain>(chain)
}

/// Runs a chain on this layer; a failure is shrunk and told with its seed.
///
/// # Errors
/// The failure, the seed and the shrunk chain.
pub fn run_and_shrink_chain_on<L: Layer>(chain: &Chain) -> Result<Tally, String> {
    run_or_shrink::<L, Chain>(chain)
}

fn candidates(case: &Case) -> Vec<Case> {
    let mut found = Vec::new();
    for turn in 0..case.recordings.len() {
        if case.recordings.len() > 1 {
            let mut smaller = case.clone();
            smaller.recordings.remove(turn);
            found.push(smaller);
        }
        for calls in shorter(&case.recordings[turn]) {
            let mut smaller = case.clone();
            smaller.recordings[turn] = calls;
            found.push(smaller);
        }
    }
    if case.setup.tail > 0 {
        let mut smaller = case.clone();
        smaller.setup.tail = 0;
        found.push(smaller);
    }
    for hostility in milder(&case.hostility) {
        found.push(Case {
            hostility,
            ..case.clone()
        });
    }
    for (stale, headers) in [
        (0, case.headers),
        (case.stale, 0),
        (case.stale / 2, case.headers),
    ] {
        if (stale, headers) != (case.stale, case.headers) {
            found.push(Case {
                stale,
                headers,
                ..case.clone()
            });
        }
    }
    found
}

/// The list without one of its parts: halves first, single calls last.
fn shorter(calls: &[Call]) -> Vec<Vec<Call>> {
    let mut found = Vec::new();
    let mut part = calls.len();
    while part > 0 {
        for start in (0..calls.len()).step_by(part) {
            let end = (start + part).min(calls.len());
            let mut rest = calls.to_vec();
            rest.drain(start..end);
            found.push(rest);
        }
        part /= 2;
    }
    found
}

fn milder(hostility: &Hostility) -> Vec<Hostility> {
    let none = Hostility::NONE;
    let change: [fn(&mut Hostility, &Hostility); 15] = [
        |to, none| to.failure = none.failure,
        |to, none| to.busy = none.busy,
        |to, none| to.unlisted = none.unlisted,
        |to, none| to.early_end = none.early_end,
        |to, none| to.skip = none.skip,
        |to, none| to.reads_new = none.reads_new,
        |to, none| to.reads_nothing = none.reads_nothing,
        |to, none| to.busy_located = none.busy_located,
        |to, none| to.recovered = none.recovered,
        |to, none| to.blank = none.blank,
        |to, none| to.end_of_tape = none.end_of_tape,
        |to, none| to.only_header = none.only_header,
        |to, none| to.stopped = none.stopped,
        |to, none| to.report = none.report,
        |to, _| to.bad_below = Address(0),
    ];
    change
        .iter()
        .map(|change| {
            let mut milder = *hostility;
            change(&mut milder, &none);
            milder
        })
        .filter(|milder| milder != hostility)
        .collect()
}
