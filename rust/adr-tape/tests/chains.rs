//! Recordings added to a cartridge: the layer beside the model on the
//! simulated drive, the whole cartridge read back after each.

mod compared;

use adr_model::check::chain::{run_astray_on, run_chain_on};
use adr_model::check::shrink::run_and_shrink_chain_on;
use adr_model::check::{Chain, Tally};
use adr_model::fault::PLANTED_IN_ADDING;
use adr_model::Fault;
use compared::Compared;

/// In an unoptimised build only a few are run.
const CHAINS: u64 = if cfg!(debug_assertions) { 80 } else { 1_000 };
/// From this seed on few chains on full tapes show every way to end.
const FIRST_FULL: u64 = 750;
/// The seeds within which each planted fault must be found.
const SEEDS: u64 = 50;

fn read_back_as_accepted(seeds: impl Iterator<Item = u64>) {
    let mut tally = Tally::default();
    for seed in seeds {
        match run_and_shrink_chain_on::<Compared>(&Chain::of_seed(seed, Fault::None)) {
            Ok(more) => tally.add(&more),
            Err(wrong) => panic!("{wrong}"),
        }
    }
    println!("{tally:?}");
    let half = CHAINS / 2;
    assert!(tally.done > half);
    assert!(tally.added.iter().all(|count| *count > half / 20));
    assert!(tally.delivered > half * 5);
    assert!(tally.undelivered > half);
    assert!(tally.crossed > half / 20);
    assert!(tally.reached.iter().all(|count| *count > half / 20));
    assert!(tally.deeds.iter().all(|count| *count > half / 100));
}

/// Two tests, so that two processors share them.
#[test]
fn chains_of_even_seeds() {
    read_back_as_accepted((0..CHAINS).step_by(2));
}

#[test]
fn chains_of_odd_seeds() {
    read_back_as_accepted((1..CHAINS).step_by(2));
}

/// Recordings that are given up where the tape is full, and added to.
#[test]
fn full_chains() {
    let mut tally = Tally::default();
    for seed in FIRST_FULL..FIRST_FULL + CHAINS / 8 {
        match run_and_shrink_chain_on::<Compared>(&Chain::with_tail(seed, Fault::None)) {
            Ok(more) => tally.add(&more),
            Err(wrong) => panic!("{wrong}"),
        }
    }
    println!("{tally:?}");
    let few = cfg!(debug_assertions);
    assert!(few || tally.endings.0.iter().all(|count| *count > 0));
}

/// Added to another cartridge than the one read, the layer still writes
/// header addresses and user frames only.
#[test]
fn added_to_another_cartridge() {
    let mut added = 0;
    for seed in 0..CHAINS / 10 {
        let astray = run_astray_on::<Compared>(&Chain::of_seed(seed, Fault::None));
        added += u64::from(astray.unwrap_or_else(|wrong| panic!("seed {seed}: {wrong}")));
    }
    assert!(added > CHAINS / 20, "{added}");
}

/// A fault planted in the model makes it differ from the layer.
#[test]
fn planted_faults_are_found() {
    for fault in PLANTED_IN_ADDING {
        let mut chains = (0..SEEDS).map(|seed| Chain::of_seed(seed, fault));
        assert!(
            chains.any(|chain| run_chain_on::<Compared>(&chain).is_err()),
            "{fault:?} was not found"
        );
    }
}
