//! Random chains: recordings added to a cartridge, read back after each.

use adr_model::check::chain::run_astray_on;
use adr_model::check::shrink::run_and_shrink_chain_on;
use adr_model::check::{Chain, Model, Tally};
use adr_model::Fault;

/// In an unoptimised build only a few are run. Many more are run where the
/// layer is compared with the model, in package `adr-tape`.
const CHAINS: u64 = if cfg!(debug_assertions) { 60 } else { 300 };

#[test]
fn chains_read_back_as_accepted() {
    let mut tally = Tally::default();
    for seed in 0..CHAINS {
        match run_and_shrink_chain_on::<Model>(&Chain::of_seed(seed, Fault::None)) {
            Ok(more) => tally.add(&more),
            Err(wrong) => panic!("{wrong}"),
        }
    }
    println!("{tally:?}");
    assert!(tally.done > CHAINS);
    assert!(tally.added.iter().all(|count| *count > CHAINS / 20));
    assert!(tally.delivered > CHAINS * 10);
    assert!(tally.undelivered > CHAINS);
    assert!(tally.crossed > CHAINS / 20);
    assert!(tally.reached.iter().all(|count| *count > CHAINS / 20));
    assert!(tally.deeds.iter().all(|count| *count > CHAINS / 100));
}

/// Added to another cartridge than the one read, a recording still writes
/// header addresses and user frames only.
#[test]
fn added_to_another_cartridge() {
    let mut added = 0;
    for seed in 0..CHAINS / 3 {
        let astray = run_astray_on::<Model>(&Chain::of_seed(seed, Fault::None));
        added += u64::from(astray.unwrap_or_else(|wrong| panic!("seed {seed}: {wrong}")));
    }
    assert!(added > CHAINS / 6, "{added}");
}
