//! Random cartridges and chains on tapes that have no room for all, with much,
//! little or nothing kept for EOD.

use adr_model::check::ending::Ending;
use adr_model::check::shrink::{run_and_shrink, run_and_shrink_chain_on};
use adr_model::check::{Case, Chain, Model, Tally};
use adr_model::Fault;

/// In an unoptimised build only a few are run. Many more are run where the
/// layer is compared with the model, in package `adr-tape`.
const CARTRIDGES: u64 = if cfg!(debug_assertions) { 60 } else { 300 };
const CHAINS: u64 = CARTRIDGES / 3;
/// From this seed on few chains show every way to end.
const FIRST_CHAIN: u64 = 750;

fn told(run: Result<Tally, String>) -> Tally {
    run.unwrap_or_else(|wrong| panic!("{wrong}"))
}

#[test]
fn full_tapes_are_closed() {
    let mut tally = Tally::default();
    for seed in 0..CARTRIDGES {
        let case = Case::with_tail(seed, Fault::None);
        tally.add(&told(run_and_shrink(&case)));
    }
    println!("{tally:?}");
    let adding = [
        Ending::GivenUpAtFirst,
        Ending::FirstDelivered,
        Ending::Added,
        Ending::AddedBehindDelivered,
    ];
    let adding = adding.map(|ending| tally.endings.0[ending as usize]);
    assert_eq!(adding, [0; 4]);
    for seed in FIRST_CHAIN..FIRST_CHAIN + CHAINS {
        let chain = Chain::with_tail(seed, Fault::None);
        tally.add(&told(run_and_shrink_chain_on::<Model>(&chain)));
    }
    println!("{tally:?}");
    let few = cfg!(debug_assertions);
    assert!(few || tally.endings.0.iter().all(|count| *count > 1));
    assert!(tally.done > CARTRIDGES / 2);
}
