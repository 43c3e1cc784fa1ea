//! The power cut at every frame: the layer beside the model, on cartridges and
//! on recordings added to them, with what a cut left among these.

mod compared;

use adr_model::check::chain::{run_behind_others_on, run_chain_on};
use adr_model::check::power_cut::Cut;
use adr_model::check::shrink::{run_and_shrink_chain_on, run_and_shrink_on};
use adr_model::check::{Case, Chain, Tally};
use adr_model::fault::PLANTED_IN_CUTS;
use adr_model::Fault;
use compared::Compared;

/// In an unoptimised build only a few are run.
const CARTRIDGES: u64 = if cfg!(debug_assertions) { 20 } else { 500 };
/// The seeds within which each planted fault must be found.
const SEEDS: u64 = 50;

/// Adds what was counted; each of these came about often.
fn counted(runs: impl Iterator<Item = Result<Tally, String>>, often: &[Cut]) {
    let mut tally = Tally::default();
    for run in runs {
        tally.add(&run.unwrap_or_else(|wrong| panic!("{wrong}")));
    }
    println!("{:?}", tally.cuts);
    for cut in often {
        assert!(tally.cuts[*cut as usize] > CARTRIDGES / 4, "{cut:?}");
    }
}

#[test]
fn cartridges() {
    let cases = (0..CARTRIDGES).flat_map(|seed| {
        let cases = [Case::of_seed, Case::with_tail];
        cases.map(|case| run_and_shrink_on::<Compared>(&case(seed, Fault::None).with_cuts()))
    });
    counted(cases, &[Cut::BeforeNewer, Cut::Called, Cut::FreshBehind]);
}

#[test]
fn chains() {
    let chains = (0..CARTRIDGES).flat_map(|seed| {
        let chains = [Chain::of_seed, Chain::with_tail];
        chains
            .map(|chain| run_and_shrink_chain_on::<Compared>(&chain(seed, Fault::None).with_cuts()))
    });
    let often = [Cut::Called, Cut::FreshBehind, Cut::AddedBehind];
    counted(chains, &often);
}

/// Added to what another program closed.
#[test]
fn behind_others() {
    let chains = (0..CARTRIDGES / 2).map(|seed| {
        let chain = Chain::of_seed(seed, Fault::None).with_cuts();
        let run = run_behind_others_on::<Compared>(&chain);
        run.map_err(|wrong| format!("seed {seed}: {wrong}"))
    });
    counted(chains, &[Cut::ReadToOldEnd, Cut::Called]);
}

/// A fault planted in the model makes it differ from the layer.
#[test]
fn planted_faults_are_found() {
    for fault in PLANTED_IN_CUTS {
        let mut chains = (0..SEEDS).map(|seed| Chain::of_seed(seed, fault).with_cuts());
        assert!(
            chains.any(|chain| run_chain_on::<Compared>(&chain).is_err()),
            "{fault:?} was not found"
        );
    }
}
