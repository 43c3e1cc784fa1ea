//! The power cut at every frame of random cartridges and chains, and planted
//! faults that it brings to light.

use adr_model::check::chain::{run_behind_others_on, run_chain, run_chain_demand_only};
use adr_model::check::power_cut::Cut;
use adr_model::check::shrink::{run_and_shrink, run_and_shrink_chain_on, shrink_chain_on};
use adr_model::check::{Case, Chain, Model, Tally};
use adr_model::fault::PLANTED_IN_CUTS;
use adr_model::Fault;

/// In an unoptimised build only a few are run.
const CHAINS: u64 = if cfg!(debug_assertions) { 20 } else { 1_200 };
/// The seeds within which each planted fault must be found.
const SEEDS: u64 = 60;
/// The LAST up to which a tape is read that a fault left without an end.
const FAR: u32 = 20_000;
/// What every wrong tells that a cut brought to light.
const CUT: &str = "power cut at";

/// Adds what was counted; each kind must have come about.
fn counted(runs: impl Iterator<Item = Result<Tally, String>>, seldom: &[Cut]) {
    let mut tally = Tally::default();
    for run in runs {
        tally.add(&run.unwrap_or_else(|wrong| panic!("{wrong}")));
    }
    println!("{:?}", tally.cuts);
    for (kind, count) in tally.cuts.iter().enumerate() {
        let seldom = seldom.iter().any(|cut| *cut as usize == kind);
        assert_eq!(*count < CHAINS / 10, seldom, "{kind}: {count}");
    }
}

#[test]
fn recordings_of_their_own() {
    let cases = (0..CHAINS).flat_map(|seed| {
        let cases = [Case::of_seed, Case::with_tail];
        cases.map(|case| run_and_shrink(&case(seed, Fault::None).with_cuts()))
    });
    // Nothing is added, so there is no old end.
    counted(cases, &[Cut::ReadToOldEnd, Cut::AddedBehind]);
}

#[test]
fn recordings_that_add() {
    let chains = (0..CHAINS).flat_map(|seed| {
        let chains = [Chain::of_seed, Chain::with_tail];
        chains.map(|chain| run_and_shrink_chain_on::<Model>(&chain(seed, Fault::None).with_cuts()))
    });
    counted(chains, &[]);
}

/// Added to cartridges on which other programs left frames of the same pass that
/// are passed over, EODs among them.
#[test]
fn recordings_behind_those_of_others() {
    let chains = (0..CHAINS / 2).flat_map(|seed| {
        let chains = [Chain::of_seed, Chain::with_tail];
        chains.map(|chain| {
            let chain = chain(seed, Fault::None).with_cuts();
            let run = run_behind_others_on::<Model>(&chain);
            run.map_err(|wrong| format!("seed {seed}: {wrong}"))
        })
    });
    counted(chains, &[]);
}

/// The chains in which a fault is looked for.
fn chains_with(fault: Fault) -> impl Iterator<Item = Chain> {
    let chains = (0..SEEDS).map(move |seed| Chain::of_seed(seed, fault));
    chains.filter(|chain| chain.case.geometry.last().is_some_and(|last| last.0 <= FAR))
}

/// What cuts alone bring to light: nothing else is looked at before them but
/// the addresses written.
fn found_by_cuts(fault: Fault) -> Vec<String> {
    let runs = chains_with(fault).map(|chain| run_chain_demand_only(&chain.with_cuts()));
    let wrongs = runs.filter_map(Result::err);
    wrongs.filter(|wrong| wrong.contains(CUT)).collect()
}

/// A cut brings each of them to light. What a recording comes to that reports
/// done shows one of them only; the frames or commands sent show each.
#[test]
fn planted_faults_are_found() {
    for fault in PLANTED_IN_CUTS {
        let found = found_by_cuts(fault);
        println!("{fault:?}: {} found", found.len());
        assert!(!found.is_empty(), "{fault:?} was not found");
        let demand = chains_with(fault).any(|chain| run_chain_demand_only(&chain).is_err());
        assert_eq!(demand, fault == Fault::ClosedBeforeEod, "{fault:?}");
        assert!(chains_with(fault).any(|chain| run_chain(&chain).is_err()));
    }
    assert_eq!(found_by_cuts(Fault::None), Vec::<String>::new());
}

/// How each shows. An opening header that names the old EOD, and a closing one
/// without an EOD on tape, lose nothing that a cut must leave: they show in that
/// the header names an end which is none; a closing one that counts as high as
/// the opening ones, in that these are as new.
#[test]
fn what_shows_them() {
    for (fault, shown) in [
        (Fault::OldEodNamed, "the EOD named is not the end"),
        (Fault::ClosedBeforeEod, "the EOD named is not the end"),
        (Fault::UpdateCountKept, "another header counts as high"),
        (
            Fault::ElementsBeforeHeaders,
            "altered before a newer header",
        ),
        (
            Fault::FreshCountNotRaised,
            "is another header, but no newer",
        ),
        (Fault::CountNotRaised, "is another header, but no newer"),
        (Fault::OldEndNotNamed, "another end"),
        (Fault::WindowReusedEarly, "was not due"),
    ] {
        let found = found_by_cuts(fault);
        let shows = found.iter().any(|wrong| wrong.contains(shown));
        assert!(shows, "{fault:?}: {found:?}");
    }
}

#[test]
fn a_failing_chain_is_shrunk() {
    let fault = Fault::ElementsBeforeHeaders;
    let mut chains = chains_with(fault).map(Chain::with_cuts);
    let chain = chains.find(|chain| run_chain(chain).is_err());
    let chain = chain.unwrap_or_else(|| panic!("{fault:?} was not found"));
    let small = shrink_chain_on::<Model>(&chain);
    assert!(small.case.cuts && run_chain(&small).is_err());
    assert!(small.case.recordings.iter().map(Vec::len).sum::<usize>() < 10);
}
