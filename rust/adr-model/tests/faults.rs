//! Every planted fault is found, and the sound model has none.

use adr_model::check::chain::{
    run_chain, run_chain_demand_and_frames, run_chain_demand_and_tape, run_chain_demand_only,
};
use adr_model::check::shrink::{shrink, shrink_chain_on};
use adr_model::check::{run, run_demand_only, Case, Chain, Model, Tally};
use adr_model::fault::{PLANTED, PLANTED_IN_ADDING, PLANTED_IN_TAIL};
use adr_model::Fault;

/// The seeds within which each planted fault must be found.
const SEEDS: u64 = 100;
/// The same of chains, which take longer.
const CHAINS: u64 = 40;
/// Those among these that must show a fault that one look alone finds.
const SEVERAL: usize = 4;

#[test]
fn planted_faults_are_found() {
    for fault in PLANTED {
        let found = (0..SEEDS).find(|seed| run(&Case::of_seed(*seed, fault)).is_err());
        let seed = found.unwrap_or_else(|| panic!("{fault:?} was not found"));
        println!("{fault:?}: seed {seed}");
        assert!(run(&Case::of_seed(seed, Fault::None)).is_ok());
    }
}

/// The demand alone finds all but four: no reading looks at what a frame names
/// of filemarks, or at how often it was sent.
#[test]
fn the_demand_alone_finds_them() {
    for fault in PLANTED {
        let found = (0..SEEDS).find(|seed| run_demand_only(&Case::of_seed(*seed, fault)).is_err());
        let unseen = matches!(
            fault,
            Fault::OldMarkerAddress
                | Fault::FilemarkCountStuck
                | Fault::ElementAboveDepth
                | Fault::HeaderAboveDepth
        );
        assert_eq!(found.is_none(), unseen, "{fault:?}");
    }
    for seed in 0..SEEDS {
        let run = run_demand_only(&Case::of_seed(seed, Fault::None));
        assert!(run.is_ok(), "seed {seed}: {run:?}");
    }
}

/// The count of frames shows in several cartridges and chains that more than D
/// are outstanding, and nothing else shows it.
#[test]
fn the_counts_show_one_too_many_outstanding() {
    for (fault, frames) in [
        (Fault::ElementAboveDepth, "of elements and EOD, but at most"),
        (Fault::HeaderAboveDepth, "of headers, but at most"),
    ] {
        let cases = (0..SEEDS).map(|seed| run(&Case::of_seed(seed, fault)));
        let chains = (0..CHAINS).map(|seed| run_chain(&Chain::of_seed(seed, fault)));
        for found in [wrongs(cases), wrongs(chains)] {
            println!("{fault:?}: {} found", found.len());
            assert!(found.len() >= SEVERAL, "{fault:?}: {found:?}");
            assert!(
                found.iter().all(|wrong| wrong.contains(frames)),
                "{found:?}"
            );
        }
    }
}

fn wrongs(runs: impl Iterator<Item = Result<Tally, String>>) -> Vec<String> {
    runs.filter_map(Result::err).collect()
}

#[test]
fn a_failing_case_is_shrunk() {
    for fault in [Fault::OldMarkerAddress, Fault::EodBeforeLastElement] {
        let failing = (0..SEEDS).map(|seed| Case::of_seed(seed, fault));
        let Some(case) = failing.into_iter().find(|case| run(case).is_err()) else {
            panic!("{fault:?} was not found");
        };
        let small = shrink(&case);
        assert!(run(&small).is_err());
        let calls = |case: &Case| case.recordings.iter().map(Vec::len).sum::<usize>();
        assert!(calls(&small) <= calls(&case).min(30), "{small:?}");
    }
}

#[test]
fn faults_in_adding_are_found() {
    for fault in PLANTED_IN_ADDING {
        let found = (0..CHAINS).find(|seed| run_chain(&Chain::of_seed(*seed, fault)).is_err());
        let seed = found.unwrap_or_else(|| panic!("{fault:?} was not found"));
        println!("{fault:?}: seed {seed}");
        assert!(run_chain(&Chain::of_seed(seed, Fault::None)).is_ok());
        // Recordings of their own show only the fault of a reading.
        let alone = fault == Fault::EarlierEndTaken || run(&Case::of_seed(seed, fault)).is_ok();
        assert!(alone, "{fault:?}");
    }
}

#[test]
fn faults_in_the_tail_are_found() {
    for fault in PLANTED_IN_TAIL {
        let found = (0..SEEDS).find(|seed| run(&Case::with_tail(*seed, fault)).is_err());
        let seed = found.unwrap_or_else(|| panic!("{fault:?} was not found"));
        println!("{fault:?}: seed {seed}");
        assert!(run(&Case::with_tail(seed, Fault::None)).is_ok());
        // Where nothing is kept there is nothing to give up.
        let alone = fault == Fault::SpentWithoutTail || run(&Case::of_seed(seed, fault)).is_ok();
        assert!(alone, "{fault:?}");
    }
}

/// The demand alone finds those that put EOD where a reading does not end
/// behind what was on tape. The others give up too early or too late.
#[test]
fn the_demand_alone_finds_faults_in_the_tail() {
    for fault in PLANTED_IN_TAIL {
        let mut cases = (0..SEEDS).map(|seed| Case::with_tail(seed, fault));
        let found = cases.any(|case| run_demand_only(&case).is_err());
        let seen = matches!(fault, Fault::EodBehindGivenUp | Fault::StaleTarget);
        assert_eq!(found, seen, "{fault:?}");
    }
    let tape = |fault| {
        let mut chains = (0..CHAINS).map(|seed| Chain::with_tail(seed, fault));
        chains.any(|chain| run_chain_demand_and_tape(&chain).is_err())
    };
    assert!(tape(Fault::ElementsUpToEnd));
    assert!(!tape(Fault::None));
}

/// The demand alone finds those that a reading meets after a recording that
/// reported done: its closing headers are the newest whatever the opening ones
/// said, and no reading looks at what a frame names of filemarks.
#[test]
fn the_demand_alone_finds_faults_in_adding() {
    for fault in PLANTED_IN_ADDING {
        let mut chains = (0..CHAINS).map(|seed| Chain::of_seed(seed, fault));
        let found = chains.any(|chain| run_chain_demand_only(&chain).is_err());
        let seen = matches!(fault, Fault::NumberRestarted | Fault::EarlierEndTaken);
        assert_eq!(found, seen, "{fault:?}");
    }
}

/// What the frames name of filemarks shows the faults that nothing else shows,
/// in several chains each: as they are sent, and on tape.
#[test]
fn the_frames_show_a_wrong_trail() {
    for look in [run_chain_demand_and_frames, run_chain_demand_and_tape] {
        for fault in [
            Fault::OldMarkerAddress,
            Fault::FilemarkCountStuck,
            Fault::TrailRestarted,
        ] {
            let wrong = |seed: &u64| look(&Chain::of_seed(*seed, fault)).is_err();
            let found: Vec<u64> = (0..CHAINS).filter(wrong).take(SEVERAL).collect();
            println!("{fault:?}: seeds {found:?}");
            assert_eq!(found.len(), SEVERAL, "{fault:?}: seeds {found:?}");
        }
        for seed in 0..CHAINS {
            let run = look(&Chain::of_seed(seed, Fault::None));
            assert!(run.is_ok(), "seed {seed}: {run:?}");
        }
    }
}

#[test]
fn a_failing_chain_is_shrunk() {
    let mut chains = (0..CHAINS).map(|seed| Chain::of_seed(seed, Fault::EarlierEndTaken));
    let Some(chain) = chains.find(|chain| run_chain(chain).is_err()) else {
        panic!("the fault was not found");
    };
    let small = shrink_chain_on::<Model>(&chain);
    assert!(run_chain(&small).is_err());
    assert!(small.case.recordings.len() <= 2, "{small:?}");
    assert!(small.case.recordings.iter().map(Vec::len).sum::<usize>() < 10);
}
