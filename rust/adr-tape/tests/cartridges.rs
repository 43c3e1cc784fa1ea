//! Whole cartridges: the layer beside the model on the simulated drive, each
//! recording read back.

mod compared;

use adr_model::check::shrink::{run_and_shrink_on, shrink_on};
use adr_model::check::{run_on, Call, Case, Setup, Tally};
use adr_model::fault::{PLANTED, PLANTED_IN_TAIL};
use adr_model::hostility::Hostility;
use adr_model::{Fault, Geometry};
use compared::Compared;

/// In an unoptimised build only a few are run.
const CARTRIDGES: u64 = if cfg!(debug_assertions) { 200 } else { 20_000 };
/// Those besides on which a tail is kept.
const WITH_TAIL: u64 = CARTRIDGES / 20;
/// The seeds within which each planted fault must be found.
const SEEDS: u64 = 100;

fn run(case: &Case) -> Tally {
    run_and_shrink_on::<Compared>(case).unwrap_or_else(|wrong| panic!("{wrong}"))
}

fn read_back_as_recorded(seeds: impl Iterator<Item = u64>) {
    let mut tally = Tally::default();
    for seed in seeds {
        tally.add(&run(&Case::of_seed(seed, Fault::None)));
    }
    println!("{tally:?}");
    let half = CARTRIDGES / 2;
    assert!(tally.done > half / 2);
    assert!(tally.delivered > half * 5);
    assert!(tally.undelivered > half);
    assert!(tally.crossed > half / 20);
    assert!(tally.refused.iter().all(|count| *count > 0));
    assert!(tally.reached.iter().all(|count| *count > half / 100));
    assert!(tally.deeds.iter().all(|count| *count > half / 100));
}

/// Two tests, so that two processors share them.
#[test]
fn cartridges_of_even_seeds() {
    read_back_as_recorded((0..CARTRIDGES).step_by(2));
}

#[test]
fn cartridges_of_odd_seeds() {
    read_back_as_recorded((1..CARTRIDGES).step_by(2));
}

/// Tapes that have no room for all, and are closed where they are full.
#[test]
fn full_cartridges() {
    let mut tally = Tally::default();
    for seed in 0..WITH_TAIL {
        tally.add(&run(&Case::with_tail(seed, Fault::None)));
    }
    println!("{tally:?}");
    assert!(tally.done > WITH_TAIL / 2);
    assert!(tally.delivered > WITH_TAIL);
}

/// A case in which more elements are accepted than window and drive hold.
fn filling_case(depth: u32, window_blocks: u32, elements: u16) -> Case {
    let mut calls = vec![Call::Exchange; 30];
    for number in 0..elements {
        let filemark = number % 5 == 3;
        let element = if filemark {
            Call::Filemark
        } else {
            Call::Block(number)
        };
        calls.extend([element, Call::Exchange]);
        if number % 7 == 0 {
            calls.extend([Call::Exchange; 6]);
        }
    }
    Case {
        seed: u64::from(depth) * 1_000 + u64::from(window_blocks),
        geometry: Geometry::beginning(3_001, 1),
        depth,
        setup: Setup::of(window_blocks, 0),
        gives_up: true,
        cuts: false,
        stale: 3,
        headers: 3,
        hostility: Hostility {
            progress: 200,
            failure: 20,
            skip: 5,
            busy: 20,
            blank: 1_000,
            ..Hostility::NONE
        },
        recordings: vec![calls],
        fault: Fault::None,
    }
}

#[test]
fn every_depth_and_every_window() {
    let step = if cfg!(debug_assertions) { 16 } else { 1 };
    for depth in (1..=255).step_by(step) {
        assert!(run(&filling_case(depth, 1 + depth % 8, 40)).recordings == 1);
    }
    for window_blocks in (1..=64).step_by(step) {
        let case = filling_case(1 + window_blocks * 3, window_blocks, 80);
        assert!(run(&case).recordings == 1);
    }
}

#[test]
fn the_smallest_cartridge_is_filled() {
    for (elements, done, full) in [(2_980, 1, 0), (2_981, 0, 1)] {
        let mut case = filling_case(1, 8, elements);
        case.hostility = Hostility {
            progress: 1_000,
            ..Hostility::NONE
        };
        let calls = &mut case.recordings[0];
        *calls = calls
            .iter()
            .flat_map(|call| [*call, Call::Exchange])
            .collect();
        let tally = run(&case);
        assert_eq!((tally.done, tally.refused), (done, [0, full, 0]));
        assert_eq!(tally.crossed, 1);
    }
}

/// A fault planted in the model makes it differ from the layer.
#[test]
fn planted_faults_are_found() {
    let is_found = |case: fn(u64, Fault) -> Case, fault| {
        let mut cases = (0..SEEDS).map(|seed| case(seed, fault));
        let found = cases.any(|case| run_on::<Compared>(&case).is_err());
        assert!(found, "{fault:?} was not found");
    };
    for fault in PLANTED {
        is_found(Case::of_seed, fault);
    }
    for fault in PLANTED_IN_TAIL {
        is_found(Case::with_tail, fault);
    }
}

/// A difference is told with its seed and a shorter list of calls.
#[test]
fn a_difference_is_shrunk() {
    let cases = (0..SEEDS).map(|seed| Case::of_seed(seed, Fault::BusyTaken));
    let case = cases
        .into_iter()
        .find(|case| run_on::<Compared>(case).is_err());
    let case = case.expect("the fault is found");
    let told = run_and_shrink_on::<Compared>(&case).expect_err("it fails again");
    assert!(told.starts_with(&format!("seed {}: ", case.seed)));
    let small = shrink_on::<Compared>(&case);
    let calls = |case: &Case| case.recordings.iter().map(Vec::len).sum::<usize>();
    assert!(calls(&small) <= calls(&case).min(30), "{told}");
    assert!(told.ends_with(&format!("{small:?}")));
}
