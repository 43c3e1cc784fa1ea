//! Random cartridges recorded and read back.

use adr_model::check::{shrink::run_and_shrink, Call, Case, Setup, Tally};
use adr_model::hostility::Hostility;
use adr_model::{Fault, Geometry};

/// In an unoptimised build only a few are run. Many more are run where the
/// layer is compared with the model, in package `adr-tape`.
const CARTRIDGES: u64 = if cfg!(debug_assertions) { 300 } else { 3_000 };

#[test]
fn cartridges_read_back_as_recorded() {
    let mut tally = Tally::default();
    for seed in 0..CARTRIDGES {
        match run_and_shrink(&Case::of_seed(seed, Fault::None)) {
            Ok(more) => tally.add(&more),
            Err(wrong) => panic!("{wrong}"),
        }
    }
    println!("{tally:?}");
    assert!(tally.done > CARTRIDGES / 2);
    assert!(tally.delivered > CARTRIDGES * 5);
    assert!(tally.undelivered > CARTRIDGES);
    assert!(tally.crossed > CARTRIDGES / 20);
    assert!(tally.refused.iter().all(|count| *count > 0));
    assert!(tally.reached.iter().all(|count| *count > CARTRIDGES / 100));
    assert!(tally.deeds.iter().all(|count| *count > CARTRIDGES / 100));
}

/// A case without hostility whose calls accept so many elements, each behind
/// the other.
fn long_case(elements: u16) -> Case {
    let mut calls = vec![Call::Exchange; 30];
    for number in 0..elements {
        let filemark = number % 100 == 99;
        calls.push(if filemark {
            Call::Filemark
        } else {
            Call::Block(number)
        });
        calls.extend([Call::Exchange; 2]);
    }
    Case {
        seed: 1,
        geometry: Geometry::beginning(3_001, 1),
        depth: 1,
        setup: Setup::of(8, 0),
        gives_up: true,
        cuts: false,
        stale: 0,
        headers: 0,
        hostility: Hostility {
            progress: 1_000,
            ..Hostility::NONE
        },
        recordings: vec![calls],
        fault: Fault::None,
    }
}

#[test]
fn the_smallest_cartridge_is_filled() {
    let fits = run_and_shrink(&long_case(2_980));
    let fits = fits.unwrap_or_else(|wrong| panic!("{wrong}"));
    assert_eq!((fits.done, fits.delivered, fits.crossed), (1, 2_980, 1));
    let full = run_and_shrink(&long_case(2_981));
    let full = full.unwrap_or_else(|wrong| panic!("{wrong}"));
    assert_eq!((full.done, full.refused), (0, [0, 1, 0]));
}
