//! Random cartridges and chains for as long as wanted, as a program.

use std::process::ExitCode;
use std::time::{Duration, Instant};

use super::chain::run_behind_others_on;
use super::layer::Layer;
use super::shrink::{run_and_shrink_chain_on, run_and_shrink_on};
use super::{Case, Chain, Tally};
use crate::fault::Fault;

/// Runs random cartridges and chains on this layer, each also with the power cut
/// at every frame: the program `name SECONDS SEED`. A failing one is printed
/// shrunk.
pub fn run_for<L: Layer>(name: &str) -> ExitCode {
    let mut arguments = std::env::args().skip(1).map(|argument| argument.parse());
    let (Some(Ok(seconds)), Some(Ok(first)), None) =
        (arguments.next(), arguments.next(), arguments.next())
    else {
        eprintln!("usage: {name} SECONDS SEED");
        return ExitCode::from(2);
    };
    match run_seeds::<L>(Duration::from_secs(seconds), first) {
        Ok(told) => {
            println!("{told}");
            ExitCode::SUCCESS
        }
        Err(wrong) => {
            println!("{wrong}");
            ExitCode::FAILURE
        }
    }
}

fn run_seeds<L: Layer>(time: Duration, first: u64) -> Result<String, String> {
    let start = Instant::now();
    let mut tally = Tally::default();
    let mut cartridges = 0_u32;
    while start.elapsed() < time {
        let seed = first.wrapping_add((cartridges / 2).into());
        for case in [Case::of_seed, Case::with_tail] {
            let case = case(seed, Fault::None);
            tally.add(&run_and_shrink_on::<L>(&case)?);
            tally.add(&run_and_shrink_on::<L>(&case.with_cuts())?);
        }
        for chain in [Chain::of_seed, Chain::with_tail] {
            let chain = chain(seed, Fault::None);
            tally.add(&run_and_shrink_chain_on::<L>(&chain)?);
            let chain = chain.with_cuts();
            tally.add(&run_and_shrink_chain_on::<L>(&chain)?);
            let behind = run_behind_others_on::<L>(&chain);
            tally.add(&behind.map_err(|wrong| format!("seed {seed}, behind others: {wrong}"))?);
        }
        cartridges = cartridges.saturating_add(2);
    }
    let rate = f64::from(cartridges) / start.elapsed().as_secs_f64();
    Ok(format!(
        "{cartridges} cartridges and as many chains, each with power cuts too, {rate:.0} a second, {tally:?}"
    ))
}
