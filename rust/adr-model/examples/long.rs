//! Runs random cartridges and chains of recordings for a while, with the power
//! cut at every frame and without: `long SECONDS SEED`.

use std::process::ExitCode;

use adr_model::check::{longer::run_for, Model};

fn main() -> ExitCode {
    run_for::<Model>("long")
}
