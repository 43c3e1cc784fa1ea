//! Compares the layer with the model on random cartridges and on chains of
//! recordings for a while: `compare SECONDS SEED`.

#[path = "../tests/compared/mod.rs"]
mod compared;

use std::process::ExitCode;

use adr_model::check::longer::run_for;
use compared::Compared;

fn main() -> ExitCode {
    run_for::<Compared>("compare")
}
