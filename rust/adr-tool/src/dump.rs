//! `adr dump`: the AUX fields that a shelf sheet is made from.

use std::io::IsTerminal;

use crate::arguments::{Arguments, Options};
use crate::cartridge::Cartridge;
use crate::failure::Failure;
use crate::image::Access;
use crate::output;
use crate::progress::Progress;
use crate::record::DEPTH;
use crate::sheet;
use crate::writer::Writer;

/// The options of `dump` are those of `sheet`.
pub const OPTIONS: Options = sheet::OPTIONS;

/// Runs the command.
pub fn run(arguments: &Arguments) -> Result<(), Failure> {
    let path = arguments.only_image()?;
    let seed = arguments.number("--faults")?;
    if std::io::stdout().is_terminal() {
        return Err(Failure::usage(
            "a dump's bytes are not for a terminal: redirect them, or use 'adr sheet'",
        ));
    }
    output::require_open()?;
    let mut cartridge = Cartridge::load(path, Access::Read, DEPTH, seed)?;
    let mut progress = Progress::new("reading", arguments.has("--quiet"));
    let mut writer = Writer::Output;
    let read = cartridge.read_fields(|aux| writer.write(aux), &mut progress);
    // What came before a failure is handed on all the same.
    let finished = writer.finish();
    read.and(finished)
}
