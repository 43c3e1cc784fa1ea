//! `adr format`: makes an empty cartridge.

use adr_tape::{Geometry, LoadPoint};

use crate::arguments::{Arguments, Options};
use crate::failure::Failure;
use crate::image;

/// The options of `format`.
pub const OPTIONS: Options = Options {
    valued: &["--segtrk", "--trks"],
    plain: &["--centre", "--overwrite"],
};

const SEGTRK: u32 = 19_239;
const TRKS: u32 = 24;

/// Runs the command.
pub fn run(arguments: &Arguments) -> Result<(), Failure> {
    let path = arguments.only_image()?;
    let geometry = Geometry {
        segtrk: arguments.number("--segtrk")?.unwrap_or(SEGTRK),
        trks: arguments.number("--trks")?.unwrap_or(TRKS),
        load: if arguments.has("--centre") {
            LoadPoint::Centre
        } else {
            LoadPoint::Beginning
        },
    };
    geometry.last().map_err(Failure::usage)?;
    image::format(path, geometry, arguments.has("--overwrite"))
}
