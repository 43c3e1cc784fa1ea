//! `adr map`: a picture of a cartridge.

mod aux_drive;
mod counts;
mod destination;
mod layout;
mod looking;
mod spots;
mod svg;
mod words;

use std::path::Path;

use crate::arguments::{Arguments, Options};
use crate::failure::Failure;
use crate::image::{Access, Image};
use crate::output;
use layout::Rows;
use spots::Spots;

pub use destination::Destination;

/// The options of `map`.
pub const OPTIONS: Options = Options {
    valued: &["--svg"],
    plain: &["--overwrite", "--quiet"],
};

/// Runs the command.
pub fn run(arguments: &Arguments) -> Result<(), Failure> {
    let path = arguments.only_image()?;
    let destination = Destination::asked_for(arguments, Some(path))?;
    let map = Map::of(path, arguments.has("--quiet"))?;
    match destination {
        None => output::plain(&map.text())?,
        Some(destination) => destination.write(&map.picture())?,
    }
    map.require_whole(path)
}

/// The map of a cartridge.
pub struct Map {
    spots: Spots,
    rows: Rows,
}

impl Map {
    /// The map of an image.
    pub fn of(path: &Path, quiet: bool) -> Result<Map, Failure> {
        let mut image = Image::open(path, Access::Read)?;
        let spots = looking::look_at(&mut image, quiet)?;
        let rows = layout::rows(&spots);
        Ok(Map { spots, rows })
    }

    /// The map as text.
    pub fn text(&self) -> String {
        words::draw(&self.spots, &self.rows)
    }

    /// The map as a picture.
    pub fn picture(&self) -> String {
        svg::draw(&self.spots, &self.rows)
    }

    /// Tells what is wrong with the cartridge; it failed if anything is.
    fn require_whole(&self, path: &Path) -> Result<(), Failure> {
        let wrong = words::wrong(&self.spots);
        if wrong.is_empty() {
            return Ok(());
        }
        Err(Failure::new(format!(
            "{}: {}: 'adr check' tells more",
            path.display(),
            wrong.join("; ")
        )))
    }
}
