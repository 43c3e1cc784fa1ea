//! Where a picture goes.

use std::fs::File;
use std::path::Path;

use crate::arguments::Arguments;
use crate::failure::Failure;
use crate::image::{is_image_file, refuse_itself};
use crate::output;
use crate::part::{self, require_overwrite, Part};
use crate::writer::{is_device, Writer};

/// Where a picture goes.
pub struct Destination<'a> {
    /// The image that is drawn, if there is one yet.
    image: Option<&'a Path>,
    file: &'a Path,
    overwrite: bool,
}

impl<'a> Destination<'a> {
    /// What `--svg` names, if it is given: a file, standard output for `-`, or
    /// a device or pipe. What may not be replaced is refused at once.
    pub fn asked_for(
        arguments: &'a Arguments,
        image: Option<&'a Path>,
    ) -> Result<Option<Destination<'a>>, Failure> {
        let Some(file) = arguments.value("--svg") else {
            return Ok(None);
        };
        let destination = Destination {
            image,
            file: Path::new(file),
            overwrite: arguments.has("--overwrite"),
        };
        if !destination.is_output() && !is_device(destination.file) {
            destination.require_replaceable()?;
        }
        Ok(Some(destination))
    }

    /// Writes the picture. A file gets its name when it is whole.
    pub fn write(&self, picture: &str) -> Result<(), Failure> {
        if self.is_output() {
            return output::plain(picture);
        }
        if is_device(self.file) {
            let mut writer = Writer::device(self.file)?;
            writer.write(picture.as_bytes())?;
            return writer.finish();
        }
        // It may have changed while the image was read.
        self.require_replaceable()?;
        let mut part = Part::begin(self.file, self.overwrite, part::MODE)?;
        part.write(picture.as_bytes())?;
        part.end(self.overwrite)
    }

    fn is_output(&self) -> bool {
        self.file.as_os_str() == "-"
    }

    /// Refuses what is worth more than a picture, asked for or not: words in
    /// another order than meant make an image the picture's file.
    fn require_replaceable(&self) -> Result<(), Failure> {
        let Ok(metadata) = self.file.symlink_metadata() else {
            return Ok(());
        };
        if let Some(image) = self.image {
            refuse_itself(image, self.file)?;
        }
        let why = if metadata.is_symlink() {
            "is a link"
        } else if !metadata.is_file() {
            "is not a regular file"
        } else if self.holds_an_image()? {
            "is a cartridge image"
        } else {
            return require_overwrite(self.file, self.overwrite);
        };
        Err(Failure::new(format!(
            "{}: {why}; it is left alone: give another name",
            self.file.display()
        )))
    }

    fn holds_an_image(&self) -> Result<bool, Failure> {
        let file = File::open(self.file);
        let file = file.map_err(|error| Failure::of_file(self.file, &error))?;
        Ok(is_image_file(&file))
    }
}
