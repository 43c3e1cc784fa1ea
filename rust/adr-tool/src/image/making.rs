//! Making an image of an empty cartridge.

use std::fs::{File, Permissions};
use std::io::{self, Write};
use std::path::Path;

use adr_tape::Geometry;

use super::file::{lock, open_regular, Access};
use super::layout::{self, Root};
use crate::checksum::checksum;
use crate::failure::Failure;
use crate::part::{self, Part};

/// Makes a file that is an empty cartridge.
///
/// The file gets its name when it is whole, and the mode of one that it
/// replaces.
pub fn format(path: &Path, geometry: Geometry, overwrite: bool) -> Result<(), Failure> {
    let replaced = look_at_present_file(path, overwrite)?;
    let permissions = replaced.as_ref().map(|(_, permissions)| permissions);
    let made = make(path, geometry, permissions.cloned());
    made.map_err(|error| match error.kind() {
        io::ErrorKind::AlreadyExists => came_up(path),
        _ => Failure::of_file(path, &error),
    })
}

fn make(path: &Path, geometry: Geometry, permissions: Option<Permissions>) -> io::Result<()> {
    let target = std::fs::canonicalize(path).unwrap_or_else(|_| path.to_path_buf());
    let mut part = Part::create(&target, part::MODE)?;
    let replace = permissions.is_some();
    if let Some(permissions) = permissions {
        part.file().set_permissions(permissions)?;
    }
    write_empty(part.file(), geometry)?;
    part.finish(replace)
}

fn came_up(path: &Path) -> Failure {
    Failure::new(format!(
        "{}: exists by now, or is a link to nothing; it is left alone: give another name",
        path.display()
    ))
}

/// Refuses to replace what may be of value, and locks what is replaced.
fn look_at_present_file(
    path: &Path,
    overwrite: bool,
) -> Result<Option<(File, Permissions)>, Failure> {
    let shown = path.display();
    let (file, metadata) = match open_regular(path, Access::Read) {
        Err(error) if error.kind() == io::ErrorKind::NotFound => return Ok(None),
        other => other.map_err(|error| Failure::of_file(path, &error))?,
    };
    if metadata.len() == 0 {
        return Ok(Some((file, metadata.permissions())));
    }
    if !layout::is_image_file(&file) {
        return Err(Failure::new(format!(
            "{shown}: exists and is no cartridge image; it is left alone: give another name"
        )));
    }
    if !overwrite {
        return Err(Failure::new(format!(
            "{shown}: exists; 'adr format --overwrite' replaces it and all it holds"
        )));
    }
    lock(&file, path, Access::Record)?;
    Ok(Some((file, metadata.permissions())))
}

fn write_empty(file: &mut File, geometry: Geometry) -> io::Result<()> {
    file.write_all(&layout::head_page(geometry))?;
    for generation in [1, 2] {
        let root = Root {
            generation,
            cells: 0,
            index: 0,
            entries: 0,
            sum: checksum(&[]),
        };
        file.write_all(&root.page())?;
    }
    Ok(())
}
