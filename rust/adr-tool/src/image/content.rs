//! The content in force: what leads to the frames of an image.

use std::collections::BTreeSet;
use std::fs::File;
use std::io;
use std::os::unix::fs::FileExt;
use std::path::Path;

use adr_tape::Geometry;

use super::index::{cells_for, frame_cells, Index, Reading};
use super::layout::{self, Root, WrongHead, CELL, PAGE, ROOTS};
use crate::failure::Failure;

/// The content in force.
#[derive(Debug)]
pub struct Content {
    /// The cartridge's geometry.
    pub geometry: Geometry,
    /// The root in force.
    pub root: Root,
    /// Which of the two roots it is.
    pub slot: usize,
    /// Whether the other one is whole too.
    pub both_roots: bool,
    /// Whether the other one is whole and leads to the same content.
    pub roots_agree: bool,
    /// What is known of each address.
    pub index: Index,
}

impl Content {
    /// Reads the content of a file of this length, and tells the cells that
    /// it takes.
    pub fn read(
        path: &Path,
        file: &File,
        length: u64,
    ) -> Result<(Content, BTreeSet<u64>), Failure> {
        let geometry = read_geometry(path, file)?;
        let mut roots: Vec<(usize, Root)> = Vec::new();
        for (slot, offset) in ROOTS.into_iter().enumerate() {
            let page = read_page(path, file, offset)?;
            roots.extend(Root::read(&page).map(|root| (slot, root)));
        }
        let both_roots = roots.len() == ROOTS.len();
        let newest = roots.iter().max_by_key(|(_, root)| root.generation);
        let newest = newest.copied();
        let Some((slot, root)) = newest else {
            return Err(damaged(path, "both of its roots are damaged"));
        };
        let roots_agree = both_roots && roots.iter().all(|(_, other)| root.leads_where(other));
        // Where the last cell in use ends, the one behind it would start.
        if layout::cell_offset(root.cells).is_none_or(|needed| needed > length) {
            return Err(truncated(path));
        }
        let (index, mut cells) = read_index(path, file, &root)?;
        cells.extend(frame_cells(&index));
        if cells.last().is_some_and(|last| *last >= root.cells) {
            return Err(outside(path));
        }
        let content = Content {
            geometry,
            root,
            slot,
            both_roots,
            roots_agree,
            index,
        };
        Ok((content, cells))
    }
}

fn damaged(path: &Path, what: &str) -> Failure {
    Failure::new(format!(
        "{}: the image is damaged: {what}; nothing was changed: \
         use a copy of the file, or 'adr salvage' for what is left",
        path.display()
    ))
}

fn outside(path: &Path) -> Failure {
    damaged(path, "its index leads out of the file")
}

fn truncated(path: &Path) -> Failure {
    Failure::new(format!(
        "{}: the image is truncated; nothing was changed: \
         use a whole copy of the file, or 'adr salvage' for what is left",
        path.display()
    ))
}

fn foreign(path: &Path) -> Failure {
    Failure::new(format!(
        "{}: not a cartridge image; 'adr format' makes one",
        path.display()
    ))
}

fn read_at(path: &Path, file: &File, part: &mut [u8], offset: u64) -> Result<(), Failure> {
    let read = file.read_exact_at(part, offset);
    read.map_err(|error| match error.kind() {
        io::ErrorKind::UnexpectedEof => truncated(path),
        _ => Failure::of_file(path, &error),
    })
}

fn read_page(path: &Path, file: &File, offset: u64) -> Result<[u8; PAGE], Failure> {
    let mut page = [0; PAGE];
    read_at(path, file, &mut page, offset)?;
    Ok(page)
}

fn read_geometry(path: &Path, file: &File) -> Result<Geometry, Failure> {
    if !layout::is_image_file(file) {
        return Err(foreign(path));
    }
    layout::read_head(&read_page(path, file, 0)?).map_err(|wrong| match wrong {
        WrongHead::Version(version) => Failure::new(format!(
            "{}: the image has layout {version}, this tool knows layout {}: use a later one",
            path.display(),
            layout::VERSION
        )),
        WrongHead::Damaged => damaged(path, "its head is not what was written"),
    })
}

/// The index and the cells that it takes.
fn read_index(path: &Path, file: &File, root: &Root) -> Result<(Index, BTreeSet<u64>), Failure> {
    let altered = || damaged(path, "its index is not what was written");
    let count = cells_for(root.entries);
    if count > root.cells {
        return Err(outside(path));
    }
    let mut reading = Reading::new(root.entries);
    let mut cells = BTreeSet::new();
    let mut content = vec![0; CELL];
    let mut cell = root.index;
    for _ in 0..count {
        let offset = layout::cell_offset(cell).filter(|_| cell < root.cells);
        let offset = offset.ok_or_else(|| outside(path))?;
        read_at(path, file, &mut content, offset)?;
        // A cell that leads back to an earlier one would be read for ever.
        if !cells.insert(cell) {
            return Err(altered());
        }
        cell = reading.take(&content);
    }
    let index = reading.finish(root.sum).ok_or_else(altered)?;
    Ok((index, cells))
}
