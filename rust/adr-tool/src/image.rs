//! A cartridge as a file.
//!
//! Frames are never written over while a generation of the content needs
//! them: a recording puts its frames and its index into cells that the
//! present generation does not use, has them brought to disk, and then writes
//! one page, the root that is not in force. Until that page is whole the
//! other root is in force, and everything it leads to is as it was. So a
//! power cut, a full disk or a killed process leaves the old content, and
//! nothing needs to be repaired at the next opening. At last the other root
//! is written too, so that both lead to the same content. Cells that it does
//! not use are then given back to the file system.

mod cells;
mod content;
mod file;
mod frames;
mod index;
mod label;
mod layout;
mod making;

use std::collections::BTreeSet;
use std::fs::File;
use std::io;
use std::os::unix::fs::FileExt;
use std::path::{Path, PathBuf};
use std::sync::Arc;

use adr_model::tape::{Shared, Storage};
use adr_tape::{Geometry, FRAME_LENGTH};

use crate::checksum::checksum;
use crate::failure::{reason, Failure};
use crate::system::punch_hole;
use cells::Cells;
use content::Content;
use index::{Entry, Place};
use label::Label;
use layout::{Root, CELL, ROOTS};

pub use file::{open_regular, refuse_itself, Access};
pub use frames::{Frames, Origin};
pub use layout::is_image_file;
pub use making::format;

/// A cartridge image.
#[derive(Debug)]
pub struct Image {
    path: PathBuf,
    file: File,
    content: Content,
    cells: Cells,
    length_before: u64,
    /// Whether cells were written that no root leads to.
    unfinished: bool,
    /// Addresses whose frame is damaged, as far as they were read.
    damaged: BTreeSet<u32>,
    error: Option<io::Error>,
}

impl Image {
    /// Opens an image. Nothing is written to it before [`Storage::store`].
    pub fn open(path: &Path, access: Access) -> Result<Image, Failure> {
        let (file, length) = file::open(path, access)?;
        let (content, used) = Content::read(path, &file, length)?;
        Ok(Image {
            path: path.to_path_buf(),
            file,
            cells: Cells::new(used),
            content,
            length_before: length,
            unfinished: false,
            damaged: BTreeSet::new(),
            error: None,
        })
    }

    /// The file's name.
    pub fn path(&self) -> &Path {
        &self.path
    }

    /// The cartridge's geometry.
    pub fn geometry(&self) -> Geometry {
        self.content.geometry
    }

    /// Whether both roots are whole.
    pub fn has_both_roots(&self) -> bool {
        self.content.both_roots
    }

    /// The first failure of the file since the last call, if there was one.
    pub fn take_error(&mut self) -> Option<Failure> {
        let error = self.error.take()?;
        Some(Failure::of_file(&self.path, &error))
    }

    /// Every address that is known, with whether something reads there and
    /// whether the last write there failed.
    pub fn known(&self) -> impl Iterator<Item = (u32, bool, bool)> + '_ {
        self.content
            .index
            .iter()
            .map(|(address, entry)| (*address, entry.place.is_some(), entry.failed))
    }

    /// Addresses whose frames were read and found damaged.
    pub fn damaged(&self) -> impl Iterator<Item = u32> + '_ {
        self.damaged.iter().copied()
    }

    /// Whether no frame that was read was found damaged.
    pub fn is_undamaged(&self) -> bool {
        self.damaged.is_empty()
    }

    /// Where no copy of the header reads: tells a cartridge whose header is
    /// damaged from one that has none.
    pub fn require_blank_headers(&self) -> Result<(), Failure> {
        self.require_undamaged(
            "no other copy reads, and nothing was changed: \
             use a copy of the file, or 'adr salvage' for what is left",
        )
    }

    /// Where a copy of the header reads: refuses damage to another one.
    pub fn require_whole_headers(&self) -> Result<(), Failure> {
        self.require_undamaged(
            "others read, and nothing was changed: \
             restore what it holds, then 'adr format --overwrite' it",
        )
    }

    fn require_undamaged(&self, remedy: &str) -> Result<(), Failure> {
        match self.damaged.first() {
            None => Ok(()),
            Some(address) => Err(Failure::new(format!(
                "{}: the image is damaged at address {address}, among the copies of the header; \
                 {remedy}",
                self.path.display()
            ))),
        }
    }

    /// The last 512 bytes of a frame, its AUX, unless the frame was found
    /// damaged; they are not checked.
    pub fn aux(&mut self, address: u32, aux: &mut [u8]) -> bool {
        let entry = self.content.index.get(&address);
        let whole = entry.filter(|_| !self.damaged.contains(&address));
        let Some(place) = whole.and_then(|entry| entry.place) else {
            return false;
        };
        let start = FRAME_LENGTH.saturating_sub(aux.len());
        let start = u64::try_from(start).unwrap_or(0);
        let read = offset_of(place.cell)
            .and_then(|offset| self.file.read_exact_at(aux, offset.saturating_add(start)));
        self.keep(read);
        self.error.is_none()
    }

    /// Puts what was stored in force, in one step.
    pub fn commit(&mut self) -> Result<(), Failure> {
        if let Some(failure) = self.take_error() {
            return Err(failure.unrecorded());
        }
        let prepared = self.prepare_root();
        let (root, used) =
            prepared.map_err(|error| Failure::of_file(&self.path, &error).unrecorded())?;
        self.require_name("nothing was recorded: put it back, or 'adr format' another")?;
        // From here on either root may come into force: cut nothing off.
        self.unfinished = false;
        let (spare, present) = (1 - self.content.slot, self.content.slot);
        self.write_root(&root, spare).map_err(|error| {
            Failure::new(format!(
                "{}: {}; the cartridge may hold the new content already",
                self.path.display(),
                reason(&error)
            ))
        })?;
        // The recording is in force. The other root is made to lead to it
        // too, so that damage to one of them brings no older content back;
        // if that fails, the next recording does it, and until then nothing
        // is given back that the other root leads to.
        (self.content.root, self.content.slot) = (root, spare);
        self.cells = Cells::new(used);
        let again = Root {
            generation: root.generation.saturating_add(1),
            ..root
        };
        if self.write_root(&again, present).is_ok() {
            (self.content.root, self.content.slot) = (again, present);
            self.give_back(again.cells, offset_of(again.cells).ok());
        }
        self.require_name("the recording is in the file that had the name: look for that one")
    }

    /// Refuses a recording in a file that its name does not lead to any more.
    fn require_name(&self, remedy: &str) -> Result<(), Failure> {
        match file::has_name(&self.file, &self.path) {
            Ok(true) => Ok(()),
            Err(error) if error.kind() != io::ErrorKind::NotFound => {
                Err(Failure::of_file(&self.path, &error))
            }
            _ => Err(Failure::new(format!(
                "{}: the image was removed, renamed or replaced meanwhile; {remedy}",
                self.path.display()
            ))),
        }
    }

    /// Gives back what a recording left behind that was killed, unless the
    /// other root leads there.
    pub fn give_back_leavings(&mut self) {
        let cells = self.content.root.cells;
        let needed = offset_of(cells).ok();
        if self.content.roots_agree {
            self.give_back(cells, needed.filter(|needed| *needed < self.length_before));
        }
    }

    /// Gives the cells below `end` that the content in force does not use back
    /// to the file system, and all that is behind a length. What cannot be
    /// given back is used by the next recording.
    fn give_back(&mut self, end: u64, length: Option<u64>) {
        if let Some(length) = length {
            if self.file.set_len(length).is_ok() {
                self.length_before = length;
            }
        }
        for cells in self.cells.unused(end) {
            if let (Ok(start), Ok(end)) = (offset_of(cells.start), offset_of(cells.end)) {
                punch_hole(&self.file, start, end.saturating_sub(start));
            }
        }
    }

    fn write_root(&self, root: &Root, slot: usize) -> io::Result<()> {
        let offset = ROOTS.get(slot).copied().unwrap_or(ROOTS[0]);
        self.file.write_all_at(&root.page(), offset)?;
        self.file.sync_all()
    }

    /// Writes the index beside the present content, and tells the cells that
    /// the new content uses.
    fn prepare_root(&mut self) -> io::Result<(Root, BTreeSet<u64>)> {
        let entries = u64::try_from(self.content.index.len()).unwrap_or(u64::MAX);
        let cells: Vec<u64> = (0..index::cells_for(entries))
            .map(|_| self.cells.take())
            .collect();
        let (contents, sum) = index::written(&self.content.index, &cells);
        for (cell, content) in cells.iter().zip(&contents) {
            self.write_cell(*cell, content)?;
        }
        self.file.sync_all()?;
        let index = cells.first().copied().unwrap_or(0);
        let mut used = BTreeSet::from_iter(cells);
        used.extend(index::frame_cells(&self.content.index));
        let root = Root {
            generation: self.next_generation(),
            cells: used.last().map_or(0, |last| last.saturating_add(1)),
            index,
            entries,
            sum,
        };
        Ok((root, used))
    }

    /// The generation that a recording makes.
    fn next_generation(&self) -> u64 {
        self.content.root.generation.saturating_add(1)
    }

    /// Gives back the cell of a frame that this recording wrote over.
    fn release(&mut self, entry: Option<Entry>) {
        if let Some(place) = entry.and_then(|entry| entry.place) {
            self.cells.give_back(place.cell);
        }
    }

    fn write_cell(&mut self, cell: u64, content: &[u8]) -> io::Result<()> {
        self.unfinished = true;
        self.file.write_all_at(content, offset_of(cell)?)
    }

    fn read_frame(&mut self, place: Place) -> io::Result<Option<Shared>> {
        let mut frame: Shared = Arc::new([0; FRAME_LENGTH]);
        let offset = offset_of(place.cell)?;
        if let Some(frame) = Arc::get_mut(&mut frame) {
            match self.file.read_exact_at(frame, offset) {
                Err(error) if error.kind() == io::ErrorKind::UnexpectedEof => return Ok(None),
                read => read?,
            }
        }
        Ok((checksum(frame.as_slice()) == place.sum).then_some(frame))
    }

    fn keep(&mut self, result: io::Result<()>) {
        if let Err(error) = result {
            self.error.get_or_insert(error);
        }
    }
}

fn offset_of(cell: u64) -> io::Result<u64> {
    layout::cell_offset(cell).ok_or_else(|| io::ErrorKind::FileTooLarge.into())
}

impl Storage for Image {
    /// A damaged frame reads as nothing, as a spot on tape would.
    fn frame(&mut self, address: adr_model::Address) -> Option<Shared> {
        let place = self.content.index.get(&address.0)?.place?;
        match self.read_frame(place) {
            Ok(Some(frame)) => Some(frame),
            Ok(None) => {
                self.damaged.insert(address.0);
                None
            }
            Err(error) => {
                self.keep(Err(error));
                None
            }
        }
    }

    fn store(&mut self, address: adr_model::Address, frame: Shared) {
        let cell = self.cells.take();
        let sum = checksum(frame.as_slice());
        let label = Label {
            address: address.0,
            generation: self.next_generation(),
            sum,
        };
        let mut content = Vec::with_capacity(CELL);
        content.extend_from_slice(frame.as_slice());
        content.resize(CELL, 0);
        label.put(&mut content);
        let written = self.write_cell(cell, &content);
        self.keep(written);
        let place = Place { cell, sum };
        let entry = Entry {
            place: Some(place),
            failed: false,
        };
        let before = self.content.index.insert(address.0, entry);
        self.release(before);
    }

    fn spoil(&mut self, address: adr_model::Address) {
        let before = self.content.index.remove(&address.0);
        self.release(before);
    }

    fn failed(&mut self, address: adr_model::Address) {
        self.content.index.entry(address.0).or_default().failed = true;
    }

    fn is_blank(&self, from: adr_model::Address, count: u32) -> bool {
        let range = from.0..from.0.saturating_add(count);
        self.content
            .index
            .range(range)
            .all(|(_, entry)| entry.place.is_none())
    }

    fn is_blank_from(&self, from: adr_model::Address) -> bool {
        self.content
            .index
            .range(from.0..)
            .all(|(_, entry)| entry.place.is_none())
    }
}

impl Drop for Image {
    /// Gives back the room of a recording that did not come to its end. The
    /// content in force lies below the length that the file had.
    fn drop(&mut self) {
        if self.unfinished {
            self.give_back(self.cells.taken_end(), Some(self.length_before));
        }
    }
}
