//! The file of an image, held by one recording or by readings.

use std::fs::{File, Metadata, OpenOptions, TryLockError};
use std::io;
use std::os::unix::fs::MetadataExt;
use std::path::Path;

use crate::failure::Failure;

/// What an image is opened for.
#[derive(Clone, Copy, Debug, PartialEq, Eq)]
pub enum Access {
    /// Reading alone, beside other readers.
    Read,
    /// Recording, with nobody else at it.
    Record,
}

/// Opens and locks an image's file, and gives its length.
pub fn open(path: &Path, access: Access) -> Result<(File, u64), Failure> {
    let of_file = |error: io::Error| match error.kind() {
        io::ErrorKind::NotFound => Failure::new(format!(
            "{}: no such image; 'adr format' makes one",
            path.display()
        )),
        _ => Failure::of_file(path, &error),
    };
    let (file, _) = open_regular(path, access).map_err(of_file)?;
    lock(&file, path, access)?;
    // What another process wrote before this lock counts; one that replaced
    // the file left this one without a name.
    let metadata = file.metadata().map_err(of_file)?;
    if !has_name(&file, path).map_err(of_file)? {
        return Err(Failure::new(format!(
            "{}: replaced by another 'adr' meanwhile; try again",
            path.display()
        )));
    }
    Ok((file, metadata.len()))
}

/// Whether a path leads to this file and to no other.
pub fn has_name(file: &File, path: &Path) -> io::Result<bool> {
    let named = std::fs::metadata(path)?;
    Ok(identity(&file.metadata()?) == identity(&named))
}

/// Opens a file that is no directory, pipe, socket or device. It is looked at
/// before it is opened too, for that alone waits at a pipe and sets a tape
/// drive going.
pub fn open_regular(path: &Path, access: Access) -> io::Result<(File, Metadata)> {
    require_regular(&std::fs::metadata(path)?)?;
    let record = access == Access::Record;
    let file = OpenOptions::new().read(true).write(record).open(path)?;
    let metadata = file.metadata()?;
    require_regular(&metadata)?;
    Ok((file, metadata))
}

fn require_regular(metadata: &Metadata) -> io::Result<()> {
    if metadata.is_file() {
        return Ok(());
    }
    Err(io::Error::other("not a regular file"))
}

/// Locks a file until it is closed.
pub fn lock(file: &File, path: &Path, access: Access) -> Result<(), Failure> {
    let locked = match access {
        Access::Read => file.try_lock_shared(),
        Access::Record => file.try_lock(),
    };
    match locked {
        Ok(()) => Ok(()),
        Err(TryLockError::WouldBlock) => Err(Failure::new(format!(
            "{}: in use by another 'adr'; try again when it has ended",
            path.display()
        ))),
        Err(TryLockError::Error(error)) => Err(Failure::of_file(path, &error)),
    }
}

/// Refuses to use an image as something else too: to write over it, or to
/// record it in itself.
pub fn refuse_itself(image: &Path, other: &Path) -> Result<(), Failure> {
    let of = |path: &Path| std::fs::metadata(path).ok().as_ref().map(identity);
    if of(image).is_some_and(|image| of(other) == Some(image)) {
        return Err(Failure::new(format!(
            "{}: is the cartridge image itself; give another file",
            other.display()
        )));
    }
    Ok(())
}

fn identity(metadata: &Metadata) -> (u64, u64) {
    (metadata.dev(), metadata.ino())
}
