//! Where the bytes of a restored job go.

use std::fs::{File, OpenOptions};
use std::io::{self, Write};
use std::path::{Path, PathBuf};

use crate::failure::Failure;
use crate::job::Description;
use crate::part::{self, Part};
use crate::timestamp::Timestamp;

/// The bits of a mode that are restored: set-user-ID, set-group-ID and sticky
/// ones are not, for whoever restores a file is not always who recorded it.
const RESTORED_MODE: u16 = 0o777;

/// Where a job's bytes go.
pub enum Writer {
    /// Standard output.
    Output,
    /// A device or pipe that has a name.
    Device(PathBuf, File),
    /// A file.
    File(NewFile),
}

/// A file that gets its name when its job was whole.
pub struct NewFile {
    part: Part,
    overwrite: bool,
    /// When the recorded file was last changed.
    time: Timestamp,
}

impl Writer {
    /// Opens what [`is_device`] tells apart.
    pub fn device(path: &Path) -> Result<Writer, Failure> {
        let file = OpenOptions::new().write(true).open(path);
        let file = file.map_err(|error| Failure::of_file(path, &error))?;
        Ok(Writer::Device(path.to_path_buf(), file))
    }

    /// Writes bytes of the job.
    pub fn write(&mut self, data: &[u8]) -> Result<(), Failure> {
        match self {
            Writer::Output => io::stdout()
                .write_all(data)
                .map_err(|error| Failure::of_output(&error)),
            Writer::Device(path, file) => file
                .write_all(data)
                .map_err(|error| Failure::of_file(path, &error)),
            Writer::File(new) => new.part.write(data),
        }
    }

    /// Ends a job that was whole.
    pub fn finish(self) -> Result<(), Failure> {
        match self {
            Writer::Output => io::stdout()
                .flush()
                .map_err(|error| Failure::of_output(&error)),
            Writer::Device(..) => Ok(()),
            Writer::File(new) => new.finish(),
        }
    }
}

impl NewFile {
    /// Creates the file, with the mode that is recorded under the umask:
    /// nothing that its name leads to is followed or written over.
    pub fn open(
        path: &Path,
        overwrite: bool,
        description: &Description,
    ) -> Result<NewFile, Failure> {
        let mode = description.mode.map(|mode| u32::from(mode & RESTORED_MODE));
        Ok(NewFile {
            part: Part::begin(path, overwrite, mode.unwrap_or(part::MODE))?,
            overwrite,
            time: description.time,
        })
    }

    fn finish(mut self) -> Result<(), Failure> {
        if let Some(time) = self.time.system_time() {
            // A file system that cannot keep it keeps the bytes all the same.
            let _ = self.part.file().set_modified(time);
        }
        self.part.end(self.overwrite)
    }
}

/// Whether a path names something that is written to in place.
pub fn is_device(path: &Path) -> bool {
    path.metadata()
        .is_ok_and(|metadata| !metadata.is_file() && !metadata.is_dir())
}
