//! Files that get their name when they are whole.

use std::ffi::OsString;
use std::fs::{File, OpenOptions};
use std::io::{self, Write};
use std::os::unix::fs::OpenOptionsExt;
use std::path::{Path, PathBuf};

use crate::failure::Failure;

/// The longest name to which more is added: most systems take 255 bytes.
const LONGEST: usize = 200;
/// Names that are tried.
const ATTEMPTS: u32 = 100;
/// The mode of a file that nothing else is known of, under the umask.
pub const MODE: u32 = 0o666;

/// A file beside the one that it becomes, removed unless it becomes that.
///
/// A process that is killed leaves it behind, but nothing that is not whole
/// ever stands under the target's name.
#[derive(Debug)]
pub struct Part {
    file: File,
    path: PathBuf,
    target: PathBuf,
    renamed: bool,
}

impl Part {
    /// Creates the file, with a mode under the umask, for a name that is free
    /// or may be replaced: otherwise that is told before there is anything to
    /// be named.
    pub fn begin(target: &Path, overwrite: bool, mode: u32) -> Result<Part, Failure> {
        if target.symlink_metadata().is_ok() {
            require_overwrite(target, overwrite)?;
        }
        let part = Part::create(target, mode);
        part.map_err(|error| Failure::of_file(target, &error))
    }

    /// Writes bytes to the file.
    pub fn write(&mut self, data: &[u8]) -> Result<(), Failure> {
        let written = self.file.write_all(data);
        written.map_err(|error| Failure::of_file(&self.target, &error))
    }

    /// Names the file, which is whole.
    pub fn end(self, overwrite: bool) -> Result<(), Failure> {
        let target = self.target.clone();
        self.finish(overwrite).map_err(|error| match error.kind() {
            io::ErrorKind::AlreadyExists => exists(&target),
            _ => Failure::of_file(&target, &error),
        })
    }

    /// Creates the file with a mode, under the umask.
    pub fn create(target: &Path, mode: u32) -> io::Result<Part> {
        let mut options = OpenOptions::new();
        options.write(true).create_new(true).mode(mode);
        for attempt in 0..ATTEMPTS {
            let path = target.with_file_name(name(target, attempt));
            match options.open(&path) {
                Ok(file) => {
                    return Ok(Part {
                        file,
                        path,
                        target: target.to_path_buf(),
                        renamed: false,
                    })
                }
                // A killed process left it that had the same number.
                Err(error) if error.kind() == io::ErrorKind::AlreadyExists => {}
                Err(error) => return Err(error),
            }
        }
        Err(io::ErrorKind::AlreadyExists.into())
    }

    /// The file, to be written to.
    pub fn file(&mut self) -> &mut File {
        &mut self.file
    }

    /// Brings the file to disk and gives it its name. One that has the name
    /// already is replaced, or else the error is `AlreadyExists`.
    pub fn finish(mut self, replace: bool) -> io::Result<()> {
        self.file.sync_all()?;
        if replace {
            self.rename()?;
        } else {
            self.link()?;
        }
        // A directory that cannot be opened comes to disk in its own time.
        let _ = sync_directory(&self.target);
        Ok(())
    }

    fn rename(&mut self) -> io::Result<()> {
        std::fs::rename(&self.path, &self.target)?;
        self.renamed = true;
        Ok(())
    }

    /// A link replaces nothing, not even what came up a moment ago.
    fn link(&mut self) -> io::Result<()> {
        match std::fs::hard_link(&self.path, &self.target) {
            Err(error) if error.kind() == io::ErrorKind::AlreadyExists => Err(error),
            // Not every file system has links.
            Err(_) if self.target.symlink_metadata().is_err() => self.rename(),
            linked => linked,
        }
    }
}

impl Drop for Part {
    fn drop(&mut self) {
        if !self.renamed {
            let _ = std::fs::remove_file(&self.path);
        }
    }
}

/// Refuses to replace a file that exists, unless that is asked for.
pub fn require_overwrite(target: &Path, overwrite: bool) -> Result<(), Failure> {
    if overwrite {
        Ok(())
    } else {
        Err(exists(target))
    }
}

fn exists(target: &Path) -> Failure {
    let shown = target.display();
    Failure::new(format!("{shown}: exists; use '--overwrite' to replace it"))
}

/// A name for the time being; it tells whose it is where there is room.
fn name(target: &Path, attempt: u32) -> OsString {
    let own = target.file_name().filter(|own| own.len() <= LONGEST);
    let mut name = own.unwrap_or("adr".as_ref()).to_os_string();
    name.push(format!(".{}", std::process::id()));
    if attempt > 0 {
        name.push(format!("-{attempt}"));
    }
    name.push(".part");
    name
}

fn sync_directory(path: &Path) -> io::Result<()> {
    let directory = match path.parent() {
        Some(parent) if !parent.as_os_str().is_empty() => parent,
        _ => Path::new("."),
    };
    File::open(directory)?.sync_all()
}

#[cfg(test)]
mod tests {
    use super::*;
    use std::fs;

    #[test]
    fn names_when_whole() {
        let place = format!("adr-part-{}", std::process::id());
        let place = std::env::temp_dir().join(place);
        fs::create_dir(&place).expect("a directory of its own");
        let target = place.join("file");
        let written = |bytes: &[u8]| {
            let mut part = Part::create(&target, MODE).expect("room for a file");
            part.file().write_all(bytes).expect("room for bytes");
            part
        };
        // One that a killed process left.
        let left = place.join(name(&target, 0));
        fs::write(&left, b"left").expect("room for a file");

        drop(written(b"none"));
        assert!(!target.exists());
        assert!(written(b"one").finish(false).is_ok());
        let refused = written(b"two").finish(false).map_err(|error| error.kind());
        assert_eq!(refused, Err(io::ErrorKind::AlreadyExists));
        assert_eq!(fs::read(&target).ok(), Some(b"one".to_vec()));
        assert!(written(b"three").finish(true).is_ok());
        assert_eq!(fs::read(&target).ok(), Some(b"three".to_vec()));
        assert_eq!(fs::read(&left).ok(), Some(b"left".to_vec()));
        assert_eq!(fs::read_dir(&place).map(Iterator::count).ok(), Some(2));
        fs::remove_dir_all(&place).expect("it");
    }

    #[test]
    fn names_have_room() {
        let long = "n".repeat(255);
        for target in ["a", "d/a", &long] {
            let name = name(Path::new(target), ATTEMPTS);
            assert!(name.len() <= 255);
        }
    }
}
