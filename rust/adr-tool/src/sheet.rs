//! `adr sheet`: the shelf sheet of a cartridge.

use std::path::Path;

use adr_tape::{SheetLine, ShelfSheet, AUX_LENGTH};

use crate::arguments::{Arguments, Options};
use crate::cartridge::Cartridge;
use crate::failure::Failure;
use crate::image::Access;
use crate::output;
use crate::progress::Progress;
use crate::record::DEPTH;

/// The options of `sheet`.
pub const OPTIONS: Options = Options {
    valued: &["--faults"],
    plain: &["--quiet"],
};

/// Runs the command.
pub fn run(arguments: &Arguments) -> Result<(), Failure> {
    let path = arguments.only_image()?;
    let seed = arguments.number("--faults")?;
    // Told before the tape is read.
    output::require_open()?;
    let cartridge = Cartridge::load(path, Access::Read, DEPTH, seed)?;
    let progress = Progress::new("reading", arguments.has("--quiet"));
    print(cartridge, progress)
}

/// Prints the sheet of a cartridge.
pub fn print(mut cartridge: Cartridge, mut progress: Progress) -> Result<(), Failure> {
    let path = cartridge.image().path().to_path_buf();
    let mut printing = Printing::begin(&path, |line| output::plain(&line.to_string()))?;
    let read = cartridge.read_fields(|aux| printing.enter(aux), &mut progress);
    let finished = printing.finish();
    read.and(finished)
}

/// A sheet that is being printed.
struct Printing<'a, P> {
    image: &'a Path,
    sheet: ShelfSheet,
    print: P,
}

impl<P: FnMut(SheetLine) -> Result<(), Failure>> Printing<'_, P> {
    /// Prints the header line.
    fn begin(image: &Path, mut print: P) -> Result<Printing<'_, P>, Failure> {
        let (sheet, heading) = ShelfSheet::open();
        print(heading)?;
        Ok(Printing {
            image,
            sheet,
            print,
        })
    }

    /// Prints the line that is due with a field. A reading delivers the next field
    /// or none, so there is one reason alone for the sheet to break off here.
    fn enter(&mut self, aux: &[u8; AUX_LENGTH]) -> Result<(), Failure> {
        let Some(line) = self.sheet.enter(aux) else {
            return Ok(());
        };
        (self.print)(line)?;
        if line.breaks_off() {
            return Err(Failure::new(format!(
                "{}: the cartridge holds more than the 99,999 jobs that a sheet has lines for: \
                 'adr list' lists all of them",
                self.image.display()
            )));
        }
        Ok(())
    }

    /// Prints the line of asterisks if no end of data was read.
    fn finish(&mut self) -> Result<(), Failure> {
        match self.sheet.finish() {
            None => Ok(()),
            Some(line) => (self.print)(line),
        }
    }
}

#[cfg(test)]
mod tests {
    use super::*;
    use adr_model::sheet::dumps::{dump_of, fields};
    use adr_model::sheet::LAST_JOB;

    /// What is printed of so many filemarks and the end of data, and what the first
    /// entry to fail tells.
    fn printed(filemarks: u32) -> (Vec<String>, Option<String>) {
        let mut lines = Vec::new();
        let print = |line: SheetLine| {
            lines.push(line.to_string());
            Ok(())
        };
        let mut printing = Printing::begin(Path::new("a.adr"), print).expect("a line");
        let kinds = "/".repeat(filemarks as usize) + "e";
        let dump = dump_of(&fields(0, &kinds), 1);
        let mut entered = dump.as_chunks().0.iter();
        let failed = entered.find_map(|aux| printing.enter(aux).err());
        printing.finish().expect("a line");
        let told = failed.map(|failure| match failure {
            Failure::Failed(message) => message,
            other => panic!("{other:?}"),
        });
        (lines, told)
    }

    #[test]
    fn more_jobs_than_lines() {
        let (lines, told) = printed(LAST_JOB);
        assert_eq!(told, None);
        assert_eq!(lines.len(), 1 + LAST_JOB as usize);
        let last = format!("{LAST_JOB} {:>10} {:>10}\n", LAST_JOB - 1, 0);
        assert_eq!(lines.last(), Some(&last));

        let (longer, told) = printed(LAST_JOB + 1);
        let told = told.expect("a sheet that breaks off");
        assert!(told.starts_with("a.adr: "), "{told}");
        assert!(told.contains("more than the 99,999 jobs"), "{told}");
        let (asterisks, before) = longer.split_last().expect("lines");
        assert!(before == lines);
        assert_eq!(*asterisks, "*".repeat(27) + "\n");
    }
}
