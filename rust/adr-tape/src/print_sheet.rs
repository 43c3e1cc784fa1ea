//! The sheet of a whole dump.

use std::io::{self, Read, Write};

use crate::error::SheetError;
use crate::geometry::AUX_LENGTH;
use crate::sheet::{SheetLine, ShelfSheet};

/// How a sheet ended.
#[derive(Clone, Copy, Debug, PartialEq, Eq, Hash)]
#[must_use = "a sheet that breaks off may lack jobs"]
pub enum SheetEnd {
    /// With the end of data: it has every job.
    Whole,
    /// With a line of asterisks.
    BrokenOff,
}

/// Prints the sheet of a dump: AUX fields of 512 bytes each, those of the
/// deliveries and of the end of data, in order.
///
/// Nothing is read behind the end of data, or behind what ended the sheet. Fields
/// are read one at a time: a file is read faster through a
/// [`BufReader`](std::io::BufReader).
///
/// ```
/// use adr_tape::{print_sheet, SheetEnd, AUX_LENGTH};
///
/// let mut field = [0; AUX_LENGTH];
/// field[16] = 0x01; // The end of data, of number 0.
/// let mut sheet = Vec::new();
/// assert_eq!(print_sheet(&field[..], &mut sheet)?, SheetEnd::Whole);
/// assert_eq!(sheet, b"  JOB      FIRST     BLOCKS\n");
/// # Ok::<(), adr_tape::SheetError>(())
/// ```
///
/// # Errors
/// What reading or writing failed with.
pub fn print_sheet(mut dump: impl Read, mut output: impl Write) -> Result<SheetEnd, SheetError> {
    let (mut sheet, heading) = ShelfSheet::open();
    let mut end = SheetEnd::Whole;
    let mut print = |line: Option<SheetLine>| {
        let Some(line) = line else { return Ok(()) };
        if line.breaks_off() {
            end = SheetEnd::BrokenOff;
        }
        output
            .write_all(line.as_bytes())
            .map_err(SheetError::Output)
    };
    print(Some(heading))?;
    let mut field = Vec::with_capacity(AUX_LENGTH);
    let mut read = Ok(());
    while !sheet.has_ended() {
        read = read_field(&mut dump, &mut field).map_err(SheetError::Dump);
        print(match field.first_chunk() {
            Some(aux) if read.is_ok() => sheet.enter(aux),
            _ => sheet.finish(),
        })?;
    }
    output.flush().map_err(SheetError::Output)?;
    read.map(|()| end)
}

/// Reads the next field; it is shorter where the dump ends.
fn read_field(dump: impl Read, field: &mut Vec<u8>) -> io::Result<()> {
    field.clear();
    let length = AUX_LENGTH as u64;
    dump.take(length).read_to_end(field).map(|_| ())
}
