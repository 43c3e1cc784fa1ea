//! The shelf sheet: a line for each job of a cartridge.

use std::fmt;

use crate::ffi;
use crate::geometry::AUX_LENGTH;

/// Bytes of a sheet's line, its line feed counted.
pub const LINE_LENGTH: usize = 28;

/// What a line of asterisks, and no other, begins with.
const ASTERISK: u8 = b'*';

/// A line of a shelf sheet: 27 characters and a line feed. It is shown as these.
#[derive(Clone, Copy, Debug, PartialEq, Eq, Hash)]
#[must_use = "a line that is not printed is missing on the sheet"]
pub struct SheetLine([u8; LINE_LENGTH]);

impl SheetLine {
    /// The bytes to print.
    #[must_use]
    pub fn as_bytes(&self) -> &[u8; LINE_LENGTH] {
        &self.0
    }

    /// Whether this is the line of asterisks, with which a sheet ends that may
    /// lack jobs.
    #[must_use]
    pub fn breaks_off(&self) -> bool {
        self.0.starts_with(&[ASTERISK])
    }
}

impl fmt::Display for SheetLine {
    fn fmt(&self, formatter: &mut fmt::Formatter<'_>) -> fmt::Result {
        // The layer prints nothing but ASCII.
        formatter.write_str(std::str::from_utf8(&self.0).unwrap_or_default())
    }
}

/// A shelf sheet on its way to paper: a header line, and a line for each job
/// with its number, the number of its first element and how many blocks it has.
///
/// Enter the AUX field of each block and filemark that a reading delivers, and
/// of the end of data, in order; print each line that is handed out, and the one
/// that [`ShelfSheet::finish`] may have when no further field comes. A line comes
/// with a job's filemark, or with the end of data behind a job that has blocks and
/// no filemark.
///
/// A line of asterisks ends the sheet of more than 99,999 jobs, of fields that
/// break off before the end of data, and at a field that is not the next one. A
/// job whose line was not due by then has none. Where a reading is refused its
/// fields break off: then too, finish.
///
/// [`read_deliveries`](crate::read_deliveries) hands out these fields over a
/// [`Drive`](crate::Drive). With a [`Reader`](crate::Reader) the field of a
/// delivery is that of the frame which was brought with the reply:
///
/// ```
/// use adr_tape::{aux_of, Command, Delivery, ReadNext, Reader, Reply, ShelfSheet};
/// # use adr_tape::{Address, Geometry, Next, Recorder, Refusal, Setup};
///
/// # let geometry = Geometry::beginning(3_001, 1);
/// # let mut frames = std::collections::BTreeMap::new();
/// # let setup = Setup { depth: 4, blocks: 4, tail: 1 };
/// # let mut recorder = Recorder::open(geometry, setup, None)?;
/// # recorder.accept_block(&[5; adr_tape::BLOCK_LENGTH])?;
/// # recorder.accept_block(&[6; adr_tape::BLOCK_LENGTH])?;
/// # recorder.accept_filemark()?;
/// # recorder.accept_filemark()?;
/// # recorder.close()?;
/// # while let Next::Send(command, frame) = recorder.fetch()? {
/// #     if let (Command::Write(address), Some(frame)) = (command, frame) {
/// #         frames.insert(address, frame.to_vec());
/// #     }
/// #     recorder.reply(Reply::good())?;
/// # }
/// // `frames` is what stands at each address of a tape with two blocks, a
/// // filemark and another filemark.
/// let mut reader = Reader::open(geometry, &frames[&Address(5)])?;
/// let mut frame = [0; adr_tape::FRAME_LENGTH];
/// let (mut sheet, heading) = ShelfSheet::open();
/// let mut printed = heading.to_string();
/// while let ReadNext::Send(command) = reader.fetch()? {
///     if let Command::Read(address) = command {
///         frame.copy_from_slice(&frames[&address]);
///     }
///     if reader.reply(Reply::good(), &frame)? != Delivery::Nothing {
///         printed.extend(sheet.enter(aux_of(&frame)).map(|line| line.to_string()));
///     }
/// }
/// printed.extend(sheet.finish().map(|line| line.to_string()));
/// assert_eq!(
///     printed,
///     "  JOB      FIRST     BLOCKS\n    1          0          2\n    2          3          0\n"
/// );
/// # Ok::<(), Refusal>(())
/// ```
#[derive(Clone, Debug, PartialEq, Eq)]
#[must_use = "nothing is printed until fields are entered"]
pub struct ShelfSheet {
    sheet: ffi::Sheet,
}

impl ShelfSheet {
    /// A new sheet, and its header line.
    pub fn open() -> (ShelfSheet, SheetLine) {
        let mut line = [0; LINE_LENGTH];
        let sheet = ffi::sheet_open(&mut line).sheet;
        (ShelfSheet { sheet }, SheetLine(line))
    }

    /// Enters the field of the next delivery, or of the end of data. The line that
    /// is to be printed, if one is.
    #[must_use = "a line that is not printed is missing on the sheet"]
    pub fn enter(&mut self, aux: &[u8; AUX_LENGTH]) -> Option<SheetLine> {
        self.after(|sheet, line| ffi::sheet_enter(sheet, aux, line))
    }

    /// Tells that no further field comes. The line of asterisks, if the sheet had
    /// not ended.
    #[must_use = "a line that is not printed is missing on the sheet"]
    pub fn finish(&mut self) -> Option<SheetLine> {
        self.after(ffi::sheet_finish)
    }

    /// Whether the end of data or a line of asterisks ended it: nothing is printed
    /// any more, whatever is entered.
    #[must_use]
    pub fn has_ended(&self) -> bool {
        self.sheet.ended == 1
    }

    /// Keeps what a call leaves of the sheet.
    fn after(
        &mut self,
        call: impl FnOnce(ffi::Sheet, &mut [u8]) -> ffi::SheetEntered,
    ) -> Option<SheetLine> {
        let mut line = [0; LINE_LENGTH];
        let entered = call(self.sheet, &mut line);
        self.sheet = entered.sheet;
        (entered.answer == ffi::LINE).then_some(SheetLine(line))
    }
}
