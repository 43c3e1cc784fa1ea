//! The lines of a shelf sheet.

use super::fault::SheetFault;

/// The characters of a line, its line feed aside.
const WIDTH: usize = 27;

/// A job as its line tells it.
pub(super) struct Job {
    pub(super) number: u64,
    pub(super) first: u64,
    pub(super) blocks: u64,
    /// Whether a filemark closes it.
    pub(super) closed: bool,
}

/// The header line.
pub(super) fn header_line(fault: SheetFault) -> String {
    match fault {
        SheetFault::HeaderLineMissing => String::new(),
        _ => row(["JOB", "FIRST", "BLOCKS"].map(String::from)),
    }
}

/// The line that says that a sheet broke off.
pub(super) fn asterisks(fault: SheetFault) -> String {
    let width = match fault {
        SheetFault::AsteriskMissing => WIDTH - 1,
        _ => WIDTH,
    };
    format!("{:*<width$}\n", "")
}

/// The line of a job.
pub(super) fn line_of(job: &Job, fault: SheetFault) -> String {
    let (number, first, blocks) = (job.number, job.first, job.blocks);
    match fault {
        SheetFault::LeftAligned => format!("{number:<5} {first:<10} {blocks:<10}\n"),
        SheetFault::LeadingZeros => format!("{number:05} {first:010} {blocks:010}\n"),
        SheetFault::ColumnOfNine => format!("{number:5} {first:9} {blocks:10}\n"),
        SheetFault::BlankMissing => format!("{number:5}{first:10}{blocks:10}\n"),
        _ => row([number, first, blocks].map(|column| column.to_string())),
    }
}

fn row([job, first, blocks]: [String; 3]) -> String {
    format!("{job:>5} {first:>10} {blocks:>10}\n")
}
