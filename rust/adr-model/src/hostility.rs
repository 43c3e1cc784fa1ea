//! How hostile the simulated drive is.

use crate::geometry::Address;

/// The rates of what a drive may do, each in a thousand.
#[derive(Clone, Copy, Debug, PartialEq, Eq)]
pub struct Hostility {
    /// A buffered frame is written before the next command.
    pub progress: u32,
    /// A write fails.
    pub failure: u32,
    /// A failed address reads as the new frame.
    pub reads_new: u32,
    /// A failed address reads as nothing, if not as the new frame.
    pub reads_nothing: u32,
    /// A failure is reported when it can be.
    pub report: u32,
    /// The largest skip reported, but for those that lead over bad addresses.
    pub skip: u32,
    /// A command is answered busy.
    pub busy: u32,
    /// A LOCATE answered busy was carried out.
    pub busy_located: u32,
    /// An element's WRITE is answered with an early end of tape.
    pub early_end: u32,
    /// A reply is unlisted for its command (in a recording).
    pub unlisted: u32,
    /// A frame read is reported as recovered.
    pub recovered: u32,
    /// 08/00/05 is given where it may be.
    pub blank: u32,
    /// 00/00/02 is given where it may be.
    pub end_of_tape: u32,
    /// Every write to a user frame below this address fails; most skips then
    /// lead towards it.
    pub bad_below: Address,
    /// Every write to a header copy fails but the one at this address, if
    /// an address is given.
    pub only_header: Option<Address>,
    /// The drive starts stopped at a failure.
    pub stopped: bool,
}

impl Hostility {
    /// A drive that does as it is told.
    pub const NONE: Hostility = Hostility {
        progress: 700,
        failure: 0,
        reads_new: 0,
        reads_nothing: 0,
        report: 1_000,
        skip: 0,
        busy: 0,
        busy_located: 0,
        early_end: 0,
        unlisted: 0,
        recovered: 0,
        blank: 0,
        end_of_tape: 0,
        bad_below: Address(0),
        only_header: None,
        stopped: false,
    };
}
