//! What a frame is by itself, where no reading leads to it.

use adr_model::frame::{aux_of, bytes, number_at, Frame, Kind};
use adr_model::judgement::{judge, Expectation, Judgement};
use adr_model::{Address, SequenceNumber};

/// Where an AUX tells the write pass, LAST, the number and the filemarks
/// before its frame.
const PASS: usize = 22;
const LAST: usize = 28;
pub const NUMBER: usize = 44;
const FILEMARKS: usize = 192;

/// A frame that is as the format has it.
#[derive(Clone, Copy, Debug, PartialEq, Eq)]
pub struct LoneFrame {
    /// What it stands for.
    pub kind: Kind,
    /// Its sequence number.
    pub number: u32,
    /// Filemarks before it.
    pub filemarks: u32,
    /// Its write pass.
    pub pass: u16,
    /// LAST, as it tells it.
    pub last: Address,
}

impl LoneFrame {
    /// The frame, judged as a reading judges it that expects its number; none
    /// if such a reading would not deliver it. Its block is not looked at.
    pub fn of(frame: &Frame) -> Option<LoneFrame> {
        let aux = aux_of(frame);
        let expectation = Expectation {
            pass: u16::from_be_bytes(bytes(aux, PASS)),
            last: Address(number_at(aux, LAST)),
            number: SequenceNumber(number_at(aux, NUMBER)),
        };
        let Judgement::Expected(kind) = judge(&expectation, frame) else {
            return None;
        };
        Some(LoneFrame {
            kind,
            number: expectation.number.0,
            filemarks: number_at(aux, FILEMARKS),
            pass: expectation.pass,
            last: expectation.last,
        })
    }
}
