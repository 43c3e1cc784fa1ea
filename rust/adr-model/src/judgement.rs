//! What a frame read is.

use crate::fault::Fault;
use crate::frame::{aux_of, bytes, fill_aux, number_at, Frame, Kind, Label};
use crate::geometry::{Address, SequenceNumber, AUX_LENGTH};

/// What a frame read is to a reading that expects a certain number.
#[derive(Clone, Copy, Debug, PartialEq, Eq)]
pub enum Judgement {
    /// Not of this recording, delivered before, or an earlier end.
    PassedOver,
    /// The expected element, or EOD.
    Expected(Kind),
    /// Refusal 10: an element before this one is missing.
    Missing,
    /// Refusal 11: a number that is taken here, but not of this use model.
    Foreign,
}

/// What a reading looks for.
#[derive(Clone, Copy, Debug, PartialEq, Eq)]
pub struct Expectation {
    /// The header's write pass.
    pub pass: u16,
    /// LAST of the cartridge.
    pub last: Address,
    /// The next number.
    pub number: SequenceNumber,
}

/// Where the frame judged stands.
#[derive(Clone, Copy, Debug, PartialEq, Eq)]
pub struct Standing {
    /// Its address.
    pub at: Address,
    /// The address from which on an EOD ends the reading.
    pub ends_from: Address,
    /// The header's EOD address, 0 if it names none.
    pub eod: Address,
}

impl Standing {
    /// Whether this is where the header says that EOD is.
    fn at_named_eod(&self) -> bool {
        self.eod != Address(0) && self.at == self.eod
    }
}

/// Judges a frame by itself, as one that stands where an EOD ends a reading.
#[must_use]
pub fn judge(expectation: &Expectation, frame: &Frame) -> Judgement {
    let standing = Standing {
        at: Address(0),
        ends_from: Address(0),
        eod: Address(0),
    };
    judge_at(expectation, standing, frame)
}

/// Judges a frame read.
#[must_use]
pub fn judge_at(expectation: &Expectation, standing: Standing, frame: &Frame) -> Judgement {
    judge_with(expectation, standing, frame, Fault::None)
}

/// Judges a frame read, with a planted fault.
#[must_use]
pub fn judge_with(
    expectation: &Expectation,
    standing: Standing,
    frame: &Frame,
    fault: Fault,
) -> Judgement {
    let aux = aux_of(frame);
    let Some(kind) = Kind::of_type_bytes(bytes(aux, 16)) else {
        return Judgement::PassedOver;
    };
    let pass = u16::from_be_bytes(bytes(aux, 22));
    let of_pass = pass == expectation.pass || fault == Fault::PassIgnored;
    if number_at(aux, 0) != 0 || bytes(aux, 20) != [0] || !of_pass {
        return Judgement::PassedOver;
    }
    if fault == Fault::DriveBytesCompared && bytes(aux, 4) != [0; 8] {
        return Judgement::Foreign;
    }
    if fault == Fault::NumberIgnored {
        return Judgement::Expected(kind);
    }
    let number = SequenceNumber(number_at(aux, 44));
    if number < expectation.number {
        // The element given up before this EOD may have been delivered.
        let below = expectation.number.0 - number.0;
        let taken = below == 1 || below == 2 && fault == Fault::TwoBelowTaken;
        return if !(taken && kind == Kind::Eod && standing.at_named_eod()) {
            Judgement::PassedOver
        } else if fault == Fault::ForeignOneBelowTaken
            || is_as_recorded(aux, kind, number, expectation)
        {
            Judgement::Expected(kind)
        } else {
            Judgement::Foreign
        };
    }
    if number > expectation.number {
        return Judgement::Missing;
    }
    let earlier = standing.at < standing.ends_from && fault != Fault::EarlierEndTaken;
    if kind == Kind::Eod && earlier {
        return Judgement::PassedOver;
    }
    if is_as_recorded(aux, kind, number, expectation) {
        Judgement::Expected(kind)
    } else {
        Judgement::Foreign
    }
}

/// Whether bytes 18 to 35 and 44 to 67 are what a recording writes with this
/// number.
fn is_as_recorded(
    aux: &[u8],
    kind: Kind,
    number: SequenceNumber,
    expectation: &Expectation,
) -> bool {
    let mut recorded = [0; AUX_LENGTH];
    let label = Label {
        kind,
        pass: expectation.pass,
        last: expectation.last,
        number,
        filemarks: 0,
        latest_marker: None,
    };
    fill_aux(&mut recorded, &label);
    aux.get(18..36) == recorded.get(18..36) && aux.get(44..68) == recorded.get(44..68)
}

#[cfg(test)]
mod tests {
    use super::*;
    use crate::frame::fill_frame;
    use crate::geometry::{BLOCK_LENGTH, FRAME_LENGTH};

    const EXPECTATION: Expectation = Expectation {
        pass: 7,
        last: Address(11_999),
        number: SequenceNumber(260),
    };

    fn frame_of(kind: Kind, number: u32) -> Frame {
        let mut frame = [0; FRAME_LENGTH];
        let label = Label {
            kind,
            pass: 7,
            last: Address(11_999),
            number: SequenceNumber(number),
            filemarks: 3,
            latest_marker: Some(Address(12)),
        };
        fill_frame(&mut frame, &label, None);
        frame
    }

    #[test]
    fn number_decides() {
        for kind in [Kind::Data, Kind::Marker, Kind::Eod] {
            for (number, judgement) in [
                (0, Judgement::PassedOver),
                (259, Judgement::PassedOver),
                (260, Judgement::Expected(kind)),
                (261, Judgement::Missing),
                (u32::MAX, Judgement::Missing),
            ] {
                assert_eq!(judge(&EXPECTATION, &frame_of(kind, number)), judgement);
            }
        }
    }

    #[test]
    fn every_bit_of_the_aux() {
        for kind in [Kind::Data, Kind::Marker, Kind::Eod] {
            let good = frame_of(kind, 260);
            for at in 0..AUX_LENGTH {
                for bit in 0..8 {
                    let mut frame = good;
                    frame[BLOCK_LENGTH + at] ^= 1 << bit;
                    let new_number = 260 ^ (1u32 << bit << (8 * 47usize.saturating_sub(at).min(3)));
                    let expected = match at {
                        0..=3 | 16 | 17 | 20 | 22 | 23 => Judgement::PassedOver,
                        44..=47 if new_number < 260 => Judgement::PassedOver,
                        44..=47 => Judgement::Missing,
                        18..=35 | 48..=67 => Judgement::Foreign,
                        _ => Judgement::Expected(kind),
                    };
                    assert_eq!(judge(&EXPECTATION, &frame), expected, "{kind:?} {at} {bit}");
                }
            }
        }
    }

    /// An EOD of the expected number, as recorded or not, is an earlier end
    /// below the address from which on one ends a reading.
    #[test]
    fn earlier_ends() {
        let judge_standing = |frame: &Frame, at, ends_from| {
            let standing = Standing {
                at: Address(at),
                ends_from: Address(ends_from),
                eod: Address(0),
            };
            judge_at(&EXPECTATION, standing, frame)
        };
        for (at, ends_from, earlier) in [
            (11, 12, true),
            (12, 12, false),
            (13, 12, false),
            (10, 0, false),
            (11_999, u32::MAX, true),
        ] {
            let eod = frame_of(Kind::Eod, 260);
            let mut foreign = eod;
            foreign[BLOCK_LENGTH + 18] = 1;
            let passed = |otherwise| {
                if earlier {
                    Judgement::PassedOver
                } else {
                    otherwise
                }
            };
            let expected = passed(Judgement::Expected(Kind::Eod));
            assert_eq!(judge_standing(&eod, at, ends_from), expected);
            let expected = passed(Judgement::Foreign);
            assert_eq!(judge_standing(&foreign, at, ends_from), expected);
            let later = frame_of(Kind::Eod, 261);
            assert_eq!(judge_standing(&later, at, ends_from), Judgement::Missing);
            for kind in [Kind::Data, Kind::Marker] {
                let element = frame_of(kind, 260);
                let judgement = judge_standing(&element, at, ends_from);
                assert_eq!(judgement, Judgement::Expected(kind));
            }
        }
    }

    #[test]
    fn example_of_the_table() {
        let mut frame = frame_of(Kind::Data, 260);
        frame[BLOCK_LENGTH + 66] = 0x4C;
        assert_eq!(judge(&EXPECTATION, &frame), Judgement::Foreign);
    }
}
