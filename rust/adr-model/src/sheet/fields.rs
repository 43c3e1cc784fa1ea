//! What a dump of AUX fields holds: what was delivered, and how it ends.

use super::fault::SheetFault;
use crate::frame::{bytes, number_at, Kind};
use crate::geometry::AUX_LENGTH;

/// Where a field has its type.
pub(super) const TYPE: usize = 16;
/// Where a field has its sequence number.
pub(super) const NUMBER: usize = 44;

/// How the deliveries of a dump end.
#[derive(Clone, Copy, Debug, PartialEq, Eq)]
pub(super) enum Ending {
    /// With EOD.
    Eod,
    /// With something that may not follow.
    BrokenOff,
    /// With the dump itself.
    Cut,
}

/// A dump up to where its deliveries end.
pub(super) struct Delivered {
    pub(super) kinds: Vec<Kind>,
    pub(super) ending: Ending,
}

/// What counts of an AUX field.
struct Field {
    kind: Option<Kind>,
    number: u32,
}

/// What a dump delivers from the number `next` on.
pub(super) fn delivered(dump: &[u8], next: u64, fault: SheetFault) -> Delivered {
    let fields = fields_of(dump, fault);
    let deliveries = fields.iter().zip(next..=u64::MAX);
    let kinds: Vec<Kind> = deliveries
        .map_while(|(field, next)| field.delivery(next, fault))
        .collect();
    let behind = (next..=u64::MAX).nth(kinds.len()).unwrap_or(u64::MAX);
    let ending = match fields.get(kinds.len()) {
        None => Ending::Cut,
        Some(field) if field.is_end(behind, fault) => Ending::Eod,
        Some(_) => Ending::BrokenOff,
    };
    let ends_there = dump.len() == (kinds.len() + 1) * AUX_LENGTH;
    let ending = match fault {
        SheetFault::EmptyDumpWhole if dump.is_empty() => Ending::Eod,
        SheetFault::EndWantedBehindEod if !ends_there => Ending::BrokenOff,
        _ => ending,
    };
    Delivered { kinds, ending }
}

fn fields_of(dump: &[u8], fault: SheetFault) -> Vec<Field> {
    let whole = |part: &&[u8]| part.len() == AUX_LENGTH || fault == SheetFault::PartTaken;
    let parts = dump.chunks(AUX_LENGTH).filter(whole);
    let mut fields: Vec<Field> = parts.map(|part| Field::of(part, fault)).collect();
    if fault == SheetFault::ReadBehindEod {
        let last = fields.pop();
        fields.retain(|field| field.kind != Some(Kind::Eod));
        fields.extend(last);
    }
    fields
}

impl Field {
    fn of(aux: &[u8], fault: SheetFault) -> Field {
        let number = number_at(aux, NUMBER);
        Field {
            kind: kind_of(aux, fault),
            number: match fault {
                SheetFault::LowestByteFirst => number.swap_bytes(),
                _ => number,
            },
        }
    }

    /// What is delivered, if this is what may come with the number `next`.
    fn delivery(&self, next: u64, fault: SheetFault) -> Option<Kind> {
        let kind = self.kind.filter(|kind| *kind != Kind::Eod)?;
        let number = u64::from(self.number);
        let is_next = match fault {
            SheetFault::NumberNotCompared => true,
            SheetFault::FilemarkNumberNotCompared if kind == Kind::Marker => true,
            SheetFault::SixteenBitsCompared => low_bits(number, 16) == low_bits(next, 16),
            SheetFault::DeliveryOneBelowTaken => number == next || number + 1 == next,
            SheetFault::NumberWrapped => number == low_bits(next, 32),
            SheetFault::HighestRefused => number == next && self.number != u32::MAX,
            _ => number == next,
        };
        is_next.then_some(kind)
    }

    /// Whether this is an EOD that may come where the number `next` may.
    fn is_end(&self, next: u64, fault: SheetFault) -> bool {
        let number = u64::from(self.number);
        match self.kind {
            Some(Kind::Eod) => {}
            None => return fault == SheetFault::OtherTypeEnds,
            Some(_) => return false,
        }
        match fault {
            SheetFault::EodNumberNotCompared => true,
            SheetFault::EodOfNextRefused => number + 1 == next,
            SheetFault::OneBelowRefused => number == next,
            SheetFault::TwoBelowTaken => (number..=number + 2).contains(&next),
            SheetFault::OneAboveTaken => {
                (number..=number + 1).contains(&next) || number == next + 1
            }
            SheetFault::WrappedBelowZero => {
                number == next || number == low_bits(next.wrapping_sub(1), 32)
            }
            SheetFault::EodBehindHighestRefused if next > u64::from(u32::MAX) => false,
            SheetFault::SixteenBitsCompared => {
                (0..=1).any(|below| low_bits(number + below, 16) == low_bits(next, 16))
            }
            _ => number == next || number + 1 == next,
        }
    }
}

fn kind_of(aux: &[u8], fault: SheetFault) -> Option<Kind> {
    let [first, second] = bytes(aux, TYPE);
    let kind = Kind::of_type_bytes([first, second]);
    match fault {
        SheetFault::OtherTypeTaken => kind.or(Some(Kind::Data)),
        SheetFault::SecondTypeByteIgnored => Kind::of_type_bytes([first, 0]),
        SheetFault::TypeBitDecides => [Kind::Data, Kind::Marker, Kind::Eod]
            .into_iter()
            .find(|kind| kind.type_bytes()[0] & first != 0),
        SheetFault::OtherBytesCompared => kind.filter(|_| number_at(aux, 0) == 0),
        _ => kind,
    }
}

fn low_bits(number: u64, bits: u32) -> u64 {
    number & ((1 << bits) - 1)
}
