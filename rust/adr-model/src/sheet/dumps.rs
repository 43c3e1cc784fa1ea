//! Dumps of AUX fields. Every byte that does not count is random.

use super::fields::{NUMBER, TYPE};
use crate::frame::{Aux, Kind};
use crate::geometry::AUX_LENGTH;
use crate::random::Random;

/// What counts of an AUX field.
#[derive(Clone, Copy, Debug, PartialEq, Eq)]
pub struct AuxField {
    /// Its type.
    pub type_bytes: [u8; 2],
    /// Its sequence number.
    pub number: u32,
}

impl AuxField {
    /// A field of this kind; of its number the lower 32 bits stand.
    #[must_use]
    pub fn new(kind: Kind, number: u64) -> AuxField {
        let [.., a, b, c, d] = number.to_be_bytes();
        AuxField {
            type_bytes: kind.type_bytes(),
            number: u32::from_be_bytes([a, b, c, d]),
        }
    }

    fn aux(&self, random: &mut Random) -> Aux {
        let mut aux = [0; AUX_LENGTH];
        for part in aux.chunks_exact_mut(8) {
            part.copy_from_slice(&random.bits().to_be_bytes());
        }
        aux[TYPE..TYPE + 2].copy_from_slice(&self.type_bytes);
        aux[NUMBER..NUMBER + 4].copy_from_slice(&self.number.to_be_bytes());
        aux
    }
}

/// Fields from the number `next` on: `b` is a block, `/` a filemark, `<` EOD one
/// below the next number, any other character EOD of the next number.
#[must_use]
pub fn fields(next: u64, kinds: &str) -> Vec<AuxField> {
    let mut next = next;
    let field = |kind| {
        let (kind, number) = match kind {
            'b' => (Kind::Data, next),
            '/' => (Kind::Marker, next),
            '<' => (Kind::Eod, next.wrapping_sub(1)),
            _ => (Kind::Eod, next),
        };
        next += u64::from(kind != Kind::Eod);
        AuxField::new(kind, number)
    };
    kinds.chars().map(field).collect()
}

/// The dump of these fields.
#[must_use]
pub fn dump_of(fields: &[AuxField], seed: u64) -> Vec<u8> {
    let mut random = Random::new(seed);
    fields
        .iter()
        .flat_map(|field| field.aux(&mut random))
        .collect()
}
