//! The bytes of data, marker, EOD and header frames.

use crate::geometry::{
    Address, SequenceNumber, AUX_LENGTH, BLOCK_LENGTH, FIRST_USER, FRAME_LENGTH,
};

/// A whole frame.
pub type Frame = [u8; FRAME_LENGTH];
/// The data of a frame, or a block.
pub type Block = [u8; BLOCK_LENGTH];
/// The AUX of a frame.
pub type Aux = [u8; AUX_LENGTH];

/// AUX type of a header.
pub const HEADER_TYPE: [u8; 2] = [0x08, 0x00];
/// No marker before this frame.
const NO_MARKER: u32 = u32::MAX;
/// The last address named in a header's AUX.
const HEADER_LAST: u32 = 2_999;
/// Where a header's AUX names the old end.
pub(crate) const OLD_END: usize = 224;

/// What a frame among the user frames stands for.
#[derive(Clone, Copy, Debug, PartialEq, Eq, Hash)]
pub enum Kind {
    /// A block.
    Data,
    /// A filemark.
    Marker,
    /// The end of data.
    Eod,
}

impl Kind {
    /// The AUX type of this kind.
    #[must_use]
    pub fn type_bytes(self) -> [u8; 2] {
        match self {
            Kind::Data => [0x80, 0x00],
            Kind::Marker => [0x02, 0x00],
            Kind::Eod => [0x01, 0x00],
        }
    }

    /// The kind that bears these AUX type bytes.
    #[must_use]
    pub fn of_type_bytes(bytes: [u8; 2]) -> Option<Kind> {
        [Kind::Data, Kind::Marker, Kind::Eod]
            .into_iter()
            .find(|kind| kind.type_bytes() == bytes)
    }

    /// The number of access table entries and the first of them.
    fn access_table(self) -> (u8, [u8; 8]) {
        match self {
            Kind::Data => (1, [0, 0, 0x80, 0, 0, 1, 0x0C, 0]),
            Kind::Marker => (1, [0, 0, 0, 0, 0, 1, 0x01, 0]),
            Kind::Eod => (0, [0; 8]),
        }
    }
}

/// Everything that decides the AUX of a frame among the user frames.
#[derive(Clone, Copy, Debug, PartialEq, Eq)]
pub struct Label {
    /// What the frame stands for.
    pub kind: Kind,
    /// The write pass.
    pub pass: u16,
    /// LAST of the cartridge.
    pub last: Address,
    /// The sequence number, which is the block address too.
    pub number: SequenceNumber,
    /// Filemarks before this frame.
    pub filemarks: u32,
    /// Where the latest filemark before it stands.
    pub latest_marker: Option<Address>,
}

/// Everything that decides a header frame.
#[derive(Clone, Copy, Debug, PartialEq, Eq)]
pub struct HeaderFields {
    /// The write pass.
    pub pass: u16,
    /// The update count.
    pub update_count: u32,
    /// LAST of the cartridge.
    pub last: Address,
    /// The address of EOD, or 0 if the recording is not closed.
    pub eod: Address,
    /// The address of the EOD that the recording began at, or 0.
    pub old_end: Address,
}

impl HeaderFields {
    /// A header that says nothing.
    pub const NONE: HeaderFields = HeaderFields {
        pass: 0,
        update_count: 0,
        last: Address(0),
        eod: Address(0),
        old_end: Address(0),
    };

    /// The address from which on an EOD ends a reading.
    #[must_use]
    pub fn ends_from(&self) -> Address {
        match self.eod {
            Address(0) => self.old_end,
            eod => eod,
        }
    }
}

/// The bytes at `at`, or zeros where there are none.
#[must_use]
pub fn bytes<const N: usize>(from: &[u8], at: usize) -> [u8; N] {
    let mut found = [0; N];
    if let Some(part) = from.get(at..).and_then(|rest| rest.get(..N)) {
        found.copy_from_slice(part);
    }
    found
}

/// The 32-bit number at `at`.
#[must_use]
pub fn number_at(from: &[u8], at: usize) -> u32 {
    u32::from_be_bytes(bytes(from, at))
}

/// The data of a frame.
#[must_use]
pub fn data_of(frame: &Frame) -> &[u8] {
    frame.split_at(BLOCK_LENGTH).0
}

/// The AUX of a frame.
#[must_use]
pub fn aux_of(frame: &Frame) -> &[u8] {
    frame.split_at(BLOCK_LENGTH).1
}

fn put(into: &mut [u8], at: usize, part: &[u8]) {
    if let Some(place) = into
        .get_mut(at..)
        .and_then(|rest| rest.get_mut(..part.len()))
    {
        place.copy_from_slice(part);
    }
}

fn put_access_table(aux: &mut [u8], entries: u8, first: [u8; 8]) {
    put(aux, 56, &[0x08, 0x00, entries, 0x00]);
    put(aux, 60, &first);
}

fn put_partition(aux: &mut [u8], at: usize, number: u8, pass: u16, first: Address, last: Address) {
    put(aux, at, &[number, 0x01]);
    put(aux, at + 2, &pass.to_be_bytes());
    put(aux, at + 4, &first.0.to_be_bytes());
    put(aux, at + 8, &last.0.to_be_bytes());
}

/// Fills the AUX of a frame among the user frames.
pub fn fill_aux(aux: &mut [u8], label: &Label) {
    let number = label.number.0;
    let (entries, first) = label.kind.access_table();
    let latest_marker = label.latest_marker.map_or(NO_MARKER, |marker| marker.0);
    aux.fill(0);
    put(aux, 16, &label.kind.type_bytes());
    put_partition(aux, 20, 0x00, label.pass, FIRST_USER, label.last);
    put(aux, 44, &number.to_be_bytes());
    put(aux, 48, &u64::from(number).to_be_bytes());
    put_access_table(aux, entries, first);
    put(aux, 192, &label.filemarks.to_be_bytes());
    put(aux, 196, &[0xFF; 4]);
    put(aux, 200, &latest_marker.to_be_bytes());
}

/// Fills a frame among the user frames; a marker and EOD bring no block.
pub fn fill_frame(frame: &mut Frame, label: &Label, block: Option<&[u8]>) {
    let (data, aux) = frame.split_at_mut(BLOCK_LENGTH);
    match block {
        Some(block) if block.len() == BLOCK_LENGTH => data.copy_from_slice(block),
        _ => data.fill(0),
    }
    fill_aux(aux, label);
}

/// Fills a header frame.
pub fn fill_header(frame: &mut Frame, fields: &HeaderFields) {
    let (data, aux) = frame.split_at_mut(BLOCK_LENGTH);
    data.fill(0);
    put(data, 0, b"ADR_SEQ\0");
    put(data, 8, &[0x01, 0x03]);
    put(data, 16, &[0x01]);
    put_partition(data, 20, 0x00, fields.pass, FIRST_USER, fields.last);
    put(data, 32, &fields.eod.0.to_be_bytes());
    aux.fill(0);
    put(aux, 12, &fields.update_count.to_be_bytes());
    put(aux, 16, &HEADER_TYPE);
    put_partition(aux, 20, 0xFF, u16::MAX, Address(0), Address(HEADER_LAST));
    put_access_table(aux, 0, [0; 8]);
    put(aux, 196, &[0xFF; 8]);
    put(aux, OLD_END, &fields.old_end.0.to_be_bytes());
}

#[cfg(test)]
mod tests {
    use super::*;

    fn expect(aux: &[u8], named: &[(usize, &[u8])]) {
        let mut expected = [0u8; AUX_LENGTH];
        for (at, part) in named {
            expected[*at..*at + part.len()].copy_from_slice(part);
        }
        assert_eq!(aux, expected);
    }

    #[test]
    fn every_byte_of_the_aux() {
        let label = Label {
            kind: Kind::Data,
            pass: 0x1234,
            last: Address(0x0A0B_0C0D),
            number: SequenceNumber(0x0102_0304),
            filemarks: 0x0506_0708,
            latest_marker: Some(Address(0x090A_0B0C)),
        };
        let mut frame = [0xA5; FRAME_LENGTH];
        let block = [0x77; BLOCK_LENGTH];
        fill_frame(&mut frame, &label, Some(&block));
        assert_eq!(data_of(&frame), block);
        let common: [(usize, &[u8]); 6] = [
            (20, &[0, 1, 0x12, 0x34, 0, 0, 0, 10, 0x0A, 0x0B, 0x0C, 0x0D]),
            (44, &[1, 2, 3, 4]),
            (48, &[0, 0, 0, 0, 1, 2, 3, 4]),
            (192, &[5, 6, 7, 8]),
            (196, &[0xFF; 4]),
            (200, &[9, 10, 11, 12]),
        ];
        let mut data = common.to_vec();
        data.push((16, &[0x80, 0]));
        data.push((56, &[8, 0, 1, 0, 0, 0, 0x80, 0, 0, 1, 0x0C, 0]));
        expect(aux_of(&frame), &data);

        for (kind, type_bytes, table) in [
            (Kind::Marker, [2, 0], [8, 0, 1, 0, 0, 0, 0, 0, 0, 1, 1, 0]),
            (Kind::Eod, [1, 0], [8, 0, 0, 0, 0, 0, 0, 0, 0, 0, 0, 0]),
        ] {
            let mut named = common.to_vec();
            named.push((16, &type_bytes));
            named.push((56, &table));
            let mut frame = [0xA5; FRAME_LENGTH];
            fill_frame(&mut frame, &Label { kind, ..label }, None);
            assert_eq!(data_of(&frame), [0; BLOCK_LENGTH]);
            expect(aux_of(&frame), &named);
        }
    }

    #[test]
    fn every_byte_of_a_header() {
        let fields = HeaderFields {
            pass: 0x1234,
            update_count: 0x0102_0304,
            last: Address(0x0A0B_0C0D),
            eod: Address(0x0506_0708),
            old_end: Address(0x1112_1314),
        };
        let mut frame = [0xA5; FRAME_LENGTH];
        fill_header(&mut frame, &fields);
        expect(
            aux_of(&frame),
            &[
                (12, &[1, 2, 3, 4]),
                (16, &[8, 0]),
                (20, &[0xFF, 1, 0xFF, 0xFF, 0, 0, 0, 0, 0, 0, 0x0B, 0xB7]),
                (56, &[8, 0, 0, 0]),
                (196, &[0xFF; 8]),
                (224, &[0x11, 0x12, 0x13, 0x14]),
            ],
        );
        let mut data = [0u8; BLOCK_LENGTH];
        data[..10].copy_from_slice(b"ADR_SEQ\0\x01\x03");
        data[16] = 1;
        data[20..36].copy_from_slice(&[
            0, 1, 0x12, 0x34, 0, 0, 0, 10, 0x0A, 0x0B, 0x0C, 0x0D, 5, 6, 7, 8,
        ]);
        assert_eq!(data_of(&frame), data);
    }

    #[test]
    fn where_an_eod_ends_a_reading() {
        for (eod, old_end, ends_from) in [(0, 0, 0), (0, 12, 12), (20, 12, 20), (12, 20, 12)] {
            let fields = HeaderFields {
                pass: 1,
                update_count: 0,
                last: Address(3_000),
                eod: Address(eod),
                old_end: Address(old_end),
            };
            assert_eq!(fields.ends_from(), Address(ends_from));
        }
    }

    #[test]
    fn no_marker_before() {
        let label = Label {
            kind: Kind::Eod,
            pass: 1,
            last: Address(3_000),
            number: SequenceNumber(0),
            filemarks: 0,
            latest_marker: None,
        };
        let mut aux = [0u8; AUX_LENGTH];
        fill_aux(&mut aux, &label);
        assert_eq!(number_at(&aux, 200), u32::MAX);
        assert_eq!(bytes::<4>(&aux, 510), [0; 4]);
    }
}
