//! Header frames read: validity, fields and the choice between two.

use crate::frame::{aux_of, bytes, data_of, number_at, Frame, HeaderFields, HEADER_TYPE, OLD_END};
use crate::geometry::{Address, Geometry, FIRST_USER};

/// Refusal number: lent length wrong.
const WRONG_LENGTH: u8 = 1;
/// Refusal number: too few frames.
const TOO_FEW_FRAMES: u8 = 2;
/// Refusal number: no valid header, or two of one count that differ.
const UNFIT_HEADER: u8 = 3;

/// The fields of a valid header of a cartridge that ends at `last`.
#[must_use]
pub fn fields_of(frame: &Frame, last: Address) -> Option<HeaderFields> {
    let (data, aux) = (data_of(frame), aux_of(frame));
    let fields = HeaderFields {
        pass: u16::from_be_bytes(bytes(data, 22)),
        update_count: number_at(aux, 12),
        last: Address(number_at(data, 28)),
        eod: Address(number_at(data, 32)),
        old_end: Address(number_at(aux, OLD_END)),
    };
    let [major, minor] = bytes(data, 8);
    let named = data.starts_with(b"ADR_SEQ\0")
        && major == 1
        && (minor == 2 || minor == 3)
        && bytes(data, 16) == [1]
        && bytes(data, 20) == [0, 1]
        && number_at(data, 24) == FIRST_USER.0;
    let within = fields.last == last
        && fields.pass <= 65_534
        && (fields.eod == Address(0) || fields.eod.is_user_frame(last));
    let labelled =
        number_at(aux, 0) == 0 && bytes(aux, 16) == HEADER_TYPE && bytes(aux, 20) == [0xFF];
    (named && within && labelled).then_some(fields)
}

/// The fields of a lent header, or refusal 1, 2 or 3.
///
/// # Errors
/// The number of the refusal.
pub fn check(geometry: &Geometry, header: &[u8]) -> Result<HeaderFields, u8> {
    let frame = <&Frame>::try_from(header).map_err(|_| WRONG_LENGTH)?;
    let last = geometry.last().ok_or(TOO_FEW_FRAMES)?;
    fields_of(frame, last).ok_or(UNFIT_HEADER)
}

/// The newest of two lent headers, or refusal 1, 2 or 3.
///
/// # Errors
/// The number of the refusal.
pub fn choose<'a>(geometry: &Geometry, first: &'a [u8], second: &'a [u8]) -> Result<&'a [u8], u8> {
    match (check(geometry, first), check(geometry, second)) {
        (Err(one), Err(other)) => Err(one.min(other)),
        (Ok(_), Err(UNFIT_HEADER)) => Ok(first),
        (Err(UNFIT_HEADER), Ok(_)) => Ok(second),
        (Ok(_), Err(number)) | (Err(number), Ok(_)) => Err(number),
        (Ok(one), Ok(other)) if one.update_count > other.update_count => Ok(first),
        (Ok(one), Ok(other)) if one.update_count < other.update_count => Ok(second),
        (Ok(_), Ok(_)) => same_data(first, second).ok_or(UNFIT_HEADER),
    }
}

fn same_data<'a>(first: &'a [u8], second: &[u8]) -> Option<&'a [u8]> {
    let one = <&Frame>::try_from(first).ok()?;
    let other = <&Frame>::try_from(second).ok()?;
    (data_of(one) == data_of(other)).then_some(first)
}

#[cfg(test)]
mod tests {
    use super::*;
    use crate::frame::fill_header;
    use crate::geometry::{BLOCK_LENGTH, FRAME_LENGTH};

    const GEOMETRY: Geometry = Geometry {
        frames_per_track: 1_000,
        tracks: 12,
        load_point: 0,
    };

    fn header(pass: u16, update_count: u32) -> Frame {
        let mut frame = [0; FRAME_LENGTH];
        let fields = HeaderFields {
            pass,
            update_count,
            last: Address(11_999),
            eod: Address(0),
            old_end: Address(0),
        };
        fill_header(&mut frame, &fields);
        frame
    }

    #[test]
    fn fields_read_back() {
        for eod in [0, 10, 2_989, 3_000, 11_999] {
            for (pass, old_end) in [(0, 0), (1, u32::MAX), (65_534, 2_990)] {
                let fields = HeaderFields {
                    pass,
                    update_count: u32::MAX,
                    last: Address(11_999),
                    eod: Address(eod),
                    old_end: Address(old_end),
                };
                let mut frame = [0; FRAME_LENGTH];
                fill_header(&mut frame, &fields);
                assert_eq!(check(&GEOMETRY, &frame), Ok(fields));
            }
        }
    }

    #[test]
    fn which_bytes_count() {
        let valid = header(7, 8);
        let data: [usize; 27] = [
            0, 1, 2, 3, 4, 5, 6, 7, 8, 9, 16, 20, 21, 24, 25, 26, 27, 28, 29, 30, 31, 32, 33, 34,
            35, 22, 23,
        ];
        let aux: [usize; 7] = [0, 1, 2, 3, 16, 17, 20];
        for at in 0..FRAME_LENGTH {
            let mut frame = valid;
            frame[at] ^= 0x80;
            let pass = at == 22 || at == 23;
            let names = at < BLOCK_LENGTH && data.contains(&at) && !pass
                || at >= BLOCK_LENGTH && aux.contains(&(at - BLOCK_LENGTH));
            // EOD address 128 is a user frame.
            let expected = names && at != 35;
            assert_eq!(check(&GEOMETRY, &frame) == Err(3), expected, "byte {at}");
        }
        let mut minor = valid;
        minor[9] = 2;
        assert!(check(&GEOMETRY, &minor).is_ok());
        for wrong in [0, 1, 4, 255] {
            minor[9] = wrong;
            assert_eq!(check(&GEOMETRY, &minor), Err(3));
        }
        assert_eq!(check(&GEOMETRY, &header(65_535, 0)), Err(3));
        for eod in [1, 9, 2_990, 2_999, 12_000, u32::MAX] {
            let mut frame = valid;
            frame[32..36].copy_from_slice(&u32::to_be_bytes(eod));
            assert_eq!(check(&GEOMETRY, &frame), Err(3));
        }
    }

    #[test]
    fn choice_of_two() {
        let older = header(7, 8);
        let newer = header(6, 9);
        let unlike = header(6, 8);
        let mut invalid = header(7, 10);
        invalid[6] = b'X';
        let short = &older[1..];
        let pick = |one: &[u8], other: &[u8]| choose(&GEOMETRY, one, other).map(<[u8]>::to_vec);
        assert_eq!(pick(&older, &newer), Ok(newer.to_vec()));
        assert_eq!(pick(&newer, &older), Ok(newer.to_vec()));
        assert_eq!(pick(&older, &unlike), Err(3));
        let mut other_aux = older;
        other_aux[FRAME_LENGTH - 1] = 1;
        let chosen = choose(&GEOMETRY, &older, &other_aux).unwrap_or(&[]);
        assert!(std::ptr::eq(chosen, &older[..]));
        assert_eq!(pick(&invalid, &older), Ok(older.to_vec()));
        assert_eq!(pick(&older, &invalid), Ok(older.to_vec()));
        assert_eq!(pick(&invalid, &invalid), Err(3));
        assert_eq!(pick(short, &older), Err(1));
        assert_eq!(pick(&older, short), Err(1));
        assert_eq!(pick(&invalid, short), Err(1));
        let small = Geometry::beginning(3_000, 1);
        assert_eq!(choose(&small, &older, &newer), Err(2));
        assert_eq!(choose(&small, short, &newer), Err(1));
    }
}
