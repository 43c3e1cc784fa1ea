//! Adding to a cartridge, by hand.

mod common;

use adr_model::frame::{fill_frame, number_at, HeaderFields, Kind, Label};
use adr_model::geometry::{BLOCK_LENGTH, FRAME_LENGTH};
use adr_model::reply::BECOMING_READY;
use adr_model::{
    Address, Answer, Command, Outcome, ReadAnswer, ReadOutcome, Reading, Recording, Reply,
    SequenceNumber,
};
use common::cartridge::Cartridge;
use common::*;

const LAST: u32 = 11_999;
const REFUSED: fn(u8) -> Outcome = Outcome::Refused;

/// A header of pass 7 and count 3 that names its end.
fn closed(eod: u32) -> HeaderFields {
    HeaderFields {
        pass: 7,
        update_count: 3,
        last: Address(LAST),
        eod: Address(eod),
        old_end: Address(0),
    }
}

impl Cartridge {
    /// Filemark 0 and blocks 1 and 2 from 10 on, and EOD 3 at the end.
    fn closed_at(end: u32) -> Cartridge {
        let mut cartridge = Cartridge::blank(geometry()).with_header(&closed(end));
        for (address, kind, number) in [
            (10, Kind::Marker, 0),
            (11, Kind::Data, 1),
            (12, Kind::Data, 2),
            (end, Kind::Eod, 3),
        ] {
            cartridge.put(address, kind, number);
        }
        cartridge
    }

    fn put(&mut self, address: u32, kind: Kind, number: u32) {
        let label = Label {
            kind,
            pass: 7,
            last: Address(LAST),
            number: SequenceNumber(number),
            // Of what an EOD names itself nothing is taken over.
            filemarks: 40,
            latest_marker: Some(Address(2_000)),
        };
        let mut frame = [0; FRAME_LENGTH];
        fill_frame(&mut frame, &label, Some(&[0xE0; BLOCK_LENGTH]));
        self.frames.insert(address, frame.to_vec());
    }

    fn with_header(mut self, fields: &HeaderFields) -> Cartridge {
        self.header = header_of(fields).to_vec();
        self
    }

    /// A host that adds here.
    #[track_caller]
    fn added(&self, depth: u32, blocks: u32) -> Host {
        let (reading, _, refused) = self.read();
        assert_eq!(refused, 0);
        Host::of(Recording::open_at_end(&reading, depth, blocks, 0), blocks)
    }
}

/// What the lent frame says, which is a header: pass, count, EOD's address,
/// old end.
fn header_says(host: &Host) -> (u16, u32, u32, u32) {
    let pass = u16::from_be_bytes([host.frame[22], host.frame[23]]);
    (
        pass,
        host.aux(12),
        number_at(&host.frame, 32),
        host.aux(224),
    )
}

/// A host that has written its opening headers and gone to the old end.
fn at_old_end(end: u32, depth: u32, blocks: u32) -> Host {
    let mut host = Cartridge::closed_at(end).added(depth, blocks);
    host.write_headers();
    assert_eq!(header_says(&host), (7, 4, 0, end));
    host.step(locate(end), good());
    host
}

/// The number, the filemarks before and the latest marker of the lent frame.
fn label(host: &Host) -> (u32, u32, u32) {
    assert_eq!(host.aux(224), 0);
    (host.aux(44), host.aux(192), host.aux(200))
}

#[test]
fn the_first_element_goes_to_the_old_end() {
    for end in [13, 200, 2_989, 3_000, LAST] {
        let mut host = at_old_end(end, 4, 2);
        assert_eq!(host.fetch(), Answer::Idle);
        host.block(9);
        // Block 3 of a window of two.
        assert!(host.window[..BLOCK_LENGTH].iter().all(|byte| *byte == 0));
        assert!(host.window[BLOCK_LENGTH..].iter().all(|byte| *byte == 9));
        host.filemark();
        host.step(write(end), good());
        assert_eq!(label(&host), (3, 1, 10));
        assert_eq!(host.frame[0], 9);
        match end {
            2_989 => {
                host.step(READ_POSITION, Reply::position(0));
                host.step(locate(3_000), good());
                host.step(write(3_000), good());
            }
            LAST => {
                host.step(READ_POSITION, Reply::position(0));
                assert_eq!(host.fetch(), Answer::Refused(9));
                host.is_ended();
                continue;
            }
            end => host.step(write(end + 1), good()),
        }
        assert_eq!(label(&host), (4, 1, 10));
    }
}

/// EOD again at the same address and with the same number.
#[test]
fn nothing_is_added() {
    for end in [13, 2_989, 3_000, LAST] {
        let mut host = at_old_end(end, 4, 2);
        host.close();
        host.step(write(end), good());
        assert_eq!(label(&host), (3, 1, 10));
        host.step(READ_POSITION, Reply::position(0));
        host.write_headers();
        assert_eq!(header_says(&host), (7, 5, end, 0));
        assert_eq!(host.fetch(), Answer::Done);
    }
}

#[test]
fn a_fresh_recording_names_no_old_end() {
    let mut host = Host::open(&geometry(), 4, 2);
    host.write_headers();
    assert_eq!(header_says(&host), (1, 0, 0, 0));
    // Nor does one on a header that names one.
    let old = header_of(&HeaderFields {
        eod: Address(0),
        old_end: Address(40),
        ..closed(0)
    });
    let opened = Recording::open(&geometry(), 4, 2, 0, Some(&old));
    let mut host = Host::of(opened, 2);
    host.write_headers();
    assert_eq!(header_says(&host), (8, 4, 0, 0));
}

#[test]
fn three_in_a_row() {
    let mut cartridge = Cartridge::closed_at(13);
    let mut accepted = vec![b'F', 0xE0, 0xE0];
    for turn in 0..3 {
        let (_, delivered, _) = cartridge.read();
        assert_eq!(delivered, accepted);
        let mut host = cartridge.added(4, 1 + turn);
        assert_eq!(cartridge.play(&mut host), Answer::Idle);
        let byte = u8::try_from(turn).unwrap_or(0);
        host.block(byte);
        assert_eq!(cartridge.play(&mut host), Answer::Idle);
        host.filemark();
        host.close();
        assert_eq!(cartridge.play(&mut host), Answer::Done);
        assert_eq!(header_says(&host), (7, 5 + 2 * turn, 15 + 2 * turn, 0));
        accepted.extend([byte, b'F']);
    }
    let (_, delivered, refused) = cartridge.read();
    assert_eq!((delivered, refused), (accepted, 0));
    let eod = &cartridge.frames[&19];
    let aux = |at| number_at(&eod[BLOCK_LENGTH..], at);
    assert_eq!((aux(44), aux(192), aux(200)), (9, 4, 18));
}

/// The write at the old end fails, and the old EOD still reads.
#[test]
fn the_old_eod_still_reads() {
    let mut cartridge = Cartridge::closed_at(13);
    let mut host = cartridge.added(4, 2);
    host.write_headers();
    cartridge.keep(5, &host.frame.clone());
    host.step(locate(13), good());
    host.block(9);
    host.step(write(13), good());
    host.step(READ_POSITION, error(13, 2));
    host.step(locate(15), good());
    host.step(write(15), good());
    assert_eq!(label(&host), (3, 1, 10));
    cartridge.keep(15, &host.frame.clone());
    // Cut here, the reading ends where the old one did, and nothing is added.
    let (reading, delivered, refused) = cartridge.read();
    assert_eq!((delivered, refused), (vec![b'F', 0xE0, 0xE0], 0));
    assert_eq!(Recording::open_at_end(&reading, 1, 1, 0).1, REFUSED(13));
    host.close();
    assert_eq!(cartridge.play(&mut host), Answer::Done);
    let (_, delivered, refused) = cartridge.read();
    assert_eq!((delivered, refused), (vec![b'F', 0xE0, 0xE0, 9], 0));
}

/// A frame of the pass that was left above the old end is read where the new
/// EOD fails before it, and no call notices: it must not be there.
#[test]
fn a_left_over_element_is_read() {
    let mut cartridge = Cartridge::closed_at(13);
    cartridge.put(15, Kind::Data, 4);
    let mut host = cartridge.added(4, 2);
    assert_eq!(cartridge.play(&mut host), Answer::Idle);
    host.block(9);
    assert_eq!(cartridge.play(&mut host), Answer::Idle);
    host.close();
    host.step(write(14), good());
    host.step(READ_POSITION, error(14, 2));
    assert_eq!(cartridge.play(&mut host), Answer::Done);
    let (_, delivered, refused) = cartridge.read();
    assert_eq!(delivered, vec![b'F', 0xE0, 0xE0, 9, 0xE0]);
    // EOD is one below what is then expected, and ends the reading all the same.
    assert_eq!(refused, 0);
}

/// Earlier ends, and what is looked at before them.
#[test]
fn earlier_ends() {
    let end_of = |cartridge: &Cartridge| {
        let (reading, _, refused) = cartridge.read();
        (reading.end().map(|(_, start)| start.at.0), refused)
    };
    let open_at = |old_end| HeaderFields {
        old_end: Address(old_end),
        ..closed(0)
    };
    let two_ends = || {
        let mut cartridge = Cartridge::closed_at(13);
        cartridge.put(20, Kind::Eod, 3);
        cartridge
    };
    for (fields, end) in [
        (closed(13), 13),
        (closed(14), 20),
        (closed(20), 20),
        (open_at(0), 13),
        (open_at(13), 13),
        (open_at(14), 20),
        (open_at(20), 20),
        // An end that is named decides over an old one.
        (
            HeaderFields {
                old_end: Address(20),
                ..closed(13)
            },
            13,
        ),
    ] {
        let read = end_of(&two_ends().with_header(&fields));
        assert_eq!(read, (Some(end), 0), "{fields:?}");
    }
    for fields in [closed(21), open_at(21), open_at(u32::MAX)] {
        let read = end_of(&two_ends().with_header(&fields));
        assert_eq!(read, (None, 12), "{fields:?}");
    }
    // Below the named end it is passed over all the same; there it is refused with 11.
    let mut foreign = two_ends();
    foreign.frames.get_mut(&13).expect("EOD")[BLOCK_LENGTH + 60] = 1;
    assert_eq!(
        end_of(&foreign.clone().with_header(&closed(14))),
        (Some(20), 0)
    );
    assert_eq!(end_of(&foreign.with_header(&closed(13))), (None, 11));
    // A number above the expected one comes before, one below is earlier.
    let mut above = two_ends();
    above.put(13, Kind::Eod, 4);
    assert_eq!(end_of(&above.with_header(&closed(20))), (None, 10));
    let mut below = two_ends();
    below.put(13, Kind::Eod, 2);
    assert_eq!(end_of(&below.with_header(&closed(10))), (Some(20), 0));
}

/// A reading to the EOD at 13 of a closed cartridge, on another header.
fn read_on(fields: &HeaderFields) -> Reading {
    let (reading, _, refused) = Cartridge::closed_at(13).with_header(fields).read();
    assert_eq!(refused, 0);
    reading
}

#[track_caller]
fn opens(reading: &Reading, depth: u32, blocks: u32, outcome: Outcome) {
    let before = reading.clone();
    let (mut session, answered) = Recording::open_at_end(reading, depth, blocks, 0);
    assert_eq!((answered, reading), (outcome, &before));
    if outcome != ACCEPTED {
        assert_eq!(session.state(), None);
        assert_eq!(session.fetch(&[], &mut []), Answer::Refused(7));
        assert_eq!(session.accept_filemark(), REFUSED(7));
        assert_eq!(session.close(), REFUSED(7));
    }
}

#[test]
fn counts_and_passes() {
    for (pass, update_count, outcome) in [
        (0, 0, ACCEPTED),
        (65_534, 3, ACCEPTED),
        (65_534, 4_294_967_293, ACCEPTED),
        (7, 4_294_967_294, REFUSED(5)),
        (65_534, u32::MAX, REFUSED(5)),
    ] {
        let fields = HeaderFields {
            pass,
            update_count,
            ..closed(13)
        };
        let mut cartridge = Cartridge::closed_at(13).with_header(&fields);
        for frame in cartridge.frames.values_mut() {
            frame[BLOCK_LENGTH + 22..][..2].copy_from_slice(&pass.to_be_bytes());
        }
        let (reading, _, _) = cartridge.read();
        opens(&reading, 255, 64, outcome);
        if outcome == ACCEPTED {
            let mut host = cartridge.added(255, 64);
            host.write_headers();
            assert_eq!(header_says(&host), (pass, update_count + 1, 0, 13));
            host.close();
            assert_eq!(cartridge.play(&mut host), Answer::Done);
            assert_eq!(header_says(&host), (pass, update_count + 2, 13, 0));
        }
    }
}

/// The header names another end, or none.
#[test]
fn ends_elsewhere() {
    for (eod, outcome) in [
        (13, ACCEPTED),
        (0, REFUSED(13)),
        (12, REFUSED(13)),
        (10, REFUSED(13)),
    ] {
        opens(&read_on(&closed(eod)), 1, 1, outcome);
    }
    // An old end is none.
    let open = HeaderFields {
        old_end: Address(13),
        ..closed(0)
    };
    opens(&read_on(&open), 1, 1, REFUSED(13));
}

#[test]
fn readings_not_at_their_end() {
    let cartridge = Cartridge::closed_at(13);
    let (mut reading, _) = Reading::open(&geometry(), &cartridge.header);
    opens(&reading, 1, 1, REFUSED(7));
    let frame = [0; FRAME_LENGTH];
    while reading.fetch() != ReadAnswer::End {
        opens(&reading, 1, 1, REFUSED(7));
        reading.reply(&Reply::of(BECOMING_READY), &frame);
        opens(&reading, 1, 1, REFUSED(7));
        let ReadAnswer::Command(command) = reading.fetch() else {
            panic!("no command after busy");
        };
        let at = match command {
            Command::Read(at) => cartridge.frames.get(&at.0),
            _ => None,
        };
        let brought = at.map_or(frame.as_slice(), |frame| frame.as_slice());
        let outcome = reading.reply(&good(), brought);
        let end = outcome == ReadOutcome::End;
        opens(&reading, 1, 1, if end { ACCEPTED } else { REFUSED(7) });
    }
    opens(&reading, 1, 1, ACCEPTED);
    // A call refused at the end leaves it there.
    assert_eq!(reading.reply(&good(), &frame), ReadOutcome::Refused(7));
    opens(&reading, 1, 1, ACCEPTED);

    let mut missing = Cartridge::closed_at(13);
    missing.frames.remove(&11);
    let mut endless = Cartridge::closed_at(13);
    endless.frames.remove(&13);
    let mut foreign = Cartridge::closed_at(13);
    foreign.frames.get_mut(&12).expect("block 2")[BLOCK_LENGTH + 66] = 0x4C;
    for (cartridge, number) in [(missing, 10), (endless, 12), (foreign, 11)] {
        let (reading, _, refused) = cartridge.read();
        assert_eq!(refused, number);
        opens(&reading, 1, 1, REFUSED(7));
    }
    let (reading, outcome) = Reading::open(&geometry(), &[0; FRAME_LENGTH]);
    assert_eq!(outcome, REFUSED(3));
    opens(&reading, 1, 1, REFUSED(7));
}

/// 7, 4, 5, 13: each where all behind it holds too.
#[test]
fn the_order_of_the_refusals() {
    let spent = HeaderFields {
        update_count: 4_294_967_294,
        ..closed(0)
    };
    let (unread, _) = Reading::open(&geometry(), &header_of(&spent));
    opens(&unread, 0, 0, REFUSED(7));
    for (depth, blocks) in [(0, 1), (256, 1), (1, 0), (1, 65), (u32::MAX, u32::MAX)] {
        opens(&read_on(&spent), depth, blocks, REFUSED(4));
    }
    opens(&read_on(&spent), 1, 1, REFUSED(5));
    opens(&read_on(&closed(0)), 1, 1, REFUSED(13));
    for (depth, blocks) in [(1, 1), (255, 64)] {
        opens(&read_on(&closed(13)), depth, blocks, ACCEPTED);
    }
}
