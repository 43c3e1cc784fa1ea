//! Sheets printed from dumps and from readings over the simulated drive.

mod simulated;

use std::convert::Infallible;
use std::io::{self, ErrorKind, Read, Write};
use std::ops::ControlFlow;

use adr_model::drive;
use adr_model::hostility::Hostility;
use adr_model::random::Random;
use adr_model::sheet::dumps::{dump_of, fields};
use adr_model::sheet::random_dumps::dump_of_seed;
use adr_model::sheet::sheet_of;
use adr_model::tape::Tape;
use adr_tape::{
    print_sheet, read_deliveries, record_all, Delivery, Element, Geometry, ReadError, Reader,
    Setup, SheetEnd, SheetError, ShelfSheet, AUX_LENGTH, LINE_LENGTH,
};
use simulated::{elements, newest, sent, Simulated};

const SEEDS: u64 = if cfg!(debug_assertions) { 100 } else { 1_000 };
const CARTRIDGES: u64 = if cfg!(debug_assertions) { 20 } else { 100 };
const ASTERISKS: &str = "***************************\n";
const GEOMETRY: Geometry = Geometry::beginning(3_200, 1);
const SETUP: Setup = Setup {
    depth: 8,
    blocks: 16,
    tail: 8,
};

fn dump(kinds: &str) -> Vec<u8> {
    dump_of(&fields(0, kinds), 9)
}

/// A dump that comes in small pieces, with interruptions between them.
struct Pieces<'d> {
    dump: &'d [u8],
    random: Random,
}

impl Read for Pieces<'_> {
    fn read(&mut self, buffer: &mut [u8]) -> io::Result<usize> {
        if self.random.chance(300) {
            return Err(ErrorKind::Interrupted.into());
        }
        let most = [1, 7, 511, 513][self.random.below(4) as usize];
        let length = most.min(buffer.len());
        self.dump.read(&mut buffer[..length])
    }
}

#[test]
fn sheets_of_dumps() {
    let mut broken_off = 0;
    for seed in 0..SEEDS {
        let dump = dump_of_seed(seed);
        let expected = sheet_of(&dump);
        let end = if expected.ends_with(ASTERISKS) {
            SheetEnd::BrokenOff
        } else {
            SheetEnd::Whole
        };
        broken_off += u64::from(end == SheetEnd::BrokenOff);
        let pieces = Pieces {
            dump: &dump,
            random: Random::new(seed),
        };
        let mut sheet = Vec::new();
        let printed = print_sheet(pieces, &mut sheet).expect("both work");
        assert_eq!(printed, end, "seed {seed}");
        assert_eq!(String::from_utf8(sheet).expect("text"), expected);
    }
    assert!((SEEDS / 10..SEEDS).contains(&broken_off), "{broken_off}");
}

/// What stands behind the end of data, or behind what ended the sheet, is left to
/// whoever reads on.
#[test]
fn nothing_is_read_behind_the_end() {
    let wrong = [dump("bb"), dump("b")].concat();
    for (fields, end) in [
        (dump("bb//e"), SheetEnd::Whole),
        (wrong, SheetEnd::BrokenOff),
    ] {
        let whole = [&fields[..], b"what follows"].concat();
        let mut rest = whole.as_slice();
        let printed = print_sheet(&mut rest, io::sink()).expect("both work");
        assert_eq!((printed, rest), (end, &b"what follows"[..]));
    }
}

/// A dump that cannot be read behind so many bytes.
struct Unreadable<'d>(&'d [u8]);

impl Read for Unreadable<'_> {
    fn read(&mut self, buffer: &mut [u8]) -> io::Result<usize> {
        if self.0.is_empty() {
            // Not what the end of a dump is.
            return Err(ErrorKind::UnexpectedEof.into());
        }
        self.0.read(buffer)
    }
}

/// Such a dump is told, and its sheet does not look whole.
#[test]
fn dumps_that_cannot_be_read() {
    let dump = dump("bb//e");
    for length in [0, 1, 511, 512, 513, 1_536, 2_047, 2_559] {
        let mut sheet = Vec::new();
        let printed = print_sheet(Unreadable(&dump[..length]), &mut sheet);
        let Err(SheetError::Dump(error)) = printed else {
            panic!("{length}: {printed:?}");
        };
        assert_eq!(error.kind(), ErrorKind::UnexpectedEof);
        assert_eq!(
            String::from_utf8(sheet).expect("text"),
            sheet_of(&dump[..length])
        );
    }
    // The end of data was read: what follows is not asked for.
    let printed = print_sheet(Unreadable(&dump), io::sink());
    assert_eq!(printed.expect("both work"), SheetEnd::Whole);
}

/// Paper that is out behind so many bytes, or fails when all of it is written.
struct Paper {
    left: usize,
    flushes: bool,
}

impl Write for Paper {
    fn write(&mut self, bytes: &[u8]) -> io::Result<usize> {
        if self.left == 0 {
            return Err(ErrorKind::StorageFull.into());
        }
        let length = bytes.len().min(self.left);
        self.left -= length;
        Ok(length)
    }

    fn flush(&mut self) -> io::Result<()> {
        if self.flushes {
            Ok(())
        } else {
            Err(ErrorKind::BrokenPipe.into())
        }
    }
}

#[test]
fn sheets_that_cannot_be_written() {
    let dump = dump("bb//e");
    let whole = 3 * LINE_LENGTH;
    for left in [0, 1, LINE_LENGTH, whole - 1, whole] {
        for flushes in [false, true] {
            let expected = match (left == whole, flushes) {
                (false, _) => Some(ErrorKind::StorageFull),
                (true, false) => Some(ErrorKind::BrokenPipe),
                (true, true) => None,
            };
            let failed = match print_sheet(&dump[..], Paper { left, flushes }) {
                Ok(end) => {
                    assert_eq!(end, SheetEnd::Whole);
                    None
                }
                Err(SheetError::Output(error)) => Some(error.kind()),
                Err(error) => panic!("{error}"),
            };
            assert_eq!(failed, expected, "{left}");
        }
    }
}

/// A drive with faults and a cartridge of these elements.
fn recorded(seed: u64, elements: &[Element<'static>]) -> Simulated {
    let hostility = Hostility {
        failure: 30,
        progress: 400,
        report: 500,
        busy: 50,
        reads_nothing: 500,
        ..Hostility::NONE
    };
    let mut drive = Simulated(drive::Drive::new(Tape::default(), 8, hostility, seed));
    let recorded = record_all(&mut drive, GEOMETRY, SETUP, None, sent(elements), |_| {});
    recorded.expect("room for a few");
    drive
}

/// Elements as the model writes them.
fn kinds_of(elements: &[Element<'static>]) -> String {
    let kinds = elements.iter().map(|element| match element {
        Element::Block(_) => 'b',
        Element::Filemark => '/',
    });
    kinds.collect()
}

/// The deliveries of a reading are the elements and the end of data, and with
/// their fields the sheet is that of the elements.
#[test]
fn sheets_of_readings() {
    for seed in 0..CARTRIDGES {
        let elements = elements(&mut Random::new(seed));
        let mut drive = recorded(seed, &elements);
        let header = newest(&mut drive, GEOMETRY);
        let mut reader = Reader::open(GEOMETRY, &header).expect("a valid header");
        let (mut sheet, heading) = ShelfSheet::open();
        let mut printed = heading.to_string();
        let (mut delivered, mut dump) = (Vec::new(), Vec::new());
        let mut ends = 0;
        let sink = |delivery: Delivery<'_>, aux: &[u8; AUX_LENGTH]| {
            match delivery {
                Delivery::Nothing => panic!("nothing was delivered"),
                Delivery::Block(block) => delivered.push(Element::from(block.to_vec())),
                Delivery::Filemark => delivered.push(Element::Filemark),
                Delivery::End => ends += 1,
            }
            printed.extend(sheet.enter(aux).map(|line| line.to_string()));
            dump.extend_from_slice(aux);
            Ok::<_, Infallible>(ControlFlow::Continue(()))
        };
        let summary = read_deliveries(&mut drive, &mut reader, sink, |_| {}).expect("it reads");
        assert!(delivered == elements, "seed {seed}");
        assert_eq!((ends, summary.elements()), (1, elements.len() as u64));
        assert!(sheet.has_ended() && sheet.finish().is_none());
        let fields = fields(0, &format!("{}e", kinds_of(&elements)));
        assert_eq!(printed, sheet_of(&dump_of(&fields, 9)), "seed {seed}");
        assert_eq!(printed, sheet_of(&dump), "seed {seed}");
    }
}

/// A sink that breaks, or fails, ends a reading where it is.
#[test]
fn sinks_that_want_no_more() {
    let elements = elements(&mut Random::new(3));
    assert!(elements.len() > 5);
    let mut drive = recorded(3, &elements);
    let header = newest(&mut drive, GEOMETRY);
    let mut read = |last: Result<ControlFlow<()>, &'static str>| {
        let mut reader = Reader::open(GEOMETRY, &header).expect("a valid header");
        let mut taken = 0;
        let sink = |_: Delivery<'_>, _: &[u8; AUX_LENGTH]| {
            taken += 1;
            if taken < 5 {
                Ok(ControlFlow::Continue(()))
            } else {
                last
            }
        };
        let read = read_deliveries(&mut drive, &mut reader, sink, |_| {});
        (read.map(|summary| summary.elements()), taken)
    };
    assert_eq!(read(Ok(ControlFlow::Break(()))), (Ok(5), 5));
    assert_eq!(read(Err("enough")), (Err(ReadError::Sink("enough")), 5));
}
