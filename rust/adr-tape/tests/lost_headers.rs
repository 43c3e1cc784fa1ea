//! What `include/adr.h` says under WRITE PASSES: a recording whose closing
//! headers are lost leaves frames of a pass that the next one takes again, and
//! a recording without elements before that one helps. And what
//! `Recorder::open_at_end` says: an addition that is lost so leaves frames that
//! the next one's are mixed with.

use std::collections::BTreeMap;
use std::convert::Infallible;
use std::ops::ControlFlow;

use adr_tape::{
    append_all, header_addresses, newest_header, read_all, record_all, Address, AppendError,
    Appended, Drive, Element, Geometry, ReadError, RecordError, Refusal, Reply, Sense, Setup,
    Summary, BLOCK_LENGTH,
};

const GEOMETRY: Geometry = Geometry::beginning(3_001, 1);
const SETUP: Setup = Setup {
    depth: 1,
    blocks: 2,
    tail: 0,
};
const SKIP: u32 = 10;

/// A bad spot.
#[derive(Clone, Copy)]
enum Spot {
    /// Every write fails, and what was there before reads.
    Bad,
    /// Takes one frame and loses it at the next write.
    Wearing,
    Worn,
}

/// A drive that buffers one frame.
#[derive(Default)]
struct Memory {
    tape: BTreeMap<Address, Vec<u8>>,
    spots: BTreeMap<Address, Spot>,
    failed: Option<Address>,
    at: u32,
}

impl Drive for Memory {
    type Error = Infallible;

    fn locate(&mut self, address: Address) -> Result<Reply, Infallible> {
        self.at = address.0;
        self.failed = None;
        Ok(Reply::good())
    }

    fn write(&mut self, address: Address, frame: &[u8]) -> Result<Reply, Infallible> {
        match self.spots.get(&address) {
            Some(Spot::Bad) => self.failed = Some(address),
            Some(Spot::Worn) => {
                self.failed = Some(address);
                self.tape.remove(&address);
            }
            wearing => {
                if wearing.is_some() {
                    self.spots.insert(address, Spot::Worn);
                }
                self.tape.insert(address, frame.to_vec());
            }
        }
        Ok(Reply::good())
    }

    fn read(&mut self, _: Address, frame: &mut [u8]) -> Result<Reply, Infallible> {
        let found = self.tape.get(&Address(self.at));
        self.at += 1;
        Ok(match found {
            Some(found) => {
                frame.copy_from_slice(found);
                Reply::good()
            }
            None => Reply::sense(Sense::UNREADABLE),
        })
    }

    fn read_position(&mut self) -> Result<Reply, Infallible> {
        Ok(match self.failed {
            Some(address) => Reply::write_error(address, SKIP),
            None => Reply::buffered(0),
        })
    }
}

/// Blocks of these bytes.
fn blocks(bytes: &[u8]) -> impl Iterator<Item = Result<Element<'static>, Infallible>> + '_ {
    let blocks = bytes.iter().map(|byte| vec![*byte; BLOCK_LENGTH]);
    blocks.map(|block| Ok(Element::from(block)))
}

impl Memory {
    fn newest_header(&mut self) -> Option<Vec<u8>> {
        newest_header(self, GEOMETRY).expect("the headers agree")
    }

    /// Records blocks of these bytes on the newest header, over these bad
    /// spots.
    fn record(
        &mut self,
        bytes: &[u8],
        bad: &[u32],
    ) -> Result<Summary, RecordError<Infallible, Infallible>> {
        self.spoil(bad);
        let header = self.newest_header();
        record_all(
            self,
            GEOMETRY,
            SETUP,
            header.as_deref(),
            blocks(bytes),
            |_| {},
        )
    }

    /// Adds blocks of these bytes on the newest header, over these bad spots.
    fn append(
        &mut self,
        bytes: &[u8],
        bad: &[u32],
    ) -> Result<Appended, AppendError<Infallible, Infallible>> {
        self.spoil(bad);
        let header = self.newest_header().expect("a header");
        append_all(self, GEOMETRY, SETUP, &header, blocks(bytes), |_| {})
    }

    fn spoil(&mut self, bad: &[u32]) {
        let bad = bad.iter().map(|address| (Address(*address), Spot::Bad));
        self.spots.extend(bad);
    }

    /// From now on one opening header reads, at 5, and all closing ones fail:
    /// the header before them is the newest again.
    fn wear_headers(&mut self) {
        let copies = header_addresses().map(|address| (address, Spot::Bad));
        self.spots.extend(copies);
        self.spots.insert(Address(5), Spot::Wearing);
    }

    /// A recording whose closing headers are lost.
    fn lose(&mut self, bytes: &[u8], bad: &[u32]) {
        self.wear_headers();
        let lost = self.record(bytes, bad);
        assert_eq!(lost, Err(RecordError::Refused(Refusal::NotFound)));
        self.spots.clear();
    }

    /// An addition whose closing headers are lost.
    fn lose_addition(&mut self, bytes: &[u8], bad: &[u32]) {
        self.wear_headers();
        let lost = self.append(bytes, bad);
        let not_found = RecordError::Refused(Refusal::NotFound);
        assert_eq!(lost, Err(AppendError::Record(not_found)));
        self.spots.clear();
    }

    /// The first bytes of the blocks read on the newest header, and the
    /// refusal that ended the reading, if one did.
    fn read(&mut self) -> (Vec<u8>, Option<Refusal>) {
        let header = self.newest_header().expect("a header");
        let mut bytes = Vec::new();
        let sink = |element: Element<'_>| -> Result<ControlFlow<()>, Infallible> {
            if let Element::Block(block) = element {
                bytes.extend(block.first());
            }
            Ok(ControlFlow::Continue(()))
        };
        let refusal = match read_all(self, GEOMETRY, &header, sink, |_| {}) {
            Err(ReadError::Refused(refusal)) => Some(refusal),
            _ => None,
        };
        (bytes, refusal)
    }
}

/// Blocks of 1, then a lost recording of blocks of 2, then one block of 3.
struct Lost {
    before: &'static [u8],
    lost: &'static [u8],
    /// Bad spots that the lost recording meets, and the one after it.
    bad: [&'static [u32]; 2],
    /// What a reading on the older header gives in between.
    between: (&'static [u8], Option<Refusal>),
    /// What is read in the end, without an empty recording.
    wrong: (&'static [u8], Option<Refusal>),
}

const LOST: [Lost; 3] = [
    // EOD fails at 11, where the lost recording's second block reads, and its
    // third behind that; its EOD, at 13, stands below the end that the header
    // names.
    Lost {
        before: &[1, 1, 1, 1],
        lost: &[2, 2, 2],
        bad: [&[], &[11]],
        between: (&[], Some(Refusal::Missing)),
        wrong: (&[3, 2, 2], Some(Refusal::NotFound)),
    },
    // One block less: EOD has the number of the last delivery, as where an
    // element was given up that still reads, and not even 12 tells.
    Lost {
        before: &[1, 1, 1],
        lost: &[2, 2],
        bad: [&[], &[11]],
        between: (&[], Some(Refusal::Missing)),
        wrong: (&[3, 2], None),
    },
    // The lost recording went on behind the older one's end, so that the older
    // one can be read to it; the block fails at 20 where its first reads.
    Lost {
        before: &[1],
        lost: &[2],
        bad: [&[10], &[10, 20]],
        between: (&[1], None),
        wrong: (&[2], None),
    },
];

#[test]
fn an_empty_recording_leaves_the_lost_pass_behind() {
    for case in LOST {
        for empty_first in [false, true] {
            let mut drive = Memory::default();
            assert!(drive.record(case.before, &[]).is_ok());
            drive.lose(case.lost, case.bad[0]);
            let (bytes, refusal) = drive.read();
            assert_eq!((bytes.as_slice(), refusal), case.between);
            if empty_first {
                assert!(drive.record(&[], &[]).is_ok());
            }
            assert!(drive.record(&[3], case.bad[1]).is_ok());
            let expected = if empty_first {
                (&[3][..], None)
            } else {
                case.wrong
            };
            let (bytes, refusal) = drive.read();
            assert_eq!((bytes.as_slice(), refusal), expected);
        }
    }
}

/// The first block of the lost addition fails at 12, where the end still reads
/// on; so its blocks stand from 22 on, and the header before it still leads to
/// that end. The next one's end of data fails at 13, and at 23 too. Where one
/// block of the lost addition is read behind the new one, no refusal tells.
#[test]
fn a_lost_addition_is_mixed_with_the_next() {
    let mixed: [(&[u8], &[u8], Option<Refusal>); 2] = [
        (&[2, 2, 2], &[1, 1, 3, 2, 2], Some(Refusal::NotFound)),
        (&[2, 2], &[1, 1, 3, 2], None),
    ];
    for (lost, read, refusal) in mixed {
        let mut drive = Memory::default();
        assert!(drive.record(&[1, 1], &[]).is_ok());
        drive.lose_addition(lost, &[12]);
        assert_eq!(drive.read(), (vec![1, 1], None));
        assert!(drive.append(&[3], &[13, 23]).is_ok());
        assert_eq!(drive.read(), (read.to_vec(), refusal));
    }
}

/// The same bad spots do no harm to additions that were all done.
#[test]
fn additions_over_bad_spots() {
    let mut drive = Memory::default();
    assert!(drive.record(&[1, 1], &[]).is_ok());
    assert!(drive.append(&[2, 2], &[12]).is_ok());
    assert_eq!(drive.read(), (vec![1, 1, 2, 2], None));
    // The end stands at 24 by now.
    assert!(drive.append(&[3], &[24, 34]).is_ok());
    assert_eq!(drive.read(), (vec![1, 1, 2, 2, 3], None));
    assert!(drive.append(&[], &[]).is_ok());
    assert_eq!(drive.read(), (vec![1, 1, 2, 2, 3], None));
}
