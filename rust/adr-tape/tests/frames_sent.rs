//! Frames sent: what a recording counts of them, and the most that it can be.

mod simulated;

use std::collections::{BTreeMap, VecDeque};
use std::convert::Infallible;

use adr_model::check::content::block;
use adr_model::drive;
use adr_model::frame::{aux_of, bytes, HEADER_TYPE};
use adr_model::hostility::Hostility;
use adr_model::random::Random;
use adr_model::tape::Tape;
use adr_tape::{
    append_all, frames_sent_at_most, header_frames_sent_at_most, record_all, Address, AppendError,
    Drive, Element, FramesSent, Geometry, RecordError, Refusal, Reply, Sense, Setup, Summary,
};
use simulated::{elements, newest, sent, Simulated};

const GEOMETRY: Geometry = Geometry::beginning(3_020, 1);
const TAPES: u64 = if cfg!(debug_assertions) { 60 } else { 600 };
/// Frames that the simulated drive buffers.
const DEPTH: u32 = 6;

/// Takes as many frames as it is given, then fails the oldest of them, so often;
/// after that all are on tape. Of headers it fails the first of a group.
#[derive(Default)]
struct Failing {
    buffer: VecDeque<Address>,
    failures: u32,
    header_failures: u32,
    skip: u32,
}

impl Failing {
    /// The failures that are left for what is to go here.
    fn left(&mut self, oldest: Address) -> Option<&mut u32> {
        match oldest {
            Address(5 | 2_990) => Some(&mut self.header_failures),
            Address(6..=9 | 2_991..=2_994) => None,
            _ => Some(&mut self.failures),
        }
    }
}

impl Drive for Failing {
    type Error = Infallible;

    fn locate(&mut self, _: Address) -> Result<Reply, Infallible> {
        self.buffer.clear();
        Ok(Reply::good())
    }

    fn write(&mut self, address: Address, _: &[u8]) -> Result<Reply, Infallible> {
        self.buffer.push_back(address);
        Ok(Reply::good())
    }

    fn read(&mut self, _: Address, _: &mut [u8]) -> Result<Reply, Infallible> {
        Ok(Reply::sense(Sense::UNREADABLE))
    }

    fn read_position(&mut self) -> Result<Reply, Infallible> {
        let oldest = self.buffer.pop_front().unwrap_or_default();
        self.buffer.clear();
        let skip = self.skip;
        Ok(match self.left(oldest) {
            Some(left) if *left > 0 => {
                *left -= 1;
                Reply::write_error(oldest, skip)
            }
            _ => Reply::buffered(0),
        })
    }
}

fn blocks(count: u16) -> Vec<Element<'static>> {
    (0..count)
        .map(|number| Element::from(block(number)))
        .collect()
}

/// A session in which as much is sent as can be: elements, errors, errors of
/// headers, and how many frames an error costs.
#[test]
fn as_many_as_can_be() {
    for (depth, window, count, errors, header_errors, smaller) in [
        (1, 1, 1, 0, 0, 1),
        (1, 64, 5, 7, 4, 1),
        (3, 4, 3, 9, 1, 3),
        (4, 3, 40, 25, 2, 3),
        (5, 5, 5, 1, 3, 5),
        (255, 64, 64, 30, 4, 64),
        (32, 64, 100, 12, 0, 32),
    ] {
        let setup = Setup {
            depth,
            blocks: window,
            tail: 8,
        };
        let mut drive = Failing {
            failures: errors,
            header_failures: header_errors,
            ..Failing::default()
        };
        let elements = blocks(count);
        let recorded = record_all(&mut drive, GEOMETRY, setup, None, sent(&elements), |_| {});
        let summary = recorded.expect("room for all");
        let held = depth.min(5);
        let most = FramesSent {
            elements: u64::from(u32::from(count) + 1 + errors * smaller),
            errors: errors.into(),
            headers: u64::from(20 + header_errors * (held - 1)),
            header_errors: header_errors.into(),
        };
        assert_eq!(summary.sent, most, "{setup:?}");
        assert_eq!(summary.frames_at_most(setup), most.elements);
        assert_eq!(summary.header_frames_at_most(setup), most.headers);
        assert_eq!(summary.write_errors, u64::from(errors + header_errors));
    }
}

/// Elements that were given up stay counted, though they are sent no more.
#[test]
fn given_up() {
    let setup = Setup {
        depth: 3,
        blocks: 4,
        tail: 8,
    };
    // From 10 on 255 further each time, the last time from 2,815 into the tail.
    let geometry = Geometry::beginning(3_075, 1);
    let mut drive = Failing {
        failures: 12,
        skip: 255,
        ..Failing::default()
    };
    let elements = blocks(9);
    let recorded = record_all(&mut drive, geometry, setup, None, sent(&elements), |_| {});
    let Err(RecordError::Full(full)) = recorded else {
        panic!("{recorded:?}");
    };
    let sent = FramesSent {
        elements: 12 * 3 + 1,
        errors: 12,
        headers: 20,
        header_errors: 0,
    };
    assert_eq!((full.on_tape, full.summary.sent), (0, sent));
    assert_eq!(full.summary.elements(), 4);
    assert_eq!(full.summary.frames_at_most(setup), 4 + 1 + 12 * 3);
}

/// The simulated drive, which counts by the frames' own bytes what it takes.
struct Counting {
    drive: Simulated,
    /// Whether the frame taken last for an address is a header's.
    is_header: BTreeMap<Address, bool>,
    sent: FramesSent,
}

impl Counting {
    fn new(hostility: Hostility, seed: u64) -> Counting {
        let depth = usize::try_from(DEPTH).expect("a depth");
        Counting {
            drive: Simulated(drive::Drive::new(Tape::default(), depth, hostility, seed)),
            is_header: BTreeMap::new(),
            sent: FramesSent::default(),
        }
    }

    fn take(&mut self, address: Address, frame: &[u8]) {
        let frame = frame.try_into().expect("a whole frame");
        let is_header = bytes(aux_of(frame), 16) == HEADER_TYPE;
        self.is_header.insert(address, is_header);
        if is_header {
            self.sent.headers += 1;
        } else {
            self.sent.elements += 1;
        }
    }

    fn note(&mut self, reply: Reply) {
        if reply.sense != Sense::WRITE_ERROR {
            return;
        }
        if self.is_header[&reply.position] {
            self.sent.header_errors += 1;
        } else {
            self.sent.errors += 1;
        }
    }
}

impl Drive for Counting {
    type Error = Infallible;

    fn locate(&mut self, address: Address) -> Result<Reply, Infallible> {
        self.drive.locate(address)
    }

    fn write(&mut self, address: Address, frame: &[u8]) -> Result<Reply, Infallible> {
        let reply = self.drive.write(address, frame)?;
        if reply.sense == Sense::GOOD {
            self.take(address, frame);
        }
        self.note(reply);
        Ok(reply)
    }

    fn read(&mut self, address: Address, frame: &mut [u8]) -> Result<Reply, Infallible> {
        self.drive.read(address, frame)
    }

    fn read_position(&mut self) -> Result<Reply, Infallible> {
        let reply = self.drive.read_position()?;
        self.note(reply);
        Ok(reply)
    }
}

/// No more was sent than can be.
#[track_caller]
fn within(summary: &Summary, setup: Setup) {
    let sent = summary.sent;
    assert!(
        sent.elements <= summary.frames_at_most(setup),
        "{summary:?}"
    );
    assert!(sent.headers <= summary.header_frames_at_most(setup));
    assert_eq!(sent.errors + sent.header_errors, summary.write_errors);
}

/// What came of the recordings of a test.
#[derive(Debug, Default)]
struct Seen {
    faultless: u32,
    failing: u32,
    failing_headers: u32,
    given_up: u32,
    added: u32,
}

impl Seen {
    /// A recording that was closed, whose frames the drive counted.
    fn closed(&mut self, drive: &mut Counting, summary: &Summary, setup: Setup) {
        let counted = std::mem::take(&mut drive.sent);
        assert_eq!(summary.sent, counted);
        within(summary, setup);
        let FramesSent {
            errors,
            header_errors,
            ..
        } = counted;
        self.faultless += u32::from(errors + header_errors == 0);
        self.failing += u32::from(errors > 0);
        self.failing_headers += u32::from(header_errors > 0);
        if errors == 0 {
            assert!(counted.elements <= summary.elements() + 1);
        }
        if header_errors == 0 {
            assert_eq!(counted.headers, 20);
        }
    }
}

/// Recordings and additions on good tapes and bad ones.
#[test]
fn counted_as_the_drive_counts() {
    let mut seen = Seen::default();
    for seed in 0..TAPES {
        let mut random = Random::new(seed);
        let hostility = Hostility {
            progress: 400,
            failure: *random.one_of(&[0, 60, 300]).expect("some"),
            reads_new: 300,
            reads_nothing: 300,
            report: 600,
            skip: *random.one_of(&[1, 40, 255]).expect("some"),
            busy: 50,
            ..Hostility::NONE
        };
        let setup = Setup {
            depth: DEPTH,
            blocks: random.between(1, 9),
            tail: random.between(0, 60),
        };
        let mut drive = Counting::new(hostility, seed);
        let first = elements(&mut random);
        let progress = |summary: &Summary| within(summary, setup);
        match record_all(&mut drive, GEOMETRY, setup, None, sent(&first), progress) {
            Ok(summary) => seen.closed(&mut drive, &summary, setup),
            Err(RecordError::Full(full)) => {
                seen.closed(&mut drive, &full.summary, setup);
                seen.given_up += 1;
            }
            Err(RecordError::Refused(Refusal::TapeFull | Refusal::NotFound)) => continue,
            Err(error) => panic!("seed {seed}: {error:?}"),
        }
        let header = newest(&mut drive, GEOMETRY);
        let more = elements(&mut random);
        match append_all(&mut drive, GEOMETRY, setup, &header, sent(&more), |_| {}) {
            Ok(appended) => {
                assert_eq!(appended.read.sent, FramesSent::default());
                seen.closed(&mut drive, &appended.recorded, setup);
                seen.added += 1;
            }
            Err(AppendError::Record(RecordError::Full(full))) => {
                seen.closed(&mut drive, &full.summary, setup);
            }
            Err(AppendError::Record(RecordError::Refused(
                Refusal::TapeFull | Refusal::NotFound,
            ))) => {}
            Err(error) => panic!("seed {seed}: {error:?}"),
        }
    }
    let Seen {
        faultless,
        failing,
        failing_headers,
        given_up,
        added,
    } = seen;
    for times in [faultless, failing, failing_headers, given_up, added] {
        assert!(times > 2, "{seen:?}");
    }
}

/// The layer takes every number.
#[test]
fn every_number() {
    let most = u32::MAX;
    let setup = Setup {
        depth: most,
        blocks: most,
        tail: most,
    };
    let wide = u64::from(most);
    assert_eq!(
        frames_sent_at_most(most, most, setup),
        wide + 1 + wide * wide
    );
    assert_eq!(header_frames_sent_at_most(most, setup), 20 + wide * 4);
    let none = Setup { depth: 0, ..setup };
    assert_eq!(frames_sent_at_most(9, most, none), 10);
    assert_eq!(header_frames_sent_at_most(most, none), 20);
}
