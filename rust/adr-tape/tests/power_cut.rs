//! A transport that fails behind each frame of a recording and of an addition:
//! what stands then, on every header that reads, and whether it can be added to.
//! The tape is written and the promise checked here, by hand.

use std::collections::{BTreeMap, VecDeque};
use std::convert::Infallible;
use std::ops::ControlFlow;

use adr_tape::{
    append_all, header_addresses, newer, newest_header, read_with, record_all, record_with,
    Address, AppendError, Drive, Element, Geometry, ReadError, Reader, RecordError, Recorder,
    Refusal, Reply, Sense, Setup, BLOCK_LENGTH, FRAME_LENGTH,
};

const GEOMETRY: Geometry = Geometry::beginning(3_001, 1);
const DEPTH: usize = 3;
const SETUP: Setup = Setup {
    depth: DEPTH as u32,
    blocks: 4,
    tail: 0,
};
/// Copies of the header at an opening, and as many at a close.
const COPIES: usize = 10;
/// Where a header has its EOD address and its update count.
const EOD: std::ops::Range<usize> = 32..36;
const UPDATE: std::ops::Range<usize> = BLOCK_LENGTH + 12..BLOCK_LENGTH + 16;

/// What an earlier recording, the one that is added to and the one that is cut
/// have: a byte stands for a block of it, a blank for a filemark.
const EARLIER: &[u8] = b"xyz x y";
const BEFORE: &[u8] = b"ab c ";
const CUT: &[u8] = b"de fg ";

/// What the frame that is being written reads as when the mains go.
#[derive(Clone, Copy, Debug, PartialEq, Eq)]
enum Torn {
    AsBefore,
    AsNew,
    Nothing,
}

const TORN: [Torn; 3] = [Torn::AsBefore, Torn::AsNew, Torn::Nothing];

/// The transport brought no reply.
#[derive(Debug, PartialEq, Eq)]
struct NoReply;

/// A drive that holds frames until it is asked for its position or is full.
#[derive(Clone, Default)]
struct Memory {
    tape: BTreeMap<u32, Vec<u8>>,
    held: VecDeque<Vec<u8>>,
    /// Where the oldest frame held goes, or the next to be read.
    at: u32,
    /// A spot where writes fail and what was there before reads.
    bad: Option<u32>,
    stopped: bool,
    /// Frames that are written before the mains go, and what the next one then
    /// reads as.
    mains: Option<(usize, Torn)>,
}

impl Memory {
    fn write_oldest(&mut self) -> Result<(), NoReply> {
        let Some(frame) = self.held.front() else {
            return Ok(());
        };
        if self.bad == Some(self.at) {
            self.stopped = true;
            return Ok(());
        }
        match &mut self.mains {
            Some((0, torn)) => {
                match torn {
                    Torn::AsBefore => {}
                    Torn::AsNew => drop(self.tape.insert(self.at, frame.clone())),
                    Torn::Nothing => drop(self.tape.remove(&self.at)),
                }
                return Err(NoReply);
            }
            Some((frames, _)) => *frames -= 1,
            None => {}
        }
        self.tape.insert(self.at, frame.clone());
        self.held.pop_front();
        self.at += 1;
        Ok(())
    }

    /// The mains are back.
    fn restart(&mut self) {
        self.held.clear();
        self.stopped = false;
        self.mains = None;
        self.bad = None;
    }
}

impl Drive for Memory {
    type Error = NoReply;

    fn locate(&mut self, address: Address) -> Result<Reply, NoReply> {
        self.held.clear();
        self.stopped = false;
        self.at = address.0;
        Ok(Reply::good())
    }

    fn write(&mut self, _: Address, frame: &[u8]) -> Result<Reply, NoReply> {
        self.held.push_back(frame.to_vec());
        if self.held.len() == DEPTH && !self.stopped {
            self.write_oldest()?;
        }
        Ok(Reply::good())
    }

    fn read(&mut self, _: Address, frame: &mut [u8]) -> Result<Reply, NoReply> {
        self.at += 1;
        let Some(found) = self.tape.get(&(self.at - 1)) else {
            return Ok(Reply::sense(Sense::UNREADABLE));
        };
        frame.copy_from_slice(found);
        Ok(Reply::good())
    }

    fn read_position(&mut self) -> Result<Reply, NoReply> {
        while !self.held.is_empty() && !self.stopped {
            self.write_oldest()?;
        }
        Ok(if self.stopped {
            Reply::write_error(Address(self.at), 1)
        } else {
            Reply::buffered(0)
        })
    }
}

fn elements(letters: &[u8]) -> impl Iterator<Item = Result<Element<'static>, Infallible>> + '_ {
    letters.iter().map(|letter| {
        Ok(match letter {
            b' ' => Element::Filemark,
            _ => Element::from(vec![*letter; BLOCK_LENGTH]),
        })
    })
}

/// The letter of an element, which is whole.
fn letter(element: &Element<'_>) -> u8 {
    match element {
        Element::Filemark => b' ',
        Element::Block(block) => {
            assert!(block.iter().all(|byte| *byte == block[0]));
            block[0]
        }
    }
}

fn newest(drive: &mut Memory) -> Option<Vec<u8>> {
    newest_header(drive, GEOMETRY).expect("the headers agree")
}

/// Records on the newest header, if there is one.
fn record(drive: &mut Memory, letters: &[u8]) -> Result<(), RecordError<NoReply, Infallible>> {
    let header = newest(drive);
    let header = header.as_deref();
    record_all(drive, GEOMETRY, SETUP, header, elements(letters), |_| {}).map(|_| ())
}

/// Reads on a header: the letters, why it stopped if it did, the reader, and the
/// address where it ended.
fn read(drive: &mut Memory, header: &[u8]) -> (Vec<u8>, Option<Refusal>, Reader, u32) {
    let mut reader = Reader::open(GEOMETRY, header).expect("a valid header");
    let mut letters = Vec::new();
    let sink = |element: Element<'_>| -> Result<ControlFlow<()>, Infallible> {
        letters.push(letter(&element));
        Ok(ControlFlow::Continue(()))
    };
    match read_with(drive, &mut reader, sink, |_| {}) {
        Ok(summary) => (letters, None, reader, summary.address.0),
        Err(ReadError::Refused(refusal)) => (letters, Some(refusal), reader, 0),
        Err(failed) => panic!("{failed:?}"),
    }
}

fn number(header: &[u8], at: std::ops::Range<usize>) -> u32 {
    u32::from_be_bytes(header[at].try_into().expect("four bytes"))
}

/// Every valid header that reads, with its update count.
fn headers(drive: &Memory) -> Vec<(u32, Vec<u8>)> {
    let at_groups = header_addresses().into_iter();
    let frames = at_groups.filter_map(|address| drive.tape.get(&address.0));
    let valid = frames.filter(|frame| newer(GEOMETRY, frame, frame).is_ok());
    valid
        .map(|frame| (number(frame, UPDATE), frame.clone()))
        .collect()
}

/// What is promised of a reading on a header of a session that added to `before`
/// and was cut, or of one that it was opened on.
#[track_caller]
fn is_partial(letters: &[u8], refusal: Option<Refusal>, before: &[u8]) {
    let all = [before, CUT].concat();
    assert!(all.starts_with(letters), "{letters:?}");
    assert!(letters.len() >= before.len(), "{letters:?}");
    assert!(matches!(refusal, None | Some(Refusal::NotFound)));
}

/// Whether a cartridge can be added to on its newest header, as told of cuts.
#[track_caller]
fn adds_where_it_may(drive: &mut Memory, before: &[u8], closed: bool) {
    let header = newest(drive).expect("a header");
    let (read_before, stopped, reader, _) = read(drive, &header);
    let refused = Recorder::open_at_end(&reader, SETUP).err();
    let unclosed = number(&header, EOD) == 0;
    assert_eq!(unclosed, !closed);
    let expected = match (unclosed, stopped) {
        (false, _) => None,
        (true, None) => Some(Refusal::EndElsewhere),
        (true, Some(_)) => Some(Refusal::Phase),
    };
    assert_eq!(refused, expected);
    if closed {
        assert_eq!(read_before, before);
        let added = append_all(drive, GEOMETRY, SETUP, &header, elements(b"u v"), |_| {});
        assert!(added.is_ok(), "{added:?}");
        let header = newest(drive).expect("a header");
        let (letters, stopped, ..) = read(drive, &header);
        assert_eq!(letters, [before, b"u v"].concat());
        assert_eq!(stopped, None);
    }
}

/// Cuts a session behind each of its frames, and with each thing that the next one
/// may read as; how often it was cut.
fn each_cut(
    drive: &Memory,
    session: impl Fn(&mut Memory) -> bool,
    stands: impl Fn(Memory, usize, Torn),
) -> usize {
    let mut cuts = 0;
    for frames in 0.. {
        for torn in TORN {
            let mut drive = drive.clone();
            drive.mains = Some((frames, torn));
            if session(&mut drive) {
                return cuts;
            }
            cuts += 1;
            drive.restart();
            stands(drive, frames, torn);
        }
    }
    cuts
}

/// Adds on the newest header; whether it was done.
fn add(drive: &mut Memory) -> bool {
    let header = newest(drive).expect("a header");
    let added = append_all(drive, GEOMETRY, SETUP, &header, elements(CUT), |_| {});
    let failed = Err(AppendError::Record(RecordError::Drive(NoReply)));
    assert!(added.is_ok() || added == failed);
    added.is_ok()
}

/// A cartridge with something to add to, over an earlier recording.
fn recorded() -> Memory {
    let mut drive = Memory::default();
    for letters in [EARLIER, BEFORE] {
        assert_eq!(record(&mut drive, letters), Ok(()));
    }
    drive
}

/// What stands of an addition, on a good tape or where its first write fails and
/// the old end of data reads on.
fn additions(bad: bool) -> usize {
    let mut drive = recorded();
    let opened_on = newest(&mut drive).expect("a header");
    let (update, end) = (number(&opened_on, UPDATE), number(&opened_on, EOD));
    drive.bad = bad.then_some(end);
    each_cut(&drive, add, |mut drive, frames, torn| {
        for (count, header) in headers(&drive) {
            assert!(count >= update, "no older header is left");
            let (letters, refusal, _, ended) = read(&mut drive, &header);
            is_partial(&letters, refusal, BEFORE);
            let own_end = ended > end;
            assert!(refusal.is_some() || ended == end || own_end);
            if own_end {
                // EOD comes when all else is on tape.
                assert_eq!(letters, [BEFORE, CUT].concat(), "{frames} {torn:?}");
            }
        }
        let header = newest(&mut drive).expect("a header");
        match number(&header, UPDATE) - update {
            0 => adds_where_it_may(&mut drive, BEFORE, true),
            1 => adds_where_it_may(&mut drive, BEFORE, false),
            _ => adds_where_it_may(&mut drive, &[BEFORE, CUT].concat(), true),
        }
    })
}

#[test]
fn of_an_addition() {
    let frames = 2 * COPIES + CUT.len() + 1;
    assert_eq!(additions(false), frames * TORN.len());
    assert_eq!(additions(true), frames * TORN.len());
}

/// Whether a fresh recording is done.
fn record_afresh(drive: &mut Memory) -> bool {
    let recorded = record(drive, CUT);
    assert!(matches!(
        recorded,
        Ok(()) | Err(RecordError::Drive(NoReply))
    ));
    recorded.is_ok()
}

/// What stands of a fresh recording, over another or on a blank cartridge.
fn recordings(drive: &mut Memory, before: &[u8]) -> usize {
    let opened_on = newest(drive).map(|header| number(&header, UPDATE));
    each_cut(drive, record_afresh, |mut drive, frames, _| {
        let is_new = |count: u32| opened_on.is_none_or(|update| count > update);
        for (count, header) in headers(&drive) {
            let (letters, refusal, ..) = read(&mut drive, &header);
            if is_new(count) {
                is_partial(&letters, refusal, b"");
            } else if !headers(&drive).iter().any(|(count, _)| is_new(*count)) {
                // No new copy was written yet.
                assert_eq!((letters.as_slice(), refusal), (before, None));
            }
        }
        let Some(header) = newest(&mut drive) else {
            assert_eq!((opened_on, frames), (None, 0));
            return;
        };
        let closed = number(&header, EOD) != 0;
        let all = if is_new(number(&header, UPDATE)) {
            CUT
        } else {
            before
        };
        adds_where_it_may(&mut drive, all, closed);
        // And it can be recorded afresh, wherever it was cut.
        assert_eq!(record(&mut drive, EARLIER), Ok(()));
        let header = newest(&mut drive).expect("a header");
        let (letters, refusal, ..) = read(&mut drive, &header);
        assert_eq!((letters.as_slice(), refusal), (EARLIER, None));
    })
}

#[test]
fn of_a_fresh_recording() {
    let frames = 2 * COPIES + CUT.len() + 1;
    let cuts = frames * TORN.len();
    assert_eq!(recordings(&mut Memory::default(), b""), cuts);
    assert_eq!(recordings(&mut recorded(), BEFORE), cuts);
}

/// Sessions that a refusal ends leave no more and no less: here the drive's reply
/// is unlawful behind each command in turn.
#[test]
fn of_an_addition_that_was_refused() {
    /// Answers so many commands, and then one unlawfully.
    struct Unlawful(Memory, usize);

    impl Unlawful {
        fn answer(&mut self, reply: Result<Reply, NoReply>) -> Result<Reply, NoReply> {
            match self.1.checked_sub(1) {
                None => Ok(Reply::sense(Sense::UNREADABLE)),
                Some(left) => {
                    self.1 = left;
                    reply
                }
            }
        }
    }

    impl Drive for Unlawful {
        type Error = NoReply;

        fn locate(&mut self, address: Address) -> Result<Reply, NoReply> {
            let reply = self.0.locate(address);
            self.answer(reply)
        }

        fn write(&mut self, address: Address, frame: &[u8]) -> Result<Reply, NoReply> {
            let reply = self.0.write(address, frame);
            self.answer(reply)
        }

        fn read(&mut self, address: Address, frame: &mut [u8]) -> Result<Reply, NoReply> {
            self.0.read(address, frame)
        }

        fn read_position(&mut self) -> Result<Reply, NoReply> {
            let reply = self.0.read_position();
            self.answer(reply)
        }
    }

    let before = recorded();
    for commands in 0.. {
        let mut drive = Unlawful(before.clone(), commands);
        let header = newest(&mut before.clone()).expect("a header");
        let (.., reader, _) = read(&mut before.clone(), &header);
        let recorder = Recorder::open_at_end(&reader, SETUP).expect("its end");
        let added = record_with(&mut drive, recorder, elements(CUT), |_| {});
        if added.is_ok() {
            assert!(commands > 2 * COPIES + CUT.len());
            return;
        }
        assert_eq!(added, Err(RecordError::Refused(Refusal::Reply)));
        let mut drive = drive.0;
        // The drive goes on with what it holds.
        assert!(drive.read_position().is_ok());
        for (_, header) in headers(&drive) {
            assert_eq!(header.len(), FRAME_LENGTH);
            let (letters, refusal, ..) = read(&mut drive, &header);
            is_partial(&letters, refusal, BEFORE);
        }
    }
}
