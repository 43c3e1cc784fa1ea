//! Tapes that are full before all is recorded: they are closed, and what is not
//! on them is handed back.

mod simulated;

use std::convert::Infallible;

use adr_model::check::content::block;
use adr_model::drive;
use adr_model::hostility::Hostility;
use adr_model::random::Random;
use adr_model::tape::Tape;
use adr_tape::{
    append_all, record_all, Address, AppendError, Command, Element, Full, Geometry, Next,
    RecordError, Recorder, Refusal, Reply, Sense, Setup, Summary,
};
use simulated::{newest, read_back_full, read_newest, sent, Simulated};

const GEOMETRY: Geometry = Geometry::beginning(3_020, 1);
const SETUP: Setup = Setup {
    depth: 6,
    blocks: 8,
    tail: 8,
};

const TAPES: u64 = if cfg!(debug_assertions) { 40 } else { 400 };

/// Few elements fill a tape where the drive advises to skip so far.
const SKIPPING: Hostility = Hostility {
    progress: 400,
    failure: 500,
    reads_new: 400,
    reads_nothing: 300,
    report: 600,
    skip: 255,
    busy: 50,
    ..Hostility::NONE
};

type Recorded = Result<Summary, RecordError<Infallible, Infallible>>;

fn drive(hostility: Hostility, seed: u64) -> Simulated {
    let depth = usize::try_from(SETUP.depth).expect("a depth");
    Simulated(drive::Drive::new(Tape::default(), depth, hostility, seed))
}

/// A drive without faults that has this one's cartridge.
fn reloaded(worn: Simulated) -> Simulated {
    let tape = worn.0.eject();
    let depth = usize::try_from(SETUP.depth).expect("a depth");
    Simulated(drive::Drive::new(tape, depth, Hostility::NONE, 1))
}

/// Blocks that differ, and filemarks.
fn many(count: usize, seed: u64) -> Vec<Element<'static>> {
    let mut random = Random::new(seed);
    let mut element = |turn: usize| match random.below(4) {
        0 => Element::Filemark,
        _ => Element::from(block(u16::try_from(turn).expect("few"))),
    };
    (0..count).map(&mut element).collect()
}

/// Records elements on this drive; what is left of them is not looked at.
fn record(drive: &mut Simulated, setup: Setup, elements: &[Element<'static>]) -> Recorded {
    record_all(drive, GEOMETRY, setup, None, sent(elements), |_| {})
}

/// What a tape without bad spots takes, and what comes to the next one.
#[test]
fn two_tapes() {
    let elements = many(4_000, 1);
    let mut first = drive(Hostility::NONE, 1);
    let mut source = sent(&elements);
    let recorded = record_all(&mut first, GEOMETRY, SETUP, None, source.by_ref(), |_| {});
    let Err(RecordError::Full(full)) = recorded else {
        panic!("{recorded:?}");
    };
    // 3,000 to 3,011 behind 10 to 2,989.
    assert_eq!(full.on_tape, 2_980 + 12);
    assert_eq!(
        read_back_full(&mut first, GEOMETRY, &elements, &full),
        2_992
    );
    let counted = full.summary.blocks + full.summary.filemarks;
    let given_up = counted - full.on_tape;
    // The window was full, and one element waited for it.
    assert_eq!(given_up, u64::from(SETUP.blocks));
    assert_eq!(full.not_on_tape.len() as u64, given_up + 1);

    let mut second = drive(Hostility::NONE, 1);
    let rest = full.not_on_tape.iter().cloned().map(Ok).chain(source);
    let recorded = record_all(&mut second, GEOMETRY, SETUP, None, rest, |_| {});
    assert!(recorded.is_ok());
    assert!(read_newest(&mut second, GEOMETRY) == elements[2_992..]);

    // The tail is not used up: something can be added there.
    let header = newest(&mut first, GEOMETRY);
    let more = [Element::Filemark, Element::Filemark];
    let setup = Setup { tail: 0, ..SETUP };
    let added = append_all(&mut first, GEOMETRY, setup, &header, sent(&more), |_| {});
    assert!(added.is_ok());
    // With the tail there is no room for one.
    let header = newest(&mut first, GEOMETRY);
    let full = append_all(&mut first, GEOMETRY, SETUP, &header, sent(&more), |_| {});
    let expected = Full {
        on_tape: 0,
        not_on_tape: more.to_vec(),
        ..Full::default()
    };
    match full {
        Err(AppendError::Record(RecordError::Full(full))) => {
            let summary = Summary::default();
            assert_eq!(Full { summary, ..full }, expected);
        }
        full => panic!("{full:?}"),
    }
    let expected = [&elements[..2_992], &more].concat();
    assert!(read_newest(&mut first, GEOMETRY) == expected);
}

/// What came of the tapes of a test.
#[derive(Debug, Default)]
struct Seen {
    whole: u32,
    full: u32,
    /// Of these: an element that was given up reads.
    one_more: u32,
    /// Of these: nothing was left that had been taken and not given up.
    closed_before: u32,
    /// The end of data found no room either.
    unclosed: u32,
    /// Something was added to a full tape.
    added: u32,
}

/// Tapes with so many bad spots that few elements fill them.
#[test]
fn tapes_with_bad_spots() {
    let mut seen = Seen::default();
    for seed in 0..TAPES {
        let mut random = Random::new(seed);
        let count = usize::try_from(random.between(5, 60)).expect("few");
        let setup = Setup {
            blocks: random.between(1, 8),
            tail: [1, 8, 60, 255][usize::try_from(random.below(4)).expect("few")],
            ..SETUP
        };
        let elements = many(count, seed);
        let mut drive = drive(SKIPPING, seed);
        match record(&mut drive, setup, &elements) {
            Ok(_) => seen.whole += 1,
            Err(RecordError::Full(full)) => {
                seen.full += 1;
                let mut drive = reloaded(drive);
                let read = read_back_full(&mut drive, GEOMETRY, &elements, &full);
                seen.one_more += u32::from(read as u64 > full.on_tape);
                let taken = full.on_tape + full.not_on_tape.len() as u64;
                seen.closed_before += u32::from(taken == count as u64);
                seen.added += u32::from(goes_on(&mut drive, &elements[..read]));
            }
            Err(RecordError::Refused(Refusal::TapeFull)) => seen.unclosed += 1,
            Err(error) => panic!("seed {seed}: {error:?}"),
        }
    }
    let Seen {
        whole,
        full,
        one_more,
        closed_before,
        unclosed,
        added,
    } = seen;
    for times in [whole, full, one_more, closed_before, unclosed, added] {
        assert!(times > 2, "{seen:?}");
    }
}

/// Adds to a tape that was full, from which these were read; whether there was
/// room.
fn goes_on(drive: &mut Simulated, read: &[Element<'static>]) -> bool {
    let header = newest(drive, GEOMETRY);
    let more = [Element::from(block(77))];
    let setup = Setup { tail: 0, ..SETUP };
    let added = append_all(drive, GEOMETRY, setup, &header, sent(&more), |_| {});
    match added {
        Ok(added) => {
            let before = added.read.blocks + added.read.filemarks;
            assert_eq!(before, read.len() as u64);
        }
        Err(AppendError::Record(RecordError::Refused(Refusal::TapeFull))) => return false,
        Err(error) => panic!("{error:?}"),
    }
    assert!(read_newest(drive, GEOMETRY) == [read, &more].concat());
    true
}

/// With nothing kept for the end a full tape fails as it always did.
#[test]
fn no_tail() {
    let setup = Setup { tail: 0, ..SETUP };
    let mut refused = 0;
    for seed in 0..TAPES / 8 {
        match record(&mut drive(SKIPPING, seed), setup, &many(60, seed)) {
            Ok(_) => {}
            Err(error) => {
                assert_eq!(error, RecordError::Refused(Refusal::TapeFull));
                refused += 1;
            }
        }
    }
    assert!(refused > 0);
}

/// Sends good replies until there is nothing to do, but at one address.
fn send_but(recorder: &mut Recorder, at: u32, sense: Sense) -> Result<(), Refusal> {
    loop {
        let next = recorder.fetch()?;
        let Next::Send(command, _) = next else {
            return Ok(());
        };
        let there = command == Command::Write(Address(at));
        recorder.reply(Reply::sense(if there { sense } else { Sense::GOOD }))?;
    }
}

/// The calls of a host of its own: after the 9 only one close is accepted, also
/// where close was called before.
#[test]
fn calls_after_the_refusal() {
    for closed_before in [false, true] {
        let mut recorder = Recorder::open(GEOMETRY, SETUP, None).expect("opens");
        assert_eq!(recorder.accept_block(block(1)), Ok(()));
        assert_eq!(recorder.accept_filemark(), Ok(()));
        assert_eq!(recorder.accept_block(block(2)), Ok(()));
        if closed_before {
            assert_eq!(recorder.close(), Ok(()));
        }
        // The end is now at 10, below the tail.
        let full = send_but(&mut recorder, 11, Sense::EARLY_END);
        assert_eq!(full, Err(Refusal::TapeFull));
        assert!(recorder.is_spent());
        assert_eq!(recorder.fetch(), Err(Refusal::Phase));
        assert_eq!(recorder.accept_filemark(), Err(Refusal::Phase));
        assert_eq!(recorder.reply(Reply::good()), Err(Refusal::Phase));
        assert_eq!(recorder.on_tape(), 1);
        let rest: Vec<Element> = recorder.not_on_tape().collect();
        assert!(rest == [Element::Filemark, Element::from(block(2))]);
        assert_eq!(recorder.close(), Ok(()));
        assert!(!recorder.is_spent());
        assert_eq!(recorder.not_on_tape().count(), 0);
        assert_eq!(recorder.on_tape(), 1);
        assert_eq!(recorder.close(), Err(Refusal::Phase));
        // No room for the end of data either, and that is for good.
        assert_eq!(recorder.fetch(), Err(Refusal::TapeFull));
        assert!(!recorder.is_spent());
        assert_eq!(recorder.close(), Err(Refusal::Phase));
    }
}

/// The count of elements on tape grows to all that was accepted, and no further.
#[test]
fn on_tape() {
    let mut recorder = Recorder::open(GEOMETRY, SETUP, None).expect("opens");
    assert_eq!(recorder.accept_block(block(1)), Ok(()));
    assert_eq!(recorder.accept_filemark(), Ok(()));
    let waiting: Vec<Element> = recorder.not_on_tape().collect();
    assert!(waiting == [Element::from(block(1)), Element::Filemark]);
    assert_eq!(recorder.on_tape(), 0);
    assert_eq!(send_but(&mut recorder, 0, Sense::GOOD), Ok(()));
    assert_eq!((recorder.on_tape(), recorder.not_on_tape().count()), (2, 0));
    assert_eq!(recorder.accept_filemark(), Ok(()));
    assert_eq!(recorder.close(), Ok(()));
    while let Ok(Next::Send(..)) = recorder.fetch() {
        assert_eq!(recorder.reply(Reply::good()), Ok(()));
        let there = recorder.on_tape();
        assert_eq!(there + recorder.not_on_tape().count() as u64, 3);
    }
    assert_eq!(recorder.on_tape(), 3);
}
