//! Calls of any kind on a reading, with frames of every kind.

use adr_model::check::content::block;
use adr_model::check::guarded::Guarded;
use adr_model::check::layer::ReadingCalls;
use adr_model::frame::{fill_frame, Kind, Label};
use adr_model::geometry::{BLOCK_LENGTH, FRAME_LENGTH};
use adr_model::random::Random;
use adr_model::reply::{BECOMING_READY, GOOD};
use adr_model::{Address, ReadAnswer, ReadOutcome, Reply, SequenceNumber};
use adr_tape::ffi;

use super::any_calls::any_sense;
use super::{right, ComparedReading};

/// Bytes of the AUX with the fields that tell what a frame is.
const FIRST_FIELDS: u32 = 70;
/// The same with the fields of the filemarks, and some behind them.
const ALL_FIELDS: u32 = 210;

/// A frame near what the reading expects; so many of a thousand are EOD.
fn any_frame(random: &mut Random, expected: u32, eods: u32) -> Guarded {
    let kinds = [Kind::Data, Kind::Data, Kind::Data, Kind::Marker];
    let kind = random.one_of(&kinds).copied().unwrap_or(Kind::Data);
    let kind = if random.chance(eods) { Kind::Eod } else { kind };
    // A number below may count where EOD has it.
    let among = if kind == Kind::Eod { 5 } else { 20 };
    let number = match random.below(among) {
        0 => expected.saturating_sub(1),
        1 if kind == Kind::Eod => expected.saturating_sub(2),
        2 if random.chance(50) => expected + 1,
        3 if random.chance(50) => u32::MAX,
        _ => expected,
    };
    let label = Label {
        kind,
        pass: if random.chance(900) { 7 } else { 6 },
        last: Address(3_000),
        number: SequenceNumber(number),
        filemarks: random.below(3),
        latest_marker: None,
    };
    let mut frame = Box::new([0; FRAME_LENGTH]);
    fill_frame(&mut frame, &label, Some(block(random.byte().into())));
    let (damaged, bytes) = match label.kind {
        Kind::Eod if random.chance(500) => (200, FIRST_FIELDS),
        Kind::Eod => (200, ALL_FIELDS),
        _ => (60, ALL_FIELDS),
    };
    if random.chance(damaged) {
        let at = BLOCK_LENGTH + usize::try_from(random.below(bytes)).unwrap_or(0);
        frame[at] ^= 1 << random.below(8);
    }
    let length = if random.chance(20) { 5 } else { FRAME_LENGTH };
    Guarded::of(&frame[..length])
}

/// A reply that is often one for where the reading stands.
fn any_read_reply(random: &mut Random, session: &ffi::Reading) -> Reply {
    let sense = match random.below(12) {
        0 => any_sense(random),
        1 => BECOMING_READY,
        2 => adr_model::reply::BLANK,
        3 => adr_model::reply::UNREADABLE,
        4 => adr_model::reply::RECOVERED,
        _ => GOOD,
    };
    Reply::of(match session.exchange.command.code {
        ffi::LOCATE if random.chance(950) => GOOD,
        _ => sense,
    })
}

/// A call of any kind; the refusal, 0 for none.
pub fn any_read_call(random: &mut Random, session: &mut ComparedReading, eods: u32) -> u8 {
    if random.chance(550) {
        return match session.fetch() {
            ReadAnswer::Refused(number) => number,
            _ => 0,
        };
    }
    let frame = any_frame(random, session.layer.expected, eods);
    let lent = frame.clone();
    let outcome = session.reply(&any_read_reply(random, &session.layer), &lent);
    assert!(lent == frame, "{outcome:?} altered the frame");
    match outcome {
        ReadOutcome::Refused(number) => number,
        _ => 0,
    }
}

/// Makes so many calls of any kind on a reading of pass 7, LAST 3,000, and
/// brings so many EODs in a thousand frames. The refusal that ended it, 0 for
/// none.
pub fn make_any_reads(
    seed: u32,
    random: &mut Random,
    session: &mut ComparedReading,
    eods: u32,
    calls: u32,
) -> u8 {
    for _ in 0..calls {
        let before = session.clone();
        let number = any_read_call(random, session, eods);
        right(session.wrong(), seed);
        match number {
            0 => {}
            1..=7 => assert!(before == *session, "seed {seed}"),
            number => return number,
        }
    }
    0
}
