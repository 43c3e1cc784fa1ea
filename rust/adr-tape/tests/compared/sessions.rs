//! The layer's sessions in the scope's terms, as the model tells its own.

use adr_model::frame::{HeaderFields, Kind};
use adr_model::state::{
    CopiesState, ElementsState, ExchangeState, Going, ReadingState, RecordingState, StageName,
};
use adr_model::{Address, Geometry, Reading, SequenceNumber};
use adr_tape::ffi;

use super::command_of;

/// The marker's address where there is none.
const NO_MARKER: u32 = u32::MAX;

/// Why numbers stand for no session.
type Wrong = String;

fn flag(name: &str, number: u8) -> Result<bool, Wrong> {
    match number {
        0 => Ok(false),
        1 => Ok(true),
        number => Err(format!("{name} is {number}")),
    }
}

fn stage_of(number: u8) -> Result<StageName, Wrong> {
    match number {
        0 => Ok(StageName::OpeningHeaders),
        1 => Ok(StageName::Elements),
        2 => Ok(StageName::ClosingHeaders),
        3 => Ok(StageName::Done),
        number => Err(format!("stage is {number}")),
    }
}

fn exchange_state(exchange: &ffi::Exchange) -> Result<ExchangeState, Wrong> {
    let command = command_of(exchange.command).ok_or("no command in the exchange")?;
    Ok(ExchangeState {
        awaited: flag("awaiting", exchange.awaiting)?.then_some(command),
        again: flag("again", exchange.again)?.then_some(command),
    })
}

fn header_fields(header: &ffi::Header) -> HeaderFields {
    HeaderFields {
        pass: header.pass,
        update_count: header.update,
        last: Address(header.last),
        eod: Address(header.eod),
        old_end: Address(header.old),
    }
}

fn told_fields(told: &ffi::Told) -> HeaderFields {
    HeaderFields {
        pass: told.pass,
        update_count: told.update,
        last: Address(told.last),
        eod: Address(told.eod),
        old_end: Address(told.old),
    }
}

/// Where the latest marker of a trail stands.
fn latest_marker(trail: &ffi::Trail) -> Option<Address> {
    (trail.marker != NO_MARKER).then_some(Address(trail.marker))
}

fn copies_state(copies: &ffi::Copies) -> Result<CopiesState, Wrong> {
    Ok(CopiesState {
        group: copies.group.into(),
        copy: copies.copy.into(),
        outstanding: copies.outstanding.into(),
        confirmed: copies.confirmed.into(),
        locate: flag("copies.locate", copies.locate)?,
    })
}

/// What is pending, by the marks; EOD is the last.
fn pending(elements: &ffi::Elements) -> Result<Vec<Kind>, Wrong> {
    let eod = flag("eod", elements.eod)?;
    let kinds = (0..elements.pending).map(|behind| {
        let number = elements.first.wrapping_add(behind.into());
        let mark = elements.marks[number as usize % 64];
        Ok(if flag("a mark", mark)? {
            Kind::Marker
        } else if eod && behind + 1 == elements.pending {
            Kind::Eod
        } else {
            Kind::Data
        })
    });
    kinds.collect()
}

fn elements_state(elements: &ffi::Elements) -> Result<ElementsState, Wrong> {
    let trail = &elements.trail;
    Ok(ElementsState {
        first: SequenceNumber(elements.first),
        pending: pending(elements)?,
        outstanding: elements.outstanding.into(),
        going: if flag("elements.locate", elements.locate)? {
            Going::Locate(Address(elements.target))
        } else {
            Going::Next(Address(elements.next))
        },
        end: Address(elements.limit.wrapping_sub(1)),
        filemarks: trail.filemarks,
        latest_marker: latest_marker(trail),
    })
}

/// Where a recording of the layer stands; none once it is ended, unless it is
/// spent. What was awaited then means nothing any more.
pub fn recording_state(session: &ffi::Recording) -> Result<Option<RecordingState>, Wrong> {
    let spent = flag("spent", session.spent)?;
    let exchange = match (flag("ended", session.ended)?, spent) {
        (false, false) => exchange_state(&session.exchange)?,
        (true, true) => ExchangeState {
            awaited: None,
            again: None,
        },
        (true, false) => return Ok(None),
        (false, true) => return Err("spent and not ended".into()),
    };
    let stage = stage_of(session.stage)?;
    let (copies, elements) = match stage {
        StageName::OpeningHeaders => (true, true),
        StageName::Elements => (false, true),
        StageName::ClosingHeaders => (true, false),
        StageName::Done => (false, false),
    };
    let copies = copies.then(|| copies_state(&session.copies)).transpose()?;
    let elements = elements.then(|| elements_state(&session.elements));
    Ok(Some(RecordingState {
        depth: session.setup.depth.into(),
        window_blocks: u32::from(session.setup.highest) + 1,
        tail: session.setup.tail.into(),
        stage,
        closed: flag("closed", session.closed)?,
        spent,
        exchange,
        header: header_fields(&session.copies.header),
        copies,
        elements: elements.transpose()?,
    }))
}

/// Where a reading of the layer stands; none once it is ended.
pub fn reading_state(session: &ffi::Reading) -> Result<Option<ReadingState>, Wrong> {
    if flag("ended", session.ended)? {
        return Ok(None);
    }
    Ok(Some(ReadingState {
        header: told_fields(&session.told),
        next: Address(session.position.next),
        locate: flag("locate", session.position.locate)?,
        expected: SequenceNumber(session.expected),
        filemarks: session.trail.filemarks,
        latest_marker: latest_marker(&session.trail),
        finished: flag("finished", session.finished)?,
        exchange: exchange_state(&session.exchange)?,
    }))
}

/// The model's reading that stands where the layer's does; numbers that are no
/// reading's stand for one that is ended.
pub fn model_reading(session: &ffi::Reading) -> Reading {
    match reading_state(session) {
        Ok(Some(state)) => Reading::of_state(&state),
        _ => Reading::open(&Geometry::beginning(0, 0), &[]).0,
    }
}
