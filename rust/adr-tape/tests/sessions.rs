//! The comparison of sessions sees every number that means something.

mod compared;

use adr_model::check::content::block;
use adr_model::check::guarded::Guarded;
use adr_model::check::layer::{Layer, ReadingCalls, RecordingCalls};
use adr_model::frame::{fill_frame, fill_header, HeaderFields, Kind, Label};
use adr_model::geometry::{BLOCK_LENGTH, FRAME_LENGTH};
use adr_model::reply::{GOOD, WRITE_ERROR};
use adr_model::{Address, Geometry, Outcome, Reply, SequenceNumber};
use adr_tape::ffi;
use compared::sessions::{reading_state, recording_state};
use compared::{Compared, ComparedReading, ComparedRecording};

const GEOMETRY: Geometry = Geometry {
    frames_per_track: 3_001,
    tracks: 1,
    load_point: 0,
};

type Alter<S> = (&'static str, fn(&mut S));

const IN_EVERY_STAGE: [Alter<ffi::Recording>; 14] = [
    ("depth", |s| s.setup.depth += 1),
    ("window", |s| s.setup.highest += 1),
    ("stage", |s| s.stage ^= 1),
    ("closed", |s| s.closed ^= 1),
    ("ended", |s| s.ended ^= 1),
    ("tail", |s| s.setup.tail ^= 1),
    ("spent", |s| s.spent ^= 1),
    ("awaiting", |s| s.exchange.awaiting ^= 1),
    ("again", |s| s.exchange.again ^= 1),
    ("last", |s| s.copies.header.last += 1),
    ("header's eod", |s| s.copies.header.eod += 1),
    ("header's old end", |s| s.copies.header.old += 1),
    ("update count", |s| s.copies.header.update += 1),
    ("pass", |s| s.copies.header.pass += 1),
];

const OF_COPIES: [Alter<ffi::Recording>; 5] = [
    ("group", |s| s.copies.group ^= 1),
    ("copy", |s| s.copies.copy += 1),
    ("copies outstanding", |s| s.copies.outstanding += 1),
    ("copies confirmed", |s| s.copies.confirmed += 1),
    ("copies' LOCATE", |s| s.copies.locate ^= 1),
];

const OF_ELEMENTS: [Alter<ffi::Recording>; 9] = [
    ("first", |s| s.elements.first += 1),
    ("limit", |s| s.elements.limit += 1),
    ("filemarks", |s| s.elements.trail.filemarks += 1),
    ("marker", |s| s.elements.trail.marker ^= 1),
    ("pending", |s| s.elements.pending += 1),
    ("outstanding", |s| s.elements.outstanding += 1),
    ("elements' LOCATE", |s| s.elements.locate ^= 1),
    ("eod", |s| s.elements.eod ^= 1),
    ("a mark", |s| {
        s.elements.marks[s.elements.first as usize % 64] ^= 1;
    }),
];

const OF_READING: [Alter<ffi::Reading>; 14] = [
    ("last", |s| s.told.last += 1),
    ("header's eod", |s| s.told.eod += 1),
    ("header's old end", |s| s.told.old += 1),
    ("update count", |s| s.told.update += 1),
    ("pass", |s| s.told.pass += 1),
    ("next", |s| s.position.next += 1),
    ("expected", |s| s.expected += 1),
    ("filemarks", |s| s.trail.filemarks += 1),
    ("marker", |s| s.trail.marker ^= 1),
    ("awaiting", |s| s.exchange.awaiting ^= 1),
    ("again", |s| s.exchange.again ^= 1),
    ("LOCATE", |s| s.position.locate ^= 1),
    ("finished", |s| s.finished ^= 1),
    ("ended", |s| s.ended ^= 1),
];

#[track_caller]
fn all_seen(session: &ComparedRecording, alterations: &[Alter<ffi::Recording>]) {
    let model = Ok(session.model.state());
    assert_eq!(recording_state(&session.layer), model);
    for (name, alter) in alterations {
        let mut altered = session.layer;
        alter(&mut altered);
        assert_ne!(recording_state(&altered), model, "{name}");
    }
}

/// A host that answers good.
struct Host {
    session: ComparedRecording,
    window: Guarded,
    frame: Guarded,
}

impl Host {
    /// With a window of four blocks.
    fn of(session: ComparedRecording) -> Host {
        Host {
            session,
            window: Guarded::filled(0, 4 * BLOCK_LENGTH),
            frame: Guarded::filled(0, FRAME_LENGTH),
        }
    }

    fn exchange(&mut self, reply: &Reply) {
        self.session.fetch(&self.window, &mut self.frame);
        self.session.reply(reply);
        assert_eq!(self.session.wrong(), None);
    }

    fn until_stage(&mut self, stage: u8) {
        while self.session.layer.stage != stage {
            self.exchange(&Reply::of(GOOD));
        }
    }
}

/// Looks at a recording whose first element goes to this address, from its
/// opening to done.
fn seen_in_every_stage(session: ComparedRecording, start: u32) {
    let mut host = Host::of(session);
    host.session.accept_filemark();
    host.session.accept_block(block(1), &mut host.window);
    all_seen(&host.session, &IN_EVERY_STAGE);
    all_seen(&host.session, &OF_COPIES);
    all_seen(
        &host.session,
        &[OF_ELEMENTS[0], OF_ELEMENTS[4], OF_ELEMENTS[8]],
    );
    host.until_stage(1);
    all_seen(&host.session, &[("target", |s| s.elements.target += 1)]);
    for _ in 0..3 {
        host.exchange(&Reply::of(GOOD));
    }
    all_seen(&host.session, &IN_EVERY_STAGE);
    all_seen(&host.session, &OF_ELEMENTS);
    all_seen(&host.session, &[("next", |s| s.elements.next += 1)]);
    let error = Reply {
        sense: WRITE_ERROR,
        position: Address(start + 1),
        ..Reply::of(GOOD)
    };
    host.exchange(&error);
    all_seen(&host.session, &[("target", |s| s.elements.target += 1)]);
    all_seen(&host.session, &OF_ELEMENTS);
    host.session.close();
    host.until_stage(2);
    all_seen(&host.session, &IN_EVERY_STAGE);
    all_seen(&host.session, &OF_COPIES);
    host.until_stage(3);
    all_seen(&host.session, &IN_EVERY_STAGE);
}

#[test]
fn recordings() {
    let (session, _) = ComparedRecording::open(&GEOMETRY, 3, 4, 200, None);
    seen_in_every_stage(session, 10);
}

#[test]
fn recordings_at_the_end() {
    let reading = read_to_end();
    let (session, outcome) = Compared::open_at_end(&reading, 3, 4, 200);
    assert_eq!(outcome, Outcome::Accepted);
    seen_in_every_stage(session, 13);
}

/// A session that is spent is seen whole, but for what was awaited.
#[test]
fn spent_recordings() {
    let (session, _) = ComparedRecording::open(&GEOMETRY, 3, 4, 255, None);
    let mut host = Host::of(session);
    host.session.accept_filemark();
    host.until_stage(1);
    host.exchange(&Reply::of(GOOD));
    // Write errors lead to 2,745, the last address for an element.
    let mut failed = 10;
    loop {
        host.exchange(&Reply::of(GOOD));
        if failed == 2_745 {
            host.session.accept_block(block(1), &mut host.window);
        }
        let skip = 2_745_u32.saturating_sub(failed).min(255);
        host.exchange(&Reply::write_error(Address(failed), skip));
        if host.session.layer.spent == 1 {
            break;
        }
        failed += skip;
        host.exchange(&Reply::of(GOOD));
    }
    assert_eq!(host.session.layer.elements.target, 2_746);
    let is_told = |name: &str| !["awaiting", "again"].contains(&name);
    let mut alterations = IN_EVERY_STAGE.to_vec();
    alterations.retain(|(name, _)| is_told(name));
    all_seen(&host.session, &alterations);
    all_seen(&host.session, &OF_ELEMENTS);
    all_seen(&host.session, &[("target", |s| s.elements.target += 1)]);
    assert_eq!(host.session.close(), Outcome::Accepted);
    assert_eq!(host.session.wrong(), None);
    all_seen(&host.session, &IN_EVERY_STAGE);
    host.until_stage(3);
    assert_eq!(host.session.layer.copies.header.eod, 2_746);
}

fn frame(kind: Kind, number: u32) -> Guarded {
    let label = Label {
        kind,
        pass: 7,
        last: Address(3_000),
        number: SequenceNumber(number),
        filemarks: 0,
        latest_marker: None,
    };
    let mut frame = Box::new([0; FRAME_LENGTH]);
    fill_frame(&mut frame, &label, None);
    Guarded::of(frame.as_slice())
}

/// A reading of a block, a filemark and EOD with another frame before; all is
/// seen at each step.
fn read_to_end() -> ComparedReading {
    let mut header = Box::new([0; FRAME_LENGTH]);
    let fields = HeaderFields {
        pass: 7,
        update_count: 3,
        last: Address(3_000),
        eod: Address(13),
        old_end: Address(0),
    };
    fill_header(&mut header, &fields);
    let (mut session, _) = ComparedReading::open(&GEOMETRY, header.as_slice());
    // The first goes with LOCATE.
    let frames = [
        Guarded::filled(0, FRAME_LENGTH),
        frame(Kind::Data, 0),
        Guarded::filled(0, FRAME_LENGTH),
        frame(Kind::Marker, 1),
        frame(Kind::Eod, 2),
    ];
    all_seen_of_reading(&session);
    for frame in frames {
        session.fetch();
        session.reply(&Reply::of(GOOD), &frame);
        assert_eq!(session.wrong(), None);
        all_seen_of_reading(&session);
    }
    session
}

#[track_caller]
fn all_seen_of_reading(session: &ComparedReading) {
    let model = Ok(session.model.state());
    assert_eq!(reading_state(&session.layer), model);
    for (name, alter) in OF_READING {
        let mut altered = session.layer;
        alter(&mut altered);
        assert_ne!(reading_state(&altered), model, "{name}");
    }
}

#[test]
fn readings() {
    let layer = read_to_end().layer;
    assert_eq!((layer.finished, layer.position.next), (1, 14));
    assert_eq!((layer.trail.filemarks, layer.trail.marker), (1, 12));
}
