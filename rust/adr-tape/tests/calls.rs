//! Every call compared with the model on inputs that no drive gives.

mod compared;

use adr_model::check::content::block;
use adr_model::check::guarded::Guarded;
use adr_model::check::layer::{Layer, ReadingCalls, RecordingCalls};
use adr_model::frame::{fill_header, Frame, HeaderFields};
use adr_model::geometry::{BLOCK_LENGTH, FRAME_LENGTH, HEADER_GROUPS};
use adr_model::random::Random;
use adr_model::reply::{GOOD, WRITE_ERROR};
use adr_model::{header, Address, Geometry, Outcome, Reply, Sense};
use adr_tape::ffi;
use compared::any_calls::{any_tail, make_any_calls, Lent};
use compared::any_reads::make_any_reads;
use compared::{geometry_of, right, Compared, ComparedReading, ComparedRecording};

const ROUNDS: u32 = if cfg!(debug_assertions) { 600 } else { 3_000 };

fn any_geometry(random: &mut Random) -> Geometry {
    let frames_per_track = [0, 1, 99, 100, 101, 3_000, 3_001, 3_020, 65_534, 65_535];
    let tracks = [0, 1, 2, 30, 3_000, 3_001, 65_535];
    Geometry {
        frames_per_track: random.one_of(&frames_per_track).copied().unwrap_or(1),
        tracks: random.one_of(&tracks).copied().unwrap_or(1),
        load_point: u8::try_from(random.below(3)).unwrap_or(0),
    }
}

#[test]
fn geometries() {
    let mut random = Random::new(1);
    for _ in 0..20_000 {
        let mut geometry = any_geometry(&mut random);
        if random.chance(500) {
            geometry.frames_per_track = u16::try_from(random.below(65_536)).unwrap_or(0);
            geometry.tracks = u16::try_from(random.below(65_536)).unwrap_or(0);
        }
        let given = geometry_of(&geometry);
        assert_eq!(ffi::frames(given), geometry.frames());
        let place = ffi::last(given);
        let last = geometry.last();
        assert_eq!(place.address, last.map_or(0, |last| last.0));
        assert_eq!(place.number, if last.is_some() { 0 } else { 2 });
        let near = [
            9,
            10,
            2_989,
            2_990,
            2_999,
            3_000,
            place.address,
            random.word(),
        ];
        for address in near.into_iter().flat_map(|at| [at, at.wrapping_add(1)]) {
            let is_user = Address(address).is_user_frame(Address(place.address));
            assert_eq!(ffi::is_user(place.address, address), u8::from(is_user));
        }
    }
}

/// Numbers that do not fit 16 bits are no geometry.
#[test]
fn geometries_too_wide() {
    for (segtrk, trks, load) in [
        (65_536 + 3_001, 1, 0),
        (3_001, 65_537, 0),
        (u32::MAX, u32::MAX, 0),
        (3_001, 1, 2),
        (3_001, 1, 256),
        (3_001, 1, u32::MAX),
    ] {
        let geometry = ffi::Geometry { segtrk, trks, load };
        assert_eq!(ffi::frames(geometry), 0);
        assert_eq!(ffi::last(geometry).number, 2);
        assert_eq!(ffi::record_open_blank(geometry, 1, 1, 0).number, 2);
        let frame = valid_header(1, 1, 3_000);
        let header = frame.as_slice();
        assert_eq!(ffi::record_open(geometry, 1, 1, 0, header).number, 2);
        assert_eq!(ffi::record_open(geometry, 1, 1, 0, &[]).number, 1);
        assert_eq!(ffi::read_open(geometry, header).number, 2);
        assert_eq!(ffi::choose(geometry, header, header).number, 2);
    }
}

#[test]
fn header_addresses() {
    for (group, copies) in HEADER_GROUPS.iter().enumerate() {
        for (copy, address) in copies.iter().enumerate() {
            for turn in [0, 1, 7, 400_000_000] {
                let group = u32::try_from(group).unwrap_or(0) + 2 * turn;
                let copy = u32::try_from(copy).unwrap_or(0) + 5 * turn;
                assert_eq!(ffi::header_address(group, copy), address.0);
            }
        }
    }
}

fn valid_header(pass: u16, update_count: u32, last: u32) -> Box<Frame> {
    let mut frame = Box::new([0; FRAME_LENGTH]);
    let fields = HeaderFields {
        pass,
        update_count,
        last: Address(last),
        eod: Address(0),
        old_end: Address(0),
    };
    fill_header(&mut frame, &fields);
    frame
}

/// A header, often damaged in a byte that counts or one that does not.
fn any_header(random: &mut Random, geometry: &Geometry) -> Vec<u8> {
    let passes = [0, 1, 2, 65_533, 65_534, 65_535];
    let counts = [
        0,
        1,
        2,
        4_294_967_292,
        4_294_967_293,
        4_294_967_294,
        u32::MAX,
    ];
    let last = geometry.last().map_or(3_000, |last| last.0);
    let mut frame = valid_header(
        random.one_of(&passes).copied().unwrap_or(1),
        random.one_of(&counts).copied().unwrap_or(1),
        last.wrapping_add(u32::from(random.chance(50))),
    );
    let eods = [0, 9, 10, 2_989, 2_990, 3_000, last, last.wrapping_add(1)];
    let eod = random.one_of(&eods).copied().unwrap_or(0);
    if random.chance(500) {
        frame[32..36].copy_from_slice(&eod.to_be_bytes());
    }
    // No condition of validity.
    if random.chance(300) {
        frame[BLOCK_LENGTH + 224..][..4].copy_from_slice(&random.word().to_be_bytes());
    }
    let bits = if random.chance(500) {
        0
    } else {
        random.below(3)
    };
    for _ in 0..bits {
        let at = match random.below(3) {
            0 => random.below(40),
            1 => 32_768 + random.below(30),
            _ => random.below(33_280),
        };
        frame[usize::try_from(at).unwrap_or(0)] ^= 1 << random.below(8);
    }
    let length = match random.below(20) {
        0 => 0,
        1 => FRAME_LENGTH - 1,
        _ => FRAME_LENGTH,
    };
    frame[..length].to_vec()
}

#[test]
fn choices() {
    let mut random = Random::new(2);
    let mut seen = [0; 4];
    for seed in 0..ROUNDS * 3 {
        let geometry = match random.below(4) {
            0 => any_geometry(&mut random),
            _ => Geometry::beginning(3_020, 1),
        };
        let first = any_header(&mut random, &geometry);
        let second = if random.chance(300) {
            first.clone()
        } else {
            any_header(&mut random, &geometry)
        };
        let place = |chosen: &[u8]| chosen.as_ptr();
        let expected = header::choose(&geometry, &first, &second).map(place);
        let chosen = Compared::choose(&geometry, &first, &second).map(place);
        assert_eq!(chosen, expected, "seed {seed}");
        seen[usize::from(chosen.err().unwrap_or(0))] += 1;
    }
    assert!(seen.iter().all(|count| *count > 20), "{seen:?}");
}

#[test]
fn openings() {
    let sizes = [
        0,
        1,
        2,
        63,
        64,
        65,
        254,
        255,
        256,
        257,
        320,
        65_536,
        u32::MAX,
    ];
    let mut random = Random::new(3);
    let mut seen = [0; 6];
    for seed in 0..ROUNDS * 3 {
        let geometry = match random.below(4) {
            0 => any_geometry(&mut random),
            _ => Geometry::beginning(3_001, 1),
        };
        let depth = random.one_of(&sizes).copied().unwrap_or(1);
        let window_blocks = random.one_of(&sizes).copied().unwrap_or(1);
        let tail = random.one_of(&sizes).copied().unwrap_or(1);
        let newest = any_header(&mut random, &geometry);
        let newest = Some(newest.as_slice()).filter(|_| random.chance(800));
        let (session, outcome) =
            ComparedRecording::open(&geometry, depth, window_blocks, tail, newest);
        right(session.wrong(), seed);
        let number = match outcome {
            Outcome::Accepted => 0,
            Outcome::Refused(number) => {
                assert_eq!(ffi::record_filemark(session.layer).number, 7);
                usize::from(number)
            }
        };
        seen[number] += 1;
        if let Some(newest) = newest {
            let (session, outcome) = ComparedReading::open(&geometry, newest);
            right(session.wrong(), seed);
            if outcome != Outcome::Accepted {
                assert_eq!(ffi::read_fetch(session.layer).number, 7);
            }
        }
    }
    assert!(seen.iter().all(|count| *count > 20), "{seen:?}");
}

#[test]
fn every_size() {
    let geometry = Geometry::beginning(3_001, 1);
    for depth in 0..=300 {
        for window_blocks in [0, 1, 32, 64, 65, 256, 257, 320] {
            let (session, outcome) =
                ComparedRecording::open(&geometry, depth, window_blocks, 0, None);
            right(session.wrong(), depth);
            let fits = (1..=255).contains(&depth) && (1..=64).contains(&window_blocks);
            assert_eq!(outcome == Outcome::Accepted, fits);
        }
    }
    for window_blocks in 0..=600 {
        let (session, _) = ComparedRecording::open(&geometry, 255, window_blocks, 0, None);
        right(session.wrong(), window_blocks);
    }
    for tail in (0..=600).chain([65_536, 65_537, u32::MAX]) {
        let (session, outcome) = ComparedRecording::open(&geometry, 255, 64, tail, None);
        right(session.wrong(), tail);
        assert_eq!(outcome == Outcome::Accepted, tail <= 255);
    }
}

/// Lists of calls with replies that no drive vouches for.
#[test]
fn any_recording() {
    let mut ends = [0; 13];
    for seed in 0..ROUNDS {
        let mut random = Random::new(u64::from(seed) + 77);
        let geometry = match seed % 3 {
            0 => Geometry::beginning(3_001, 1),
            1 => Geometry::beginning(65_535, 65_535),
            _ => Geometry::centre(100, 3_010),
        };
        let depth = random.between(1, 6);
        let tail = any_tail(&mut random);
        let (mut session, _) = ComparedRecording::open(&geometry, depth, 3, tail, None);
        let calls = random.below(1_000);
        let end = make_any_calls(seed, &mut random, &mut session, 3, calls);
        ends[usize::from(end)] += 1;
    }
    println!("{ends:?}");
    assert!(ends[8] > 0 && ends[9] > 0, "{ends:?}");
}

/// Lists of a reading's calls with frames of every kind.
#[test]
fn any_reading() {
    let mut ends = [0; 13];
    let newest = valid_header(7, 3, 3_000);
    for seed in 0..ROUNDS {
        let mut random = Random::new(u64::from(seed) + 99);
        let geometry = Geometry::beginning(3_001, 1);
        let (mut session, _) = ComparedReading::open(&geometry, newest.as_slice());
        let calls = random.below(400);
        let end = make_any_reads(seed, &mut random, &mut session, 10, calls);
        ends[usize::from(end)] += 1;
    }
    println!("{ends:?}");
    assert!(
        [8, 10, 11, 12].iter().all(|number| ends[*number] > 0),
        "{ends:?}"
    );
}

/// A skip that does not fit 8 bits is refused with 8 in a write error that is
/// otherwise lawful, and looked at in no other reply.
#[test]
fn skips_too_wide() {
    let geometry = geometry_of(&Geometry::beginning(3_001, 1));
    let window = [0; BLOCK_LENGTH];
    let fetch = |session| ffi::record_fetch(session, &window, &mut [0; FRAME_LENGTH]).session;
    let good = |session| ffi::record_reply(session, ffi::Reply::default()).session;
    let opened = ffi::record_open_blank(geometry, 2, 1, 0).session;
    let located = fetch(opened);
    let second_write = fetch(good(fetch(good(located))));
    assert_eq!(second_write.exchange.command.code, ffi::WRITE);
    let header = valid_header(1, 1, 3_000);
    let reading = ffi::read_open(geometry, header.as_slice()).session;
    let read = ffi::read_fetch(reading).session;
    let frame = [0; FRAME_LENGTH];
    for (skip, number) in [(255, 0), (256, 8), (511, 8), (65_536, 8), (u32::MAX, 8)] {
        let error = ffi::Reply {
            position: 5,
            skip,
            key: WRITE_ERROR.key,
            asc: WRITE_ERROR.asc,
            ascq: WRITE_ERROR.ascq,
            ..ffi::Reply::default()
        };
        assert_eq!(ffi::record_reply(opened, error).number, 7);
        assert_eq!(ffi::record_reply(second_write, error).number, number);
        assert_eq!(ffi::read_reply(reading, error, &frame).number, 7);
        assert_eq!(ffi::read_reply(read, error, &frame[1..]).number, 1);
        assert_eq!(ffi::read_reply(read, error, &frame).number, 8);
        let left_over = ffi::Reply {
            skip,
            ..ffi::Reply::default()
        };
        for session in [located, second_write] {
            let outcome = ffi::record_reply(session, left_over);
            assert_eq!((outcome.number, outcome.session), (0, good(session)));
        }
        assert_eq!(ffi::read_reply(read, left_over, &frame).number, 0);
    }
}

/// Every triple of 32 x 32 x 16 around those listed, on every kind of command.
#[test]
fn every_triple() {
    let geometry = Geometry::beginning(3_001, 1);
    let (mut session, _) = ComparedRecording::open(&geometry, 2, 2, 0, None);
    let mut lent = Lent::new(2);
    lent.accept(&mut session, block(1), 0);
    lent.accept(&mut session, block(2), 0);
    session.close();
    let mut seen = Vec::new();
    for _ in 0..60 {
        lent.fetch(&mut session, 0, 0);
        if session.layer.exchange.awaiting == 0 {
            break;
        }
        let kind = (session.layer.exchange.command.code, session.layer.stage);
        if !seen.contains(&kind) {
            seen.push(kind);
            triples_on(&session);
        }
        session.reply(&Reply::of(GOOD));
        right(session.wrong(), 0);
        assert!(lent.is_as_held());
    }
    assert_eq!(seen.len(), 9, "{seen:?}");
}

/// The same on both commands of a reading.
#[test]
fn every_triple_of_a_reading() {
    let geometry = Geometry::beginning(3_001, 1);
    let newest = valid_header(7, 3, 3_000);
    let frame = Guarded::filled(0, FRAME_LENGTH);
    let lent = frame.clone();
    let (mut session, _) = ComparedReading::open(&geometry, newest.as_slice());
    for _ in 0..2 {
        session.fetch();
        for sense in triples() {
            let mut tried = session.clone();
            tried.reply(&Reply::of(sense), &lent);
            tried.fetch();
            right(tried.wrong(), 0);
            assert!(lent == frame);
        }
        session.reply(&Reply::of(GOOD), &lent);
    }
}

fn triples() -> impl Iterator<Item = Sense> {
    (0..32u8).flat_map(|key| {
        (0..32u8).flat_map(move |asc| (0..16u8).map(move |ascq| Sense { key, asc, ascq }))
    })
}

fn triples_on(session: &ComparedRecording) {
    for sense in triples() {
        let mut tried = session.clone();
        tried.reply(&Reply::of(sense));
        tried.accept_filemark();
        right(tried.wrong(), 0);
    }
}
