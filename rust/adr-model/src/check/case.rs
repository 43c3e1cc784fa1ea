//! Random cases.

use std::sync::Arc;

use crate::fault::Fault;
use crate::frame::{fill_frame, fill_header, HeaderFields, Kind, Label};
use crate::geometry::{
    Address, Geometry, SequenceNumber, BLOCK_LENGTH, FRAME_LENGTH, GAP_END, GAP_FIRST,
    HEADER_GROUPS,
};
use crate::hostility::Hostility;
use crate::random::Random;
use crate::reply::LARGEST_SKIP;
use crate::tape::{Shared, Tape};

/// A call of a list. What the state refuses is refused and counts for
/// nothing.
#[derive(Clone, Copy, Debug, PartialEq, Eq)]
pub enum Call {
    /// Accept the block of this number.
    Block(u16),
    /// Accept a filemark.
    Filemark,
    /// Fetch; a command goes to the drive.
    Fetch,
    /// Bring the drive's reply, or an idle one if none is awaited.
    Reply,
    /// Bring the drive's reply if one is awaited, then fetch.
    Exchange,
    /// Close.
    Close,
    /// Accept a block whose length is off by this much.
    WrongBlock(i8),
    /// Accept a block with a window whose length is off by this much.
    WrongWindow(i8),
    /// Fetch with a frame whose length is off by this much.
    WrongFrame(i8),
    /// Fetch with a window whose length is off by this much.
    WrongFetchWindow(i8),
}

/// What a recording is opened with besides the drive's buffer.
#[derive(Clone, Copy, Debug, PartialEq, Eq)]
pub struct Setup {
    /// The blocks of the window.
    pub window_blocks: u32,
    /// The frames kept for EOD.
    pub tail: u32,
    /// In a recording that adds: so many addresses from the old end on are for
    /// elements, if that leaves a tail that can be kept.
    pub room: Option<u32>,
}

/// The most frames that can be kept for EOD.
const LONGEST_TAIL: u32 = 255;

impl Setup {
    /// A window of so many blocks, and so many frames kept for EOD.
    #[must_use]
    pub fn of(window_blocks: u32, tail: u32) -> Setup {
        Setup {
            window_blocks,
            tail,
            room: None,
        }
    }

    /// The same for a recording that goes to this address first.
    pub(super) fn at(self, old_end: Address, last: Address) -> Setup {
        let highest = self.room.map(|room| old_end.plus(room).minus(1));
        let tail = highest.and_then(|highest| last.0.checked_sub(highest.0));
        Setup {
            tail: tail
                .filter(|tail| *tail <= LONGEST_TAIL)
                .unwrap_or(self.tail),
            ..self
        }
    }
}

/// One cartridge with all that happens to it.
#[derive(Clone, Debug, PartialEq, Eq)]
pub struct Case {
    /// The seed of the cartridge and of the drive.
    pub seed: u64,
    /// The geometry.
    pub geometry: Geometry,
    /// The frames the drive buffers.
    pub depth: u32,
    /// What each recording is opened with.
    pub setup: Setup,
    /// Whether the host closes a session that is spent.
    pub gives_up: bool,
    /// Whether the power is cut at every frame.
    pub cuts: bool,
    /// Frames of earlier passes and strangers on the cartridge.
    pub stale: u32,
    /// Header copies on the cartridge, some of them damaged.
    pub headers: u32,
    /// The drive's hostility.
    pub hostility: Hostility,
    /// The recordings in turn.
    pub recordings: Vec<Vec<Call>>,
    /// The fault planted.
    pub fault: Fault,
}

const GEOMETRIES: [Geometry; 6] = [
    Geometry {
        frames_per_track: 3_001,
        tracks: 1,
        load_point: 0,
    },
    Geometry {
        frames_per_track: 65_535,
        tracks: 65_535,
        load_point: 0,
    },
    Geometry {
        frames_per_track: 1_000,
        tracks: 12,
        load_point: 0,
    },
    Geometry {
        frames_per_track: 100,
        tracks: 3_010,
        load_point: 1,
    },
    Geometry {
        frames_per_track: 65_535,
        tracks: 65_535,
        load_point: 1,
    },
    Geometry {
        frames_per_track: 3_020,
        tracks: 1,
        load_point: 0,
    },
];

/// Those with few user frames behind the second header group.
const SHORT: [Geometry; 3] = [GEOMETRIES[0], GEOMETRIES[3], GEOMETRIES[5]];

/// How much is kept for EOD on such a cartridge: often nothing, little or as
/// much as can be, or so much that elements end about the second header group.
pub(super) fn tail(random: &mut Random, geometry: Geometry) -> u32 {
    let last = geometry.last().unwrap_or(GAP_END);
    match random.below(8) {
        0..=2 => 0,
        3..=4 => random.between(1, 8),
        5 => random.between(9, LONGEST_TAIL),
        6 => LONGEST_TAIL,
        _ => {
            let about = last.0.saturating_sub(GAP_FIRST.0 + 2);
            let about = random.between(about, about.saturating_add(4));
            about.min(LONGEST_TAIL)
        }
    }
}

impl Case {
    /// The case of a seed.
    #[must_use]
    pub fn of_seed(seed: u64, fault: Fault) -> Case {
        let mut random = Random::new(seed ^ 0x005E_ED0F_CA5E);
        let geometry = random.one_of(&GEOMETRIES).copied();
        let depth = match random.below(10) {
            0 => random.between(16, 255),
            1..=5 => random.between(1, 3),
            _ => random.between(4, 12),
        };
        let window_blocks = match random.below(20) {
            0 => random.between(9, 64),
            1..=9 => random.between(1, 2),
            _ => random.between(3, 8),
        };
        let hostility = hostility(&mut random);
        let turns = [1, 1, 1, 2, 3];
        let turns = random.one_of(&turns).copied().unwrap_or(1);
        Case {
            seed,
            geometry: geometry.unwrap_or(GEOMETRIES[0]),
            depth,
            setup: Setup::of(window_blocks, 0),
            gives_up: true,
            cuts: false,
            stale: if random.chance(600) {
                random.below(24)
            } else {
                0
            },
            headers: if random.chance(600) {
                random.below(11)
            } else {
                0
            },
            hostility,
            recordings: (0..turns).map(|_| calls(&mut random)).collect(),
            fault,
        }
    }

    /// The case of a seed in which something may be kept for EOD; most of its
    /// recordings come near the end of a short tape.
    #[must_use]
    pub fn with_tail(seed: u64, fault: Fault) -> Case {
        let mut case = Case::of_seed(seed, fault);
        let mut random = Random::new(seed ^ 0x7A11);
        if random.chance(800) {
            let short = random.one_of(&SHORT).copied();
            case.geometry = short.unwrap_or(case.geometry);
            case.setup.tail = tail(&mut random, case.geometry);
            case.come_near_end(&mut random);
        } else {
            case.setup.tail = tail(&mut random, case.geometry);
        }
        case.gives_up = random.chance(900);
        case
    }

    /// The same with the power cut at every frame.
    #[must_use]
    pub fn with_cuts(self) -> Case {
        Case { cuts: true, ..self }
    }

    /// Makes the first frames that are written stand about where elements end,
    /// and END come early now and then.
    fn come_near_end(&mut self, random: &mut Random) {
        let last = self.geometry.last().unwrap_or(GAP_END);
        let highest = last.minus(self.setup.tail);
        let hostility = &mut self.hostility;
        hostility.bad_below = Address(random.between(highest.minus(20).0, highest.plus(2).0));
        let mut pick = |rates: &[u32]| random.one_of(rates).copied().unwrap_or(0);
        hostility.failure = pick(&[0, 100, 300, 500]);
        hostility.reads_new = pick(&[0, 500, 1_000]);
        hostility.skip = pick(&[0, 2, 5, 40]);
        hostility.early_end = pick(&[0, 20, 50, 100]);
        // The way there takes many writes, and most of the tape behind is
        // blank: slow recordings and long readings are rare.
        hostility.busy = hostility.busy.min(300);
        hostility.progress = hostility.progress.max(400);
        hostility.blank = hostility.blank.max(300);
    }

    /// The cartridge before the first recording.
    #[must_use]
    pub fn cartridge(&self, last: Address) -> Tape {
        let mut random = Random::new(self.seed ^ 0xCA47);
        let mut tape = Tape::default();
        let oldest = match random.below(8) {
            0 => 65_530,
            1 => 0,
            _ => random.below(60_000),
        };
        for _ in 0..self.headers {
            let copies: Vec<Address> = HEADER_GROUPS.into_iter().flatten().collect();
            if let Some(address) = random.one_of(&copies) {
                tape.write(*address, header(&mut random, oldest, last));
            }
        }
        for _ in 0..self.stale {
            let address = match random.below(8) {
                0 => Address(random.below(5)),
                1 => Address(random.between(2_980, 3_010)),
                2 => Address(random.between(10, 300)),
                _ => Address(random.between(10, 40)),
            };
            if address <= last && !address.is_header_copy() {
                tape.write(address, stale(&mut random, oldest, last));
            }
        }
        tape
    }
}

fn hostility(random: &mut Random) -> Hostility {
    let mut pick = |rates: &[u32]| random.one_of(rates).copied().unwrap_or(0);
    let mut hostility = Hostility {
        progress: pick(&[100, 400, 700, 950]),
        failure: pick(&[0, 5, 50, 200, 500]),
        reads_new: pick(&[0, 300, 1_000]),
        reads_nothing: pick(&[0, 300, 1_000]),
        report: pick(&[50, 300, 1_000]),
        skip: pick(&[0, 3, 40, LARGEST_SKIP]),
        busy: pick(&[0, 0, 50, 300, 800]),
        busy_located: pick(&[0, 500, 1_000]),
        early_end: pick(&[0, 0, 0, 5, 50]),
        unlisted: pick(&[0, 0, 0, 0, 0, 0, 2, 20]),
        recovered: pick(&[0, 200]),
        blank: pick(&[0, 300, 1_000]),
        end_of_tape: pick(&[0, 500]),
        ..Hostility::NONE
    };
    hostility.stopped = random.chance(300);
    if random.chance(250) {
        hostility.bad_below = Address(random.between(2_970, 3_002));
        hostility.skip = LARGEST_SKIP;
    }
    if random.chance(100) {
        let copies: Vec<Address> = HEADER_GROUPS.into_iter().flatten().collect();
        hostility.only_header = random.one_of(&copies).copied();
        if random.chance(100) {
            hostility.only_header = Some(Address(0));
        }
    }
    hostility
}

fn calls(random: &mut Random) -> Vec<Call> {
    let length = match random.below(20) {
        0 => 0,
        1..=6 => random.below(60),
        7..=18 => random.between(60, 250),
        _ => random.between(250, 1_500),
    };
    calls_of_length(random, length)
}

/// A list of so many calls.
pub(super) fn calls_of_length(random: &mut Random, length: u32) -> Vec<Call> {
    let filemarks = random.below(5);
    let closes = random.chance(300);
    let talk = random.between(2, 12);
    (0..length)
        .map(|_| match random.below(6 + talk) {
            0..=2 if random.below(5) < filemarks => Call::Filemark,
            0 if random.chance(100) => Call::Block(0),
            0..=2 => Call::Block(u16::try_from(random.below(65_536)).unwrap_or(1)),
            3 => rare_call(random, closes),
            4 => Call::Fetch,
            5 => Call::Reply,
            _ => Call::Exchange,
        })
        .collect()
}

fn rare_call(random: &mut Random, closes: bool) -> Call {
    let off = [-1, 1, -128, 127];
    let off = random.one_of(&off).copied().unwrap_or(1);
    match random.below(40) {
        0 => Call::WrongBlock(off),
        1 => Call::WrongWindow(off),
        2 => Call::WrongFrame(off),
        3 => Call::WrongFetchWindow(off),
        4 if closes => Call::Close,
        _ => Call::Exchange,
    }
}

fn header(random: &mut Random, oldest: u32, last: Address) -> Shared {
    let age = random.below(3);
    let update_count = match oldest {
        65_530 => 4_294_967_280 + age,
        oldest => oldest * 2 + age,
    };
    let fields = HeaderFields {
        pass: u16::try_from(oldest + age).unwrap_or(0),
        update_count,
        last: if random.chance(900) { last } else { Address(5) },
        eod: if random.chance(500) { Address(0) } else { last },
        old_end: Address(update_count),
    };
    let mut frame = [0; FRAME_LENGTH];
    fill_header(&mut frame, &fields);
    damage(random, &mut frame, 300);
    Arc::new(frame)
}

fn stale(random: &mut Random, oldest: u32, last: Address) -> Shared {
    let kinds = [Kind::Data, Kind::Data, Kind::Marker, Kind::Eod];
    let label = Label {
        kind: random.one_of(&kinds).copied().unwrap_or(Kind::Data),
        pass: u16::try_from(oldest + random.below(6)).unwrap_or(3),
        last,
        number: SequenceNumber(random.below(30)),
        filemarks: random.below(5),
        latest_marker: None,
    };
    let mut frame = [0; FRAME_LENGTH];
    fill_frame(&mut frame, &label, None);
    damage(random, &mut frame, 100);
    Arc::new(frame)
}

fn damage(random: &mut Random, frame: &mut [u8; FRAME_LENGTH], per_mille: u32) {
    if random.chance(per_mille) {
        let places = [
            0,
            9,
            16,
            23,
            33,
            BLOCK_LENGTH,
            BLOCK_LENGTH + 13,
            BLOCK_LENGTH + 16,
        ];
        let near = usize::try_from(random.below(4)).unwrap_or(0);
        let place = random.one_of(&places).copied().unwrap_or(0) + near;
        if let Some(byte) = frame.get_mut(place) {
            *byte = random.byte();
        }
    }
}
