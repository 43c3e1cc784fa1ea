//! Whole cartridges recorded and read back: the lists of demand 3.

pub mod case;
pub mod chain;
pub mod content;
pub mod counts;
mod elsewhere;
pub mod ending;
pub mod guarded;
pub mod history;
pub mod layer;
pub mod longer;
mod opening;
pub mod plain;
mod plain_reading;
pub mod power_cut;
pub mod reading_back;
pub mod recorder;
mod replies;
pub mod shrink;
mod trail;

pub use case::{Call, Case, Setup};
pub use chain::Chain;
pub use layer::{Layer, Model};

use crate::drive::{Drive, DEEDS};
use crate::frame::{aux_of, number_at};
use crate::geometry::Address;
use crate::tape::Tape;
use content::Element;
use counts::Counts;
use ending::{Ending, Endings};
use layer::RecordingCalls;
use opening::{Opened, Opening};
use plain::Recorded;
use power_cut::CUTS;
use reading_back::ReadBack;
use recorder::Recorder;

/// The recordings of a pass that are told apart in a tally.
const CHAIN: usize = 5;

/// What the runs of a case came to.
#[derive(Clone, Copy, Debug, Default, PartialEq, Eq)]
pub struct Tally {
    /// Recordings begun.
    pub recordings: u64,
    /// Recordings that reported done and were read back.
    pub done: u64,
    /// Of these, by how many of the same pass stood before.
    pub added: [u64; CHAIN],
    /// Elements delivered.
    pub delivered: u64,
    /// Frames on tape besides these and the end: copies and earlier EODs.
    pub undelivered: u64,
    /// Recordings that ended with refusals 8, 9 and 12.
    pub refused: [u64; 3],
    /// Recordings that wrote at 3,000 or behind.
    pub crossed: u64,
    /// Recordings that met write errors and had the drive take as many frames
    /// as it then may: of elements and EOD, and of headers.
    pub reached: [u64; 2],
    /// How those that keep a tail came to their end.
    pub endings: Endings,
    /// How often each [`power_cut::Cut`] came about.
    pub cuts: [u64; CUTS],
    /// How often the drive did each [`crate::drive::Deed`].
    pub deeds: [u64; DEEDS],
}

impl Tally {
    /// Adds another tally.
    pub fn add(&mut self, other: &Tally) {
        self.recordings += other.recordings;
        self.done += other.done;
        self.delivered += other.delivered;
        self.undelivered += other.undelivered;
        self.crossed += other.crossed;
        add_each(&mut self.added, &other.added);
        add_each(&mut self.refused, &other.refused);
        add_each(&mut self.reached, &other.reached);
        add_each(&mut self.endings.0, &other.endings.0);
        add_each(&mut self.cuts, &other.cuts);
        add_each(&mut self.deeds, &other.deeds);
    }
}

fn add_each(sums: &mut [u64], more: &[u64]) {
    for (sum, more) in sums.iter_mut().zip(more) {
        *sum += more;
    }
}

/// Runs a case: its recordings in turn on one cartridge, each read back if
/// it reported done. Every answer, frame and buffer is looked at.
///
/// # Errors
/// What was found wrong.
pub fn run(case: &Case) -> Result<Tally, String> {
    run_on::<Model>(case)
}

/// Runs a case as [`run`] does, on another layer than the model.
///
/// # Errors
/// What was found wrong.
pub fn run_on<L: Layer>(case: &Case) -> Result<Tally, String> {
    run_with(case, Turns::Anew, &Host::<L>::EXACT)
}

/// Runs a case as [`run`] does, but looks at nothing but what the demand
/// speaks of: deliveries, the end, and the addresses written.
///
/// # Errors
/// What was found wrong.
pub fn run_demand_only(case: &Case) -> Result<Tally, String> {
    run_with(case, Turns::Anew, &PLAIN)
}

/// How the recordings of a case follow each other.
#[derive(Clone, Copy)]
enum Turns<'a> {
    /// Each is a recording of its own.
    Anew,
    /// Each is added to the one before if that reported done; each is opened
    /// with this.
    Added(&'a [Setup]),
}

impl Turns<'_> {
    fn adds(self) -> bool {
        matches!(self, Turns::Added(_))
    }

    fn setup(self, case: &Case, turn: usize) -> Setup {
        match self {
            Turns::Anew => case.setup,
            Turns::Added(setups) => setups.get(turn).copied().unwrap_or(case.setup),
        }
    }
}

/// A cartridge about to be recorded.
struct Before<'a, L: Layer> {
    case: &'a Case,
    last: Address,
    opening: Opening<L::Reading>,
    /// Whether the end that it is opened at was read on another cartridge.
    astray: bool,
    setup: Setup,
    calls: &'a [Call],
}

type Record<L> = fn(&Before<L>, Drive, &mut Tally) -> Result<(Drive, Recorded), String>;

/// Who makes the calls and looks at what they come to.
struct Host<L: Layer> {
    record: Record<L>,
    /// Whether it looks at what stands on tape besides what is delivered.
    closely: bool,
}

impl<L: Layer> Host<L> {
    /// Looks at everything.
    const EXACT: Host<L> = Host {
        record: record::<L>,
        closely: true,
    };
}

/// Looks at what the demand speaks of.
const PLAIN: Host<Model> = Host {
    record: record_plainly::<false>,
    closely: false,
};

fn run_with<L: Layer>(case: &Case, turns: Turns, host: &Host<L>) -> Result<Tally, String> {
    run_to_end(case, turns, host).map(|ran| ran.tally)
}

/// What became of a cartridge.
struct Ran<R> {
    tally: Tally,
    /// The reading that the next recording would be added at the end of.
    end: Option<ReadBack<R>>,
}

/// A cartridge between two recordings.
struct Left<R> {
    tape: Tape,
    /// The reading that the next recording is added at the end of.
    end: Option<ReadBack<R>>,
}

fn run_to_end<L: Layer>(
    case: &Case,
    turns: Turns,
    host: &Host<L>,
) -> Result<Ran<L::Reading>, String> {
    let last = case.geometry.last().ok_or("a geometry without frames")?;
    let left = Left {
        tape: case.cartridge(last),
        end: None,
    };
    run_from(left, case, turns, host)
}

/// Runs a case on this cartridge.
fn run_from<L: Layer>(
    mut left: Left<L::Reading>,
    case: &Case,
    turns: Turns,
    host: &Host<L>,
) -> Result<Ran<L::Reading>, String> {
    let mut tally = Tally::default();
    let last = case.geometry.last().ok_or("a geometry without frames")?;
    let mut seed = case.seed;
    for (turn, calls) in case.recordings.iter().enumerate() {
        seed = seed.wrapping_add(1);
        let opening = match left.end.take() {
            Some(back) => Opening::AtEnd(back),
            None => Opening::fresh(&mut left.tape, last),
        };
        let setup = turns.setup(case, turn);
        let before = Before {
            case,
            last,
            setup: match opening.old_end() {
                Some(old_end) => setup.at(old_end, last),
                None => setup,
            },
            opening,
            astray: false,
            calls,
        };
        let how = (turns.adds(), seed);
        left = run_turn(before, left.tape, how, host, &mut tally)
            .map_err(|wrong| format!("recording {turn}: {wrong}"))?;
    }
    let end = left.end;
    Ok(Ran { tally, end })
}

/// Makes a recording, cuts the power at its frames if that is wanted, and reads
/// it back if it reported done.
fn run_turn<L: Layer>(
    before: Before<L>,
    tape: Tape,
    (adds, seed): (bool, u64),
    host: &Host<L>,
    tally: &mut Tally,
) -> Result<Left<L::Reading>, String> {
    let (case, last) = (before.case, before.last);
    let found = case.cuts.then(|| tape.clone());
    let drive = drive_with(tape, case, seed);
    let (mut drive, recorded) = (host.record)(&before, drive, tally)?;
    tally.recordings += 1;
    if let Some(found) = found {
        let cuts = &mut tally.cuts;
        if let Some(left) = power_cut::look(&before, &found, &recorded, (adds, seed), cuts)? {
            add_each(&mut tally.deeds, &drive.log().deeds);
            return Ok(left);
        }
    }
    let mut end = None;
    if recorded.done {
        let back = reading_back::read_back::<L>(case, last, &mut drive, &recorded, seed, adds)?;
        let back = finished(before, &recorded, back, &drive, host, tally)?;
        end = Some(back).filter(|_| adds);
    }
    add_each(&mut tally.deeds, &drive.log().deeds);
    let tape = drive.eject();
    Ok(Left { tape, end })
}

fn drive_with(tape: Tape, case: &Case, seed: u64) -> Drive {
    // It has room for one more than it tells, which no sound session sends.
    let depth = case.depth.saturating_add(1);
    let depth = usize::try_from(depth).unwrap_or(usize::MAX);
    let mut drive = Drive::new(tape, depth, case.hostility, seed);
    if case.cuts {
        drive.keep_acts();
    }
    drive
}

/// Counts a recording that was read back.
fn finished<L: Layer>(
    before: Before<L>,
    recorded: &Recorded,
    back: ReadBack<L::Reading>,
    drive: &Drive,
    host: &Host<L>,
    tally: &mut Tally,
) -> Result<ReadBack<L::Reading>, String> {
    if host.closely {
        if back.end != Some(back.header.eod) {
            return Err(format!("{:?} is not the end that is named", back.end));
        }
        keeps_tail(&before, recorded, &back, drive.tape())?;
        let frames = trail::is_right_on_tape(drive.tape(), &back.header, &back.elements)?;
        let delivered = back.elements.len() + 1;
        tally.undelivered += frames.saturating_sub(delivered) as u64;
    }
    let behind = before.opening.behind();
    count_endings(&before, recorded, &back, &mut tally.endings);
    tally.done += 1;
    tally.delivered += back.elements.len() as u64;
    if let Some(count) = tally.added.get_mut(behind) {
        *count += 1;
    }
    Ok(ReadBack {
        recordings: behind + 1,
        promised: recorded.promised(),
        given_up: recorded.kept.is_some(),
        ..back
    })
}

/// Looks at a cartridge that was read back: EOD has the number behind what was
/// promised, and no element of the recording stands in the tail.
fn keeps_tail<L: Layer>(
    before: &Before<L>,
    recorded: &Recorded,
    back: &ReadBack<L::Reading>,
    tape: &Tape,
) -> Result<(), String> {
    let eod = tape.read(back.header.eod);
    let number = eod.map(|frame| number_at(aux_of(frame), 44));
    if number.map(usize::try_from) != Some(Ok(recorded.promised())) {
        return Err(format!("EOD has number {number:?}"));
    }
    let own = back.places.iter().skip(before.opening.elements().len());
    match own.max().filter(|place| is_in_tail(before, **place)) {
        Some(place) => Err(format!("{place:?} is in the tail")),
        None => Ok(()),
    }
}

fn is_in_tail<L: Layer>(before: &Before<L>, address: Address) -> bool {
    address.plus(before.setup.tail) > before.last
}

fn count_endings<L: Layer>(
    before: &Before<L>,
    recorded: &Recorded,
    back: &ReadBack<L::Reading>,
    endings: &mut Endings,
) {
    if is_in_tail(before, back.header.eod) {
        endings.note(Ending::EodInTail);
    }
    match back.elements.get(recorded.promised()) {
        Some(Element::Block(_)) => endings.note(Ending::BlockDelivered),
        Some(Element::Filemark) => endings.note(Ending::FilemarkDelivered),
        None => {}
    }
    if let Opening::AtEnd(behind) = &before.opening {
        if behind.given_up {
            endings.note(Ending::Added);
        }
        if behind.elements.len() > behind.promised {
            endings.note(Ending::AddedBehindDelivered);
        }
        if behind.elements.len() == recorded.promised() && back.elements.len() > recorded.promised()
        {
            endings.note(Ending::FirstDelivered);
        }
    }
}

/// Opens a session and makes its calls; every one is looked at.
fn recorded_on<L: Layer>(
    before: &Before<L>,
    drive: Drive,
) -> Result<Recorder<L::Recording>, String> {
    let (mut session, outcome) = opening::open(before);
    let opened = Opened::of(before);
    if outcome != opened.outcome {
        return Err(format!("opening answered {outcome:?}"));
    }
    session.plant(before.case.fault);
    let counts = Counts::of(before.case.depth, before.setup.window_blocks);
    let mut recorder = Recorder::of(drive, session, before.setup, opened, counts);
    recorder.run(before.calls, before.case.gives_up)?;
    Ok(recorder)
}

fn record<L: Layer>(
    before: &Before<L>,
    drive: Drive,
    tally: &mut Tally,
) -> Result<(Drive, Recorded), String> {
    let mut recorder = recorded_on(before, drive)?;
    let accepted = recorder.accepted.len();
    recorder.history.note_held(&recorder.drive, accepted);
    let written = &recorder.drive.log().written;
    tally.crossed += u64::from(written.iter().any(|address| address.0 >= 3_000));
    match recorder.refused {
        Some(8) => tally.refused[0] += 1,
        Some(9) => tally.refused[1] += 1,
        Some(12) => tally.refused[2] += 1,
        _ => {}
    }
    add_each(&mut tally.endings.0, &recorder.endings.0);
    add_each(
        &mut tally.reached,
        &recorder.counts.reached().map(u64::from),
    );
    let recorded = Recorded {
        accepted: recorder.accepted,
        done: recorder.done,
        kept: recorder.kept,
        history: recorder.history,
    };
    let mut drive = recorder.drive;
    if !recorded.done {
        let (pass, seed) = (recorder.opening.pass, before.case.seed);
        let closed = before.opening.closed();
        reading_back::read_unfinished::<L>(before.case, pass, &mut drive, &recorded, closed, seed)?;
    }
    Ok((drive, recorded))
}

/// Makes the calls, and looks at the frames sent if wanted.
fn record_plainly<const FRAMES: bool>(
    before: &Before<Model>,
    mut drive: Drive,
    _: &mut Tally,
) -> Result<(Drive, Recorded), String> {
    let recorded = plain::record(before, &mut drive, FRAMES)?;
    Ok((drive, recorded))
}
