//! The simulated drive keeps to its conduct.

use adr_model::check::Case;
use adr_model::drive::{listed_for, Drive};
use adr_model::geometry::{BLOCK_LENGTH, FRAME_LENGTH};
use adr_model::random::Random;
use adr_model::reply::Meaning;
use adr_model::tape::Tape;
use adr_model::{Address, Command, Fault};

const LAST: Address = Address(3_000);

/// The addresses from 0 to 3,300 at which two tapes differ.
fn differences(one: &Tape, other: &Tape) -> Vec<Address> {
    (0..3_300)
        .map(Address)
        .filter(|address| one.read(*address) != other.read(*address))
        .collect()
}

/// Since `before` only addresses that the drive logged changed, to what it
/// took from `start` on; where a LOCATE emptied its buffer there is no start.
fn only_taken_frames_written(
    before: &Drive,
    drive: &Drive,
    start: Option<Address>,
    taken: &[[u8; FRAME_LENGTH]],
) {
    let logged = drive.log().written.len() - before.log().written.len();
    let changed = differences(before.tape(), drive.tape());
    assert!(changed.len() <= logged);
    for address in changed {
        assert!(drive.log().written.contains(&address));
        let index = start.map(|start| address.0.wrapping_sub(start.0) as usize);
        let sent = index.and_then(|index| taken.get(index));
        if let (Some(read), Some(sent)) = (drive.tape().read(address), sent) {
            assert!(read[..BLOCK_LENGTH + 4] == sent[..BLOCK_LENGTH + 4]);
            assert!(read[BLOCK_LENGTH + 12..] == sent[BLOCK_LENGTH + 12..]);
        }
    }
}

/// Whether a LOCATE was carried out, be it answered busy.
fn is_located(drive: &Drive, command: Command, meaning: Meaning) -> bool {
    match command {
        Command::Locate(_) if meaning == Meaning::Good => true,
        Command::Locate(to) => drive.buffered() == 0 && drive.next() == to,
        _ => false,
    }
}

#[test]
fn writing() {
    let mut failures = 0;
    for seed in 0..150 {
        let case = Case::of_seed(seed, Fault::None);
        let mut random = Random::new(seed);
        let mut drive = Drive::new(case.cartridge(LAST), 6, case.hostility, seed);
        // What the drive took since the last LOCATE carried out.
        let mut taken: Vec<[u8; FRAME_LENGTH]> = Vec::new();
        let mut start = None;
        for turn in 0..60u8 {
            let before = drive.clone();
            let command = match random.below(8) {
                0 => Command::Locate(Address(random.between(10, 60))),
                1 | 2 => Command::ReadPosition,
                _ if start.is_none() => Command::Locate(Address(10)),
                _ => Command::Write(drive.next()),
            };
            let frame = [turn; FRAME_LENGTH];
            let reply = drive.record(command, &frame);
            if !listed_for(command).contains(&reply.sense) {
                break;
            }
            let moved = is_located(&drive, command, reply.sense.meaning());
            if let (Command::Locate(to), true) = (command, moved) {
                start = Some(to);
                taken.clear();
            }
            match (command, reply.sense.meaning()) {
                (Command::Write(_), Meaning::Good) => taken.push(frame),
                (Command::ReadPosition, Meaning::Good) => {
                    let buffered = usize::try_from(reply.buffered);
                    assert!(buffered.is_ok_and(|buffered| buffered >= drive.buffered()));
                }
                (_, Meaning::WriteError) => {
                    failures += 1;
                    // It stopped there and will not go on.
                    let count = u32::try_from(drive.buffered()).unwrap_or(0);
                    assert!(count > 0);
                    assert_eq!(reply.position.plus(count), drive.next());
                }
                _ => {}
            }
            let start = start.filter(|_| !moved);
            only_taken_frames_written(&before, &drive, start, &taken);
        }
    }
    assert!(failures > 50, "{failures}");
}

/// What is kept of the frames written makes one tape of the other, each address
/// reading as before, as the frame or as nothing; and a drive that is left alone
/// writes all that it holds, or fails.
#[test]
fn the_frames_kept() {
    let mut alone = 0;
    for seed in 0..150 {
        let case = Case::of_seed(seed, Fault::None);
        let mut drive = Drive::new(case.cartridge(LAST), 6, case.hostility, seed);
        let mut tape = drive.tape().clone();
        drive.keep_acts();
        let frame = [7; FRAME_LENGTH];
        drive.record(Command::Locate(Address(10)), &frame);
        for turn in 0..20 {
            drive.record(Command::Write(drive.next()), &[turn; FRAME_LENGTH]);
        }
        let written = drive.log().written.len();
        drive.write_held();
        alone += drive.log().written.len() - written;
        let acts = drive.take_acts();
        assert_eq!(drive.take_acts(), []);
        let addresses = acts.iter().map(|act| act.address);
        assert!(addresses.eq(drive.log().written.iter().copied()));
        for act in acts {
            let new = act.reads.as_ref() == Some(&act.frame);
            assert!(new || act.reads.is_none() || act.reads.as_ref() == tape.read(act.address));
            tape.put(act.address, act.reads);
        }
        assert_eq!(&tape, drive.tape());
        let failed = drive.log().deeds[..3].iter().sum::<u64>() > 0;
        assert!(drive.buffered() == 0 || failed || case.hostility.stopped);
    }
    assert!(alone > 50, "{alone}");
}

/// A reply to a READ of `next` is true of the tape; its place in a count.
fn true_of(tape: &Tape, next: Address, meaning: Meaning, frame: &[u8; FRAME_LENGTH]) -> usize {
    let blank_to = |end: u32| (next.0..end).all(|at| tape.read(Address(at)).is_none());
    match meaning {
        Meaning::Good | Meaning::Recovered => {
            assert!(tape.read(next).is_some_and(|read| **read == *frame));
            0
        }
        Meaning::Unreadable => {
            assert!(tape.read(next).is_none());
            1
        }
        Meaning::Blank => {
            assert!(blank_to(next.0 + 32));
            2
        }
        Meaning::EndOfTape => {
            assert!(blank_to(4_000));
            3
        }
        Meaning::Busy => 4,
        meaning => panic!("{meaning:?}"),
    }
}

#[test]
fn reading() {
    let mut seen = [0; 5];
    for seed in 0..200 {
        let case = Case::of_seed(seed, Fault::None);
        let tape = case.cartridge(LAST);
        let mut drive = Drive::new(tape.clone(), 6, case.hostility, seed);
        let mut random = Random::new(seed);
        let mut frame = [0; FRAME_LENGTH];
        let mut next = Address(10);
        while drive
            .read(Command::Locate(next), &mut frame)
            .sense
            .meaning()
            != Meaning::Good
        {}
        for _ in 0..200 {
            frame.fill(0x11);
            let reply = drive.read(Command::Read(next), &mut frame);
            let place = true_of(&tape, next, reply.sense.meaning(), &frame);
            seen[place] += 1;
            if place <= 1 {
                next = next.plus(1);
            }
            if random.chance(100) {
                let to = Address(random.between(10, 3_000));
                let reply = drive.read(Command::Locate(to), &mut frame);
                next = drive.next();
                assert!(next == to || reply.sense.meaning() == Meaning::Busy);
            }
        }
        assert_eq!(drive.tape(), &tape);
    }
    assert!(seen.iter().all(|count| *count > 50), "{seen:?}");
}
