//! A simulated drive, hostile within its conduct.

use std::collections::VecDeque;
use std::sync::Arc;

use crate::command::Command;
use crate::frame::Frame;
use crate::geometry::{Address, BLOCK_LENGTH, FRAME_LENGTH};
use crate::hostility::Hostility;
use crate::random::Random;
use crate::reply::{
    Reply, Sense, BECOMING_READY, BLANK, EARLY_END, END_OF_TAPE, GOOD, LARGEST_SKIP, LONG_WRITE,
    RECOVERED, SENSES, UNREADABLE, WRITE_ERROR,
};
use crate::tape::{Shared, Storage, Tape};

/// The ways of being hostile, counted.
#[derive(Clone, Copy, Debug, PartialEq, Eq, Hash)]
pub enum Deed {
    /// At a failed address the old frame is read.
    FailedAsBefore,
    /// A failed address reads as the new frame.
    FailedAsNew,
    /// A failed address reads as nothing.
    FailedAsNothing,
    /// A write error was reported on a WRITE.
    ErrorOnWrite,
    /// A write error was reported on READ POSITION.
    ErrorOnPosition,
    /// A frame was taken behind a failed one.
    TakenBehindFailure,
    /// READ POSITION was good with a failed frame buffered.
    FailureWithheld,
    /// A command was answered busy.
    Busy,
    /// A LOCATE was carried out and answered busy.
    BusyLocated,
    /// A WRITE was answered with an early end of tape.
    EarlyEnd,
    /// A reply was unlisted for its command.
    Unlisted,
    /// A frame was read as recovered.
    Recovered,
    /// An address was unreadable.
    Unreadable,
    /// 08/00/05 was given.
    Blank,
    /// 00/00/02 was given.
    EndOfTape,
}

/// The number of different deeds.
pub const DEEDS: usize = Deed::EndOfTape as usize + 1;

/// What a drive did that a host is not told.
#[derive(Clone, Debug, Default, PartialEq, Eq)]
pub struct Log {
    /// Every address that changed or might have.
    pub written: Vec<Address>,
    /// How often each [`Deed`] was done.
    pub deeds: [u64; DEEDS],
}

impl Log {
    fn note(&mut self, deed: Deed) {
        if let Some(count) = self.deeds.get_mut(deed as usize) {
            *count += 1;
        }
    }
}

/// A frame that a drive went to write.
#[derive(Clone, Debug, PartialEq, Eq)]
pub struct Act {
    /// Where.
    pub address: Address,
    /// The frame.
    pub frame: Shared,
    /// What the address read as behind it.
    pub reads: Option<Shared>,
}

/// The drive, over a tape in memory or other storage.
#[derive(Clone, Debug, PartialEq, Eq)]
pub struct Drive<S = Tape> {
    tape: S,
    depth: usize,
    hostility: Hostility,
    random: Random,
    /// The address of the oldest buffered frame, or the next to be read.
    front: Address,
    buffer: VecDeque<Shared>,
    /// Whether the oldest buffered frame failed.
    failed: bool,
    log: Log,
    /// What was written and not asked for yet, if it is kept.
    acts: Option<Vec<Act>>,
}

impl<S: Storage> Drive<S> {
    /// A drive with a cartridge, a buffer of `depth` frames and a seed.
    #[must_use]
    pub fn new(tape: S, depth: usize, hostility: Hostility, seed: u64) -> Drive<S> {
        let mut random = Random::new(seed);
        let mut buffer = VecDeque::new();
        if hostility.stopped {
            let junk: Shared = Arc::new([random.byte(); FRAME_LENGTH]);
            let count = usize::try_from(random.between(1, 5)).unwrap_or(1);
            buffer.extend(std::iter::repeat_n(junk, count.min(depth)));
        }
        Drive {
            tape,
            depth,
            hostility,
            front: Address(random.between(0, 3_000)),
            random,
            failed: !buffer.is_empty(),
            buffer,
            log: Log::default(),
            acts: None,
        }
    }

    /// Keeps every frame that it goes to write from now on.
    pub fn keep_acts(&mut self) {
        self.acts = Some(Vec::new());
    }

    /// Whether it does.
    #[must_use]
    pub fn keeps_acts(&self) -> bool {
        self.acts.is_some()
    }

    /// The frames kept since the last time, in order.
    pub fn take_acts(&mut self) -> Vec<Act> {
        self.acts.as_mut().map(std::mem::take).unwrap_or_default()
    }

    /// The cartridge.
    #[must_use]
    pub fn tape(&self) -> &S {
        &self.tape
    }

    /// The cartridge, to be altered between commands.
    pub fn tape_mut(&mut self) -> &mut S {
        &mut self.tape
    }

    /// Gives the cartridge back.
    #[must_use]
    pub fn eject(self) -> S {
        self.tape
    }

    /// What a host is not told.
    #[must_use]
    pub fn log(&self) -> &Log {
        &self.log
    }

    /// The frames buffered.
    #[must_use]
    pub fn buffered(&self) -> usize {
        self.buffer.len()
    }

    /// The frames buffered, oldest first, each with the address it goes to.
    pub fn held(&self) -> impl Iterator<Item = (Address, &Shared)> {
        let counted = (0..).zip(&self.buffer);
        counted.map(|(before, frame)| (self.front.plus(before), frame))
    }

    /// The address the next frame taken goes to, or the next to be read.
    #[must_use]
    pub fn next(&self) -> Address {
        let buffered = u32::try_from(self.buffer.len()).unwrap_or(u32::MAX);
        self.front.plus(buffered)
    }

    /// Carries out a command of a recording and gives its reply.
    pub fn record(&mut self, command: Command, frame: &Frame) -> Reply {
        self.write_some();
        if self.random.chance(self.hostility.unlisted) {
            return self.unlisted_reply(command);
        }
        let busy = self.random.chance(self.hostility.busy);
        let failed = self.failed;
        let reply = match command {
            Command::Locate(address) => self.locate(address, busy),
            Command::Write(_) | Command::ReadPosition if busy => self.busy(),
            Command::Write(_) | Command::ReadPosition if self.reports() => self.write_error(),
            Command::Write(address) => self.take(address, frame),
            Command::ReadPosition => {
                let buffered = u32::try_from(self.buffer.len()).unwrap_or(u32::MAX);
                Reply {
                    buffered,
                    ..self.plain(GOOD)
                }
            }
            Command::Read(_) => self.unlisted_reply(command),
        };
        match (command, reply.sense) {
            (Command::Write(_), WRITE_ERROR) => self.log.note(Deed::ErrorOnWrite),
            (_, WRITE_ERROR) => self.log.note(Deed::ErrorOnPosition),
            (Command::Write(_), GOOD) if failed => self.log.note(Deed::TakenBehindFailure),
            (Command::ReadPosition, GOOD) if failed => self.log.note(Deed::FailureWithheld),
            (_, EARLY_END) => self.log.note(Deed::EarlyEnd),
            _ => {}
        }
        self.write_some();
        reply
    }

    /// Carries out a command of a reading and gives its reply; `frame` is
    /// what was read, if something was.
    pub fn read(&mut self, command: Command, frame: &mut Frame) -> Reply {
        let busy = self.random.chance(self.hostility.busy);
        match command {
            Command::Locate(address) => self.locate(address, busy),
            Command::Read(_) if busy => self.busy(),
            Command::Read(_) => self.read_next(frame),
            Command::Write(_) | Command::ReadPosition => self.unlisted_reply(command),
        }
    }

    fn read_next(&mut self, frame: &mut Frame) -> Reply {
        if let Some(found) = self.tape.frame(self.front) {
            frame.copy_from_slice(found.as_slice());
            self.front = self.front.plus(1);
            let recovered = self.random.chance(self.hostility.recovered);
            if recovered {
                self.log.note(Deed::Recovered);
            }
            return self.plain(if recovered { RECOVERED } else { GOOD });
        }
        if self.random.chance(self.hostility.blank) && self.tape.is_blank(self.front, 32) {
            self.log.note(Deed::Blank);
            return self.plain(BLANK);
        }
        if self.random.chance(self.hostility.end_of_tape) && self.tape.is_blank_from(self.front) {
            self.log.note(Deed::EndOfTape);
            return self.plain(END_OF_TAPE);
        }
        self.front = self.front.plus(1);
        self.log.note(Deed::Unreadable);
        self.plain(UNREADABLE)
    }

    /// A reply whose numbers mean nothing.
    fn plain(&mut self, sense: Sense) -> Reply {
        Reply {
            sense,
            buffered: self.random.word(),
            position: Address(self.random.word()),
            skip: self.random.word(),
        }
    }

    fn busy(&mut self) -> Reply {
        self.log.note(Deed::Busy);
        let becoming = self.random.chance(500);
        self.plain(if becoming { BECOMING_READY } else { LONG_WRITE })
    }

    fn locate(&mut self, address: Address, busy: bool) -> Reply {
        if !busy || self.random.chance(self.hostility.busy_located) {
            if busy {
                self.log.note(Deed::BusyLocated);
            }
            self.buffer.clear();
            self.failed = false;
            self.front = address;
        }
        if busy {
            self.busy()
        } else {
            self.plain(GOOD)
        }
    }

    fn reports(&mut self) -> bool {
        self.failed && self.random.chance(self.hostility.report)
    }

    fn write_error(&mut self) -> Reply {
        let largest = self.hostility.skip.min(LARGEST_SKIP);
        let behind = self.hostility.bad_below.0.saturating_sub(self.front.0);
        let skip = if behind > 0 && self.random.chance(700) {
            behind.min(LARGEST_SKIP)
        } else {
            self.random.between(0, largest)
        };
        Reply::write_error(self.front, skip)
    }

    fn take(&mut self, address: Address, frame: &Frame) -> Reply {
        if self.buffer.len() >= self.depth {
            return self.busy();
        }
        if !address.is_header_copy() && self.random.chance(self.hostility.early_end) {
            return self.plain(EARLY_END);
        }
        let mut taken = Arc::new(*frame);
        if let Some(taken) = Arc::get_mut(&mut taken) {
            let filled = self.random.bits().to_be_bytes();
            if let Some(place) = taken.get_mut(BLOCK_LENGTH + 4..BLOCK_LENGTH + 12) {
                place.copy_from_slice(&filled);
            }
        }
        self.buffer.push_back(taken);
        self.plain(GOOD)
    }

    /// Writes buffered frames in the background.
    fn write_some(&mut self) {
        while !self.failed && self.random.chance(self.hostility.progress) {
            let Some(frame) = self.buffer.front().cloned() else {
                return;
            };
            self.write(frame);
        }
    }

    /// Writes what it holds up to a failure, as it may when the host says
    /// nothing more.
    pub fn write_held(&mut self) {
        while let Some(frame) = self.buffer.front().filter(|_| !self.failed).cloned() {
            self.write(frame);
        }
    }

    /// Writes the oldest buffered frame, which is this one.
    fn write(&mut self, frame: Shared) {
        let address = self.front;
        self.log.written.push(address);
        if self.fails() {
            self.failed = true;
            if self.random.chance(self.hostility.reads_new) {
                self.log.note(Deed::FailedAsNew);
                self.tape.store(address, frame.clone());
            } else if self.random.chance(self.hostility.reads_nothing) {
                self.log.note(Deed::FailedAsNothing);
                self.tape.spoil(address);
            } else {
                self.log.note(Deed::FailedAsBefore);
            }
            self.tape.failed(address);
        } else {
            self.tape.store(address, frame.clone());
            self.buffer.pop_front();
            self.front = address.plus(1);
        }
        if let Some(acts) = &mut self.acts {
            let reads = self.tape.frame(address);
            acts.push(Act {
                address,
                frame,
                reads,
            });
        }
    }

    fn fails(&mut self) -> bool {
        if self.front.is_header_copy() {
            if let Some(only) = self.hostility.only_header {
                return self.front != only;
            }
        } else if self.front < self.hostility.bad_below {
            return true;
        }
        self.random.chance(self.hostility.failure)
    }

    /// A reply that is not listed for the command; the command is not
    /// carried out.
    fn unlisted_reply(&mut self, command: Command) -> Reply {
        self.log.note(Deed::Unlisted);
        let listed = listed_for(command);
        for _ in 0..4 {
            let of_another = self.random.one_of(&SENSES).map(|(sense, _)| *sense);
            if let Some(sense) = of_another.filter(|sense| !listed.contains(sense)) {
                return self.plain(sense);
            }
        }
        let sense = Sense {
            key: self.random.byte() | 0x10,
            asc: self.random.byte(),
            ascq: self.random.byte(),
        };
        self.plain(sense)
    }
}

/// The triples listed for a command.
#[must_use]
pub fn listed_for(command: Command) -> Vec<Sense> {
    let mut listed = vec![GOOD, BECOMING_READY, LONG_WRITE];
    match command {
        Command::Locate(_) => {}
        Command::Write(address) if address.is_header_copy() => listed.push(WRITE_ERROR),
        Command::Write(_) => listed.extend([WRITE_ERROR, EARLY_END]),
        Command::ReadPosition => listed.push(WRITE_ERROR),
        Command::Read(_) => listed.extend([RECOVERED, UNREADABLE, BLANK, END_OF_TAPE]),
    }
    listed
}
