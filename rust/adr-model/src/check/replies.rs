//! What a recording's fetches and replies must answer, by what the drive
//! told the host.

use super::content::{block, Element};
use super::ending::Ending;
use super::layer::RecordingCalls;
use super::recorder::{Recorder, Sent};
use crate::command::{Answer, Command, Outcome};
use crate::drive::listed_for;
use crate::frame::{fill_frame, fill_header, Frame, HeaderFields, Kind, Label};
use crate::geometry::{Address, SequenceNumber, FRAME_LENGTH, GAP_END, GAP_FIRST};
use crate::reply::{Meaning, Reply, GOOD};

/// Fetches after which a recording is held to go on for ever.
const FETCHES: u32 = 400_000;
/// What an untouched frame holds.
pub(super) static UNTOUCHED: Frame = [0xA5; FRAME_LENGTH];

fn whole(frame: &[u8]) -> Result<&Frame, String> {
    frame
        .try_into()
        .map_err(|_| "a frame of another length".into())
}

impl<R: RecordingCalls> Recorder<R> {
    /// Fetches, and sends a command to the drive.
    pub(super) fn fetch(&mut self) -> Result<(), String> {
        self.fetches += 1;
        if self.fetches > FETCHES {
            return Err("the recording goes on for ever".into());
        }
        let before = self.session.clone();
        let answer = self.session.fetch(&self.window, &mut self.frame);
        if !matches!(answer, Answer::Command(Command::Write(_))) && *self.frame != UNTOUCHED {
            return Err(format!("{answer:?} altered the frame"));
        }
        if self.awaited.is_some() || self.refused.is_some() {
            return if answer == Answer::Refused(7) && before == self.session {
                Ok(())
            } else {
                Err(format!("{answer:?} where 7 was due"))
            };
        }
        match answer {
            Answer::Command(command) => self.send(command),
            Answer::Idle if !self.closed && self.is_whole() => Ok(()),
            Answer::Done if self.closed && self.is_whole() && self.eod.is_some() => {
                self.done = true;
                Ok(())
            }
            Answer::Refused(9) if self.no_room_at(self.drive.next()) => {
                self.end_with(9, Ending::SpentByAddress);
                Ok(())
            }
            _ => Err(format!("{answer:?} without cause")),
        }
    }

    /// Whether everything accepted and sent is known on tape.
    fn is_whole(&self) -> bool {
        self.taken.is_empty() && self.confirmed == self.promised()
    }

    /// Whether 9 is due in place of a WRITE at this address, or of the LOCATE
    /// of a target.
    fn no_room_at(&self, address: Address) -> bool {
        let above = match self.target {
            Some(target) => target > self.end,
            None => self
                .due_first()
                .is_some_and(|sent| self.is_above(sent, address)),
        };
        above && self.taken.is_empty() && self.eod.is_none()
    }

    /// Whether an address is above those for such a frame.
    fn is_above(&self, sent: Sent, address: Address) -> bool {
        let kept = if sent == Sent::Element { self.tail } else { 0 };
        u64::from(address.0) + u64::from(kept) > u64::from(self.end.0)
    }

    /// Notes a refusal that ends the session.
    fn end_with(&mut self, number: u8, how: Ending) {
        self.refused = Some(number);
        let element = self.due_first() == Some(Sent::Element);
        self.spent = number == 9 && self.tail > 0 && element;
        if self.spent {
            self.endings.note(how);
            self.endings.note(if self.closed {
                Ending::SpentClosed
            } else {
                Ending::SpentOpen
            });
        } else if number == 9 && self.kept.is_some() {
            self.endings.note(Ending::NoRoomForEod);
        }
    }

    fn send(&mut self, command: Command) -> Result<(), String> {
        let again = self.again.take();
        let due = again.or(self.target.map(Command::Locate));
        if due.is_some_and(|due| due != command) {
            return Err(format!("{command:?} where {due:?} was due"));
        }
        if again.is_none() && self.is_out_of_room(command) {
            return Err(format!("{command:?} where 9 was due"));
        }
        match command {
            Command::Locate(_) if !self.taken.is_empty() => {
                return Err("LOCATE while frames are buffered".into());
            }
            Command::ReadPosition if self.taken.is_empty() => {
                return Err("READ POSITION with nothing outstanding".into());
            }
            Command::Write(address) => self.look_at_frame(address)?,
            Command::Locate(_) | Command::ReadPosition => {}
            Command::Read(_) => return Err("READ in a recording".into()),
        }
        let reply = self.drive.record(command, whole(&self.frame)?);
        self.history.note(&mut self.drive, self.accepted.len());
        if let Command::Write(_) = command {
            self.frame.copy_from_slice(&UNTOUCHED);
        }
        self.awaited = Some((command, reply));
        let stage = self.session.stage();
        self.counts.answer(stage, command, reply.sense)
    }

    /// Whether 9 is due in place of this command.
    fn is_out_of_room(&self, command: Command) -> bool {
        match command {
            Command::Write(address) if address.is_header_copy() => false,
            Command::Write(address) => self
                .due(address)
                .is_ok_and(|sent| self.is_above(sent, address)),
            Command::Locate(_) if self.target.is_some() => self.no_room_at(GAP_FIRST),
            Command::Locate(GAP_END) if self.drive.next() == GAP_FIRST => {
                self.no_room_at(GAP_FIRST)
            }
            _ => false,
        }
    }

    /// Compares every byte of a frame with what it must be at its address.
    fn look_at_frame(&mut self, address: Address) -> Result<(), String> {
        let frame = whole(&self.frame)?;
        let promised = self.accepted.get(..self.promised()).unwrap_or_default();
        self.followed
            .is_right_with_drive(&self.drive, promised, address, frame)?;
        let sent = self.due(address)?;
        let index = self.confirmed + self.taken.len();
        if sent != Sent::Header && self.first.take().is_some_and(|first| first != address) {
            return Err(format!("{address:?} is not where the first frame goes"));
        }
        if sent == Sent::Header {
            let header = self.header();
            fill_header(&mut self.expected, &header);
        } else {
            let element = promised.get(index).copied();
            let before = self.accepted.iter().take(index);
            let filemarks = before.filter(|element| **element == Element::Filemark);
            let (kind, data) = match element {
                None => (Kind::Eod, None),
                Some(Element::Filemark) => (Kind::Marker, None),
                Some(Element::Block(number)) => (Kind::Data, Some(block(number))),
            };
            let label = Label {
                kind,
                pass: self.opening.pass,
                last: self.opening.last,
                number: SequenceNumber(u32::try_from(index).unwrap_or(u32::MAX)),
                filemarks: u32::try_from(filemarks.count()).unwrap_or(u32::MAX),
                latest_marker: self.markers.range(..index).next_back().map(|(_, at)| *at),
            };
            fill_frame(&mut self.expected, &label, data);
            if kind == Kind::Marker {
                self.markers.insert(index, address);
            }
        }
        if *self.frame == *self.expected {
            Ok(())
        } else {
            Err(format!("the frame for {address:?} has wrong bytes"))
        }
    }

    /// What the header copies must say.
    fn header(&self) -> HeaderFields {
        match self.eod {
            None => self.opening,
            Some(eod) => HeaderFields {
                update_count: self.opening.update_count + 1,
                eod,
                old_end: Address(0),
                ..self.opening
            },
        }
    }

    /// What a WRITE at this address must send.
    fn due(&self, address: Address) -> Result<Sent, String> {
        if address.is_header_copy() {
            return Ok(Sent::Header);
        }
        self.due_first()
            .ok_or_else(|| "WRITE with nothing due".into())
    }

    /// What is due first between the headers.
    fn due_first(&self) -> Option<Sent> {
        if self.confirmed + self.taken.len() < self.promised() {
            Some(Sent::Element)
        } else if self.closed && self.is_whole() && self.eod.is_none() {
            Some(Sent::Eod)
        } else {
            None
        }
    }

    /// Brings the drive's reply.
    pub(super) fn reply(&mut self) -> Result<(), String> {
        let before = self.session.clone();
        let Some((command, reply)) = self.awaited.take() else {
            let outcome = self.session.reply(&Reply::of(GOOD));
            return self.look(outcome, &[7], &before);
        };
        let outcome = self.session.reply(&reply);
        let expected = self.take_in(command, &reply)?;
        if let Outcome::Refused(number) = expected {
            self.end_with(number, Ending::SpentByTarget);
        }
        if outcome == expected {
            Ok(())
        } else {
            Err(format!(
                "{outcome:?} to {reply:?} on {command:?}, not {expected:?}"
            ))
        }
    }

    fn take_in(&mut self, command: Command, reply: &Reply) -> Result<Outcome, String> {
        if !listed_for(command).contains(&reply.sense) {
            return Ok(Outcome::Refused(8));
        }
        match (reply.sense.meaning(), command) {
            (Meaning::Busy, _) => self.again = Some(command),
            (Meaning::WriteError, _) => return Ok(self.write_error(reply)),
            (Meaning::EarlyEnd, Command::Write(address)) => {
                let eod = self.due_first() == Some(Sent::Eod);
                if eod && self.is_above(Sent::Element, address) {
                    self.endings.note(Ending::EarlyEndInTail);
                }
                self.end = address.minus(1);
            }
            (_, Command::Write(address)) => {
                let sent = self.due(address)?;
                self.taken.push_back((sent, address));
            }
            (_, Command::ReadPosition) => {
                let buffered = usize::try_from(reply.buffered).unwrap_or(usize::MAX);
                while self.taken.len() > buffered {
                    self.confirm_oldest();
                }
            }
            _ => self.target = None,
        }
        Ok(Outcome::Accepted)
    }

    fn confirm_oldest(&mut self) {
        match self.taken.pop_front() {
            Some((Sent::Header, _)) => self.good_headers += 1,
            Some((Sent::Element, _)) => self.confirmed += 1,
            Some((Sent::Eod, address)) => {
                self.eod = Some(address);
                self.good_headers = 0;
            }
            None => {}
        }
    }

    fn write_error(&mut self, reply: &Reply) -> Outcome {
        let failed = reply.position;
        while self.taken.front().is_some_and(|(_, at)| *at < failed) {
            self.confirm_oldest();
        }
        let sent = self.taken.front().map_or(Sent::Element, |(sent, _)| *sent);
        self.taken.clear();
        if failed.is_header_copy() {
            return if failed == Address(2_994) && self.good_headers == 0 {
                Outcome::Refused(12)
            } else {
                Outcome::Accepted
            };
        }
        let target = failed.plus(reply.skip.max(1)).out_of_gap();
        self.target = Some(target);
        if self.is_above(sent, target) {
            Outcome::Refused(9)
        } else {
            Outcome::Accepted
        }
    }
}
