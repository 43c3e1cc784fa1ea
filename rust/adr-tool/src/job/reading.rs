//! Jobs read back from the elements of a cartridge.

use std::collections::VecDeque;
use std::ops::ControlFlow;

use adr_tape::Element;

use super::{Block, Cause, Closing, Cut, Description};
use crate::digest::Sha256;
use crate::failure::Failure;

/// What a reading comes to.
#[derive(Debug)]
pub enum Event<'a> {
    /// A job begins.
    Begin(&'a Description),
    /// Bytes of it.
    Data(&'a [u8]),
    /// It ends.
    End(&'a Verdict),
}

/// How a job ended.
#[derive(Clone, Debug, PartialEq, Eq)]
pub enum Verdict {
    /// Every byte is there, and the checksum holds.
    Whole(Closing),
    /// It is not what was recorded, for this reason.
    Broken(&'static str),
    /// The data on tape end within it.
    Cut(Cut),
    /// Every byte is there, the checksum holds, and the filemark is missing.
    Unclosed,
    /// It was not recorded by this tool, and no bytes of it were handed on.
    Foreign,
}

/// Where the data on tape end.
#[derive(Clone, Copy, Debug, Default, PartialEq, Eq)]
pub enum Ending {
    /// Behind the filemark of the last job, if there is a job.
    #[default]
    Closed,
    /// In a job of this tool.
    Within,
    /// Behind the last block of a job of this tool.
    BeforeFilemark,
    /// In something else, or behind all of it: it has no filemark.
    Foreign,
}

/// What takes a job's events, with the job's number from 1 on.
pub type Taker<'t> = dyn FnMut(u64, Event<'_>) -> Result<ControlFlow<()>, Failure> + 't;

/// Puts jobs together from elements.
pub struct Jobs<'t> {
    taker: &'t mut Taker<'t>,
    number: u64,
    state: State,
}

enum State {
    /// Between jobs.
    Between,
    /// In a job of this tool.
    Own(Own),
    /// In something else.
    Foreign,
}

struct Own {
    /// What its first block tells of its length.
    told: Option<u64>,
    digest: Sha256,
    length: u64,
    blocks: u64,
    /// The latest two blocks: at a filemark they are the last of the data and
    /// the closing.
    held: VecDeque<Block>,
}

impl<'t> Jobs<'t> {
    /// Jobs for a taker.
    pub fn new(taker: &'t mut Taker<'t>) -> Jobs<'t> {
        Jobs {
            taker,
            number: 0,
            state: State::Between,
        }
    }

    /// Jobs begun so far.
    pub fn begun(&self) -> u64 {
        self.number
    }

    /// Whether the latest job has not ended.
    fn is_within(&self) -> bool {
        !matches!(self.state, State::Between)
    }

    /// A failure of the drive or the layer, with the job where it came.
    pub fn place(&self, failure: Failure) -> Failure {
        let job = self.number;
        let place = if self.is_within() { "in" } else { "behind" };
        match failure {
            Failure::Failed(message) if job > 0 => {
                Failure::Failed(format!("{message}; {place} job {job}"))
            }
            failure => failure,
        }
    }

    /// Takes in the next element.
    pub fn take(&mut self, element: &Element<'_>) -> Result<ControlFlow<()>, Failure> {
        match element {
            Element::Block(block) => self.take_block(block),
            Element::Filemark => self.take_filemark(),
        }
    }

    /// Takes in the end of data, which is also that of a job that has not ended.
    pub fn end(&mut self) -> Result<Ending, Failure> {
        self.end_by(Cause::FullTape)
    }

    /// Takes in that no end of data was found, for the session was not closed.
    pub fn end_of_cut_session(&mut self) -> Result<Ending, Failure> {
        self.end_by(Cause::CutSession)
    }

    /// Ends a job that has not ended, for this cause if it is cut off.
    fn end_by(&mut self, cause: Cause) -> Result<Ending, Failure> {
        let (verdict, ending) = match std::mem::replace(&mut self.state, State::Between) {
            State::Between => return Ok(Ending::Closed),
            State::Foreign => return Ok(Ending::Foreign),
            State::Own(own) if own.has_closing() => {
                let verdict = match self.close(own)? {
                    ControlFlow::Continue(Verdict::Whole(_)) => Some(Verdict::Unclosed),
                    other => other.continue_value(),
                };
                (verdict, Ending::BeforeFilemark)
            }
            State::Own(own) => (Some(self.cut(own, cause)?), Ending::Within),
        };
        if let Some(verdict) = verdict {
            let _ = (self.taker)(self.number, Event::End(&verdict))?;
        }
        Ok(ending)
    }

    /// Hands on the last bytes of a job; its verdict, unless the taker breaks.
    fn close(&mut self, mut own: Own) -> Result<ControlFlow<(), Verdict>, Failure> {
        let (rest, closing) = match own.rest() {
            Err(verdict) => return Ok(ControlFlow::Continue(verdict)),
            Ok(last) => last,
        };
        if (self.taker)(self.number, Event::Data(&rest))?.is_break() {
            return Ok(ControlFlow::Break(()));
        }
        own.add(&rest);
        Ok(ControlFlow::Continue(own.verdict(closing)))
    }

    /// Hands on what there is of a job that is cut off; its verdict.
    fn cut(&mut self, mut own: Own, cause: Cause) -> Result<Verdict, Failure> {
        for mut block in std::mem::take(&mut own.held) {
            let left = own.told.map(|told| told.saturating_sub(own.length));
            let left = left.and_then(|left| usize::try_from(left).ok());
            block.truncate(left.unwrap_or(block.len()));
            own.add(&block);
            let _ = (self.taker)(self.number, Event::Data(&block))?;
        }
        let cut = Cut::behind(own.blocks, own.told);
        Ok(Verdict::Cut(cut.by(cause)))
    }

    fn take_block(&mut self, block: &[u8]) -> Result<ControlFlow<()>, Failure> {
        match &mut self.state {
            State::Between => {
                self.number += 1;
                let Some(description) = Description::read(block) else {
                    self.state = State::Foreign;
                    return Ok(ControlFlow::Continue(()));
                };
                self.state = State::Own(Own {
                    told: description.length,
                    digest: Sha256::new(),
                    length: 0,
                    blocks: 0,
                    held: VecDeque::new(),
                });
                (self.taker)(self.number, Event::Begin(&description))
            }
            State::Own(own) => {
                own.held.push_back(block.to_vec());
                own.blocks += 1;
                if own.held.len() <= 2 {
                    return Ok(ControlFlow::Continue(()));
                }
                let Some(block) = own.held.pop_front() else {
                    return Ok(ControlFlow::Continue(()));
                };
                own.add(&block);
                (self.taker)(self.number, Event::Data(&block))
            }
            State::Foreign => Ok(ControlFlow::Continue(())),
        }
    }

    fn take_filemark(&mut self) -> Result<ControlFlow<()>, Failure> {
        let verdict = match std::mem::replace(&mut self.state, State::Between) {
            State::Between => {
                self.number += 1;
                Verdict::Foreign
            }
            State::Foreign => Verdict::Foreign,
            State::Own(own) => match self.close(own)? {
                ControlFlow::Break(()) => return Ok(ControlFlow::Break(())),
                ControlFlow::Continue(verdict) => verdict,
            },
        };
        (self.taker)(self.number, Event::End(&verdict))
    }
}

impl Own {
    fn add(&mut self, data: &[u8]) {
        self.digest.add(data);
        self.length += u64::try_from(data.len()).unwrap_or(0);
    }

    /// Whether its last block is there.
    fn has_closing(&self) -> bool {
        let last = self.held.back();
        last.is_some_and(|block| Closing::read(block).is_some())
    }

    /// The last bytes of the data, without padding, and the closing.
    fn rest(&mut self) -> Result<(Block, Closing), Verdict> {
        let closing = self.held.pop_back();
        let closing = closing.and_then(|block| Closing::read(&block));
        let closing = closing.ok_or(Verdict::Broken("its last block is missing"))?;
        let mut last = self.held.pop_front().unwrap_or_default();
        let missing = closing.length.checked_sub(self.length);
        let missing = missing.and_then(|missing| usize::try_from(missing).ok());
        match missing {
            Some(missing) if missing <= last.len() => last.truncate(missing),
            _ => return Err(Verdict::Broken("its length is not the one recorded")),
        }
        Ok((last, closing))
    }

    fn verdict(self, closing: Closing) -> Verdict {
        if self.digest.finish() == closing.digest {
            Verdict::Whole(closing)
        } else {
            Verdict::Broken("its checksum does not hold")
        }
    }
}

#[cfg(test)]
mod tests {
    use super::super::source::{Elements, Input};
    use super::*;
    use crate::timestamp::Timestamp;
    use adr_tape::BLOCK_LENGTH;

    fn elements(files: &[Vec<u8>]) -> Vec<Element<'static>> {
        let inputs = files
            .iter()
            .map(|bytes| {
                let description = Description {
                    name: b"file".to_vec(),
                    time: Timestamp::of_seconds(0),
                    length: None,
                    mode: None,
                };
                Input::bytes(description, std::io::Cursor::new(bytes.clone()))
            })
            .collect();
        let elements: Result<Vec<_>, Failure> = Elements::new(inputs, true).collect();
        elements.expect("bytes at hand")
    }

    /// The bytes and the verdict of each job.
    fn read(elements: &[Element<'_>]) -> Vec<(u64, Vec<u8>, Option<Verdict>)> {
        let mut jobs: Vec<(u64, Vec<u8>, Option<Verdict>)> = Vec::new();
        let mut taker = |number: u64, event: Event<'_>| {
            if jobs.last().is_none_or(|job| job.0 != number) {
                jobs.push((number, Vec::new(), None));
            }
            if let Some(job) = jobs.last_mut() {
                match event {
                    Event::Begin(_) => {}
                    Event::Data(data) => job.1.extend_from_slice(data),
                    Event::End(verdict) => job.2 = Some(verdict.clone()),
                }
            }
            Ok(ControlFlow::Continue(()))
        };
        let mut reading = Jobs::new(&mut taker);
        for element in elements {
            assert!(reading.take(element).is_ok());
        }
        assert!(reading.end().is_ok());
        jobs
    }

    /// A job without its filemark: all of its bytes, and it is not called whole;
    /// nor is one that is not what was recorded called so.
    #[test]
    fn unclosed() {
        for length in [0, 5, 3 * BLOCK_LENGTH, 3 * BLOCK_LENGTH + 1] {
            let file = vec![7; length];
            let mut elements = elements(std::slice::from_ref(&file));
            assert_eq!(elements.pop(), Some(Element::Filemark));
            let unclosed = (1, file, Some(Verdict::Unclosed));
            assert!(read(&elements) == [unclosed], "{length}");
            if length > 0 {
                elements[1] = vec![8; BLOCK_LENGTH].into();
                let verdict = read(&elements).first().and_then(|job| job.2.clone());
                assert_eq!(verdict, Some(Verdict::Broken("its checksum does not hold")));
            }
        }
    }

    /// A job of three blocks of data as ever more of its elements are on tape:
    /// its bytes are handed on, and it is not whole.
    #[test]
    fn cut_off() {
        let file = vec![7; 2 * BLOCK_LENGTH + 5];
        let elements = elements(std::slice::from_ref(&file));
        for there in 1..elements.len() - 1 {
            let blocks = there - 1;
            let jobs = read(&elements[..there]);
            let (number, bytes, verdict) = &jobs[0];
            assert_eq!((jobs.len(), *number), (1, 1));
            // The length of a pipe is not known, and so neither is the padding.
            let mut padded = file.clone();
            padded.resize(3 * BLOCK_LENGTH, 0);
            assert!(bytes[..] == padded[..blocks * BLOCK_LENGTH]);
            let cut = Cut::behind(u64::try_from(blocks).expect("few"), None);
            assert_eq!(*verdict, Some(Verdict::Cut(cut)));
        }
    }

    #[test]
    fn every_length_near_a_block() {
        let mut lengths = vec![0, 1, 100_000];
        for blocks in 1..4 {
            for near in [-1, 0, 1] {
                lengths.extend((blocks * BLOCK_LENGTH).checked_add_signed(near));
            }
        }
        let files: Vec<Vec<u8>> = lengths
            .iter()
            .map(|length| (0..*length).map(|at| (at % 251) as u8).collect())
            .collect();
        let jobs = read(&elements(&files));
        assert_eq!(jobs.len(), files.len());
        for ((_, bytes, verdict), file) in jobs.iter().zip(&files) {
            assert_eq!(bytes, file);
            assert!(matches!(verdict, Some(Verdict::Whole(_))));
        }
    }

    #[test]
    fn broken_and_foreign() {
        let file = vec![7; 3 * BLOCK_LENGTH];
        let good = elements(&[file]);
        assert_eq!(good.len(), 6);
        for missing in 0..5 {
            let mut some = good.clone();
            some.remove(missing);
            let jobs = read(&some);
            let verdict = jobs.first().and_then(|job| job.2.clone());
            let expected = match missing {
                0 => Verdict::Foreign,
                4 => Verdict::Broken("its last block is missing"),
                _ => Verdict::Broken("its length is not the one recorded"),
            };
            assert_eq!(verdict, Some(expected), "without {missing}");
        }
        let mut altered = good.clone();
        altered[2] = vec![8; BLOCK_LENGTH].into();
        let verdict = read(&altered).first().and_then(|job| job.2.clone());
        assert_eq!(verdict, Some(Verdict::Broken("its checksum does not hold")));
        let lone = read(&[Element::Filemark, Element::Filemark]);
        assert_eq!(lone.len(), 2);
        assert!(lone.iter().all(|job| job.2 == Some(Verdict::Foreign)));
    }
}
