//! Sessions driven by hand through the wrapper.
#![allow(dead_code)]

use adr_tape::{
    Address, Command, Delivery, Next, ReadNext, Reader, Recorder, Refusal, Reply, Sense,
    BLOCK_LENGTH, FRAME_LENGTH,
};

pub fn locate(address: u32) -> Command {
    Command::Locate(Address(address))
}

pub fn write(address: u32) -> Command {
    Command::Write(Address(address))
}

pub fn error(position: u32, skip: u32) -> Reply {
    Reply::write_error(Address(position), skip)
}

/// Fetches this command and gives the frame of a WRITE.
#[track_caller]
pub fn fetched(recorder: &mut Recorder, expected: Command) -> Option<Vec<u8>> {
    match recorder.fetch() {
        Ok(Next::Send(command, frame)) => {
            assert_eq!(command, expected);
            assert_eq!(frame.is_some(), matches!(command, Command::Write(_)));
            frame.map(<[u8]>::to_vec)
        }
        next => panic!("{next:?} where {expected} was due"),
    }
}

/// Fetches this and brings that; the frame of a WRITE.
#[track_caller]
pub fn step(recorder: &mut Recorder, expected: Command, reply: Reply) -> Vec<u8> {
    let frame = fetched(recorder, expected);
    assert_eq!(recorder.reply(reply), Ok(()));
    frame.unwrap_or_default()
}

/// Writes ten good copies and gives the last.
pub fn write_headers(recorder: &mut Recorder) -> Vec<u8> {
    let mut header = Vec::new();
    for group in [5, 2_990] {
        step(recorder, locate(group), Reply::good());
        for copy in 0..5 {
            header = step(recorder, write(group + copy), Reply::good());
        }
        step(recorder, Command::ReadPosition, Reply::buffered(0));
    }
    header
}

pub fn number_at(frame: &[u8], at: usize) -> u32 {
    let bytes = frame[BLOCK_LENGTH + at..][..4].try_into();
    u32::from_be_bytes(bytes.expect("four bytes"))
}

/// Reads on with a reader, which is then at its end or refused.
pub fn read_with(reader: &mut Reader, frames: &[(u32, Vec<u8>)]) -> Result<Vec<String>, Refusal> {
    let blank = vec![0; FRAME_LENGTH];
    let mut delivered = Vec::new();
    while let ReadNext::Send(command) = reader.fetch()? {
        let (reply, frame) = match command {
            Command::Read(Address(address)) => match frames.iter().find(|(at, _)| *at == address) {
                Some((_, frame)) => (Reply::good(), frame),
                None => (Reply::sense(Sense::UNREADABLE), &blank),
            },
            _ => (Reply::good(), &blank),
        };
        match reader.reply(reply, frame)? {
            Delivery::Nothing => {}
            Delivery::Block(block) => delivered.push(format!("block of {}", block[0])),
            Delivery::Filemark => delivered.push("filemark".into()),
            Delivery::End => delivered.push("end".into()),
        }
    }
    Ok(delivered)
}
