//! Commands to the drive.

use std::fmt;

use crate::ffi;
use crate::geometry::Address;

/// A command for the drive. READ and WRITE name the address at which the
/// drive stands: it is not part of what the drive is sent.
#[derive(Clone, Copy, Debug, PartialEq, Eq, Hash)]
pub enum Command {
    /// Read the frame at this address.
    Read(Address),
    /// Take a frame for this address.
    Write(Address),
    /// Go to this address and forget what is buffered.
    Locate(Address),
    /// Tell how many frames are still buffered.
    ReadPosition,
}

impl Command {
    /// The operation code.
    #[must_use]
    pub const fn code(self) -> u8 {
        match self {
            Command::Read(_) => ffi::READ,
            Command::Write(_) => ffi::WRITE,
            Command::Locate(_) => ffi::LOCATE,
            Command::ReadPosition => ffi::READ_POSITION,
        }
    }

    /// The address, none for READ POSITION.
    #[must_use]
    pub const fn address(self) -> Option<Address> {
        match self {
            Command::Read(address) | Command::Write(address) | Command::Locate(address) => {
                Some(address)
            }
            Command::ReadPosition => None,
        }
    }

    /// The command that the layer gave.
    pub(crate) fn given(command: ffi::Command) -> Command {
        let address = Address(command.address);
        match command.code {
            ffi::READ => Command::Read(address),
            ffi::WRITE => Command::Write(address),
            ffi::LOCATE => Command::Locate(address),
            _ => Command::ReadPosition,
        }
    }
}

impl fmt::Display for Command {
    fn fmt(&self, formatter: &mut fmt::Formatter<'_>) -> fmt::Result {
        match self {
            Command::Read(address) => write!(formatter, "READ {address}"),
            Command::Write(address) => write!(formatter, "WRITE {address}"),
            Command::Locate(address) => write!(formatter, "LOCATE {address}"),
            Command::ReadPosition => write!(formatter, "READ POSITION"),
        }
    }
}

#[cfg(test)]
mod tests {
    use super::*;

    /// `c/check` compares the same file with what `adr.h` says.
    #[test]
    fn the_names_of_the_c_header() {
        let names = include_str!("../../../c/texts.expected");
        let at = Address(7);
        for command in [
            Command::Read(at),
            Command::Write(at),
            Command::Locate(at),
            Command::ReadPosition,
        ] {
            let shown = command.to_string();
            let name = shown.trim_end_matches(" 7");
            let line = format!("command {:02X}: {name}", command.code());
            assert!(names.lines().any(|word| word == line), "{line}");
        }
    }
}
