//! Commands, and their bytes.
#[cfg(feature = "alloc")]
use alloc::vec::Vec;

use crate::{raw, Choice, Count};

/// One command. Readers count from 0, and so do the records of a page.
#[derive(Clone, Copy, Debug, PartialEq, Eq, Hash)]
pub enum Command {
    /// Announce that this count is written; [`Command::WriterStep`] moves its digits.
    WriteCount(Count),
    /// Announce that the record at this index is written; [`Command::WriterStep`] moves its digits and bytes.
    WriteRecord(u16),
    /// The next step of the pending write: one digit or byte.
    WriterStep,
    /// Begin a count read; [`Command::ReaderStep`] gathers its digits.
    BeginCountRead {
        /// Who reads.
        reader: u8,
        /// Which end it shows where the copies part.
        choice: Choice,
    },
    /// Begin a record read; [`Command::ReaderStep`] gathers its digits and bytes.
    BeginRecordRead {
        /// Who reads.
        reader: u8,
        /// The attempts allowed, from 1 on.
        attempts: u8,
    },
    /// The next step of this reader's read: one digit or byte.
    ReaderStep(u8),
    /// Drop this reader's read; its buffer keeps its bytes.
    Cancel(u8),
}

impl Command {
    /// Put the command's bytes at the front of these; gives how many they are, at most [`raw::LONGEST_COMMAND`]. None
    /// if they do not fit: nothing is written then.
    ///
    /// ```
    /// use lagumtay::{raw::LONGEST_COMMAND, Command};
    ///
    /// let mut bytes = [0; LONGEST_COMMAND];
    /// assert_eq!(Command::WriteRecord(258).put(&mut bytes), Some(3));
    /// assert_eq!(bytes[..3], [2, 1, 2]);
    /// assert_eq!(Command::WriteRecord(258).put(&mut bytes[..2]), None);
    /// ```
    pub fn put(self, bytes: &mut [u8]) -> Option<usize> {
        let (all, length) = self.encoded();
        bytes.get_mut(..length)?.copy_from_slice(&all[..length]);
        Some(length)
    }

    /// The command's bytes, which are the first of these, and how many they are.
    fn encoded(self) -> ([u8; raw::LONGEST_COMMAND], usize) {
        let raw::Command { kind, reader, attempts, index, count } = self.raw();
        let mut bytes = [kind, reader, 0, 0, 0, 0, 0, 0, 0];
        let length = match self {
            Command::WriteCount(_) => {
                bytes[1..].copy_from_slice(&count.to_be_bytes());
                9
            }
            Command::WriteRecord(_) => {
                bytes[1..3].copy_from_slice(&index.to_be_bytes());
                3
            }
            Command::WriterStep => 1,
            Command::BeginRecordRead { .. } => {
                bytes[2] = attempts;
                3
            }
            Command::BeginCountRead { .. } | Command::ReaderStep(_) | Command::Cancel(_) => 2,
        };
        (bytes, length)
    }

    /// The command as [`raw::Lent::step`] is told it.
    pub fn raw(self) -> raw::Command {
        let none = raw::Command::default();
        match self {
            Command::WriteCount(Count(count)) => raw::Command { kind: 1, count, ..none },
            Command::WriteRecord(index) => raw::Command { kind: 2, index, ..none },
            Command::WriterStep => raw::Command { kind: 3, ..none },
            Command::BeginCountRead { reader, choice } => {
                raw::Command { kind: begin_count_read(choice), reader, ..none }
            }
            Command::BeginRecordRead { reader, attempts } => raw::Command { kind: 5, reader, attempts, ..none },
            Command::ReaderStep(reader) => raw::Command { kind: 6, reader, ..none },
            Command::Cancel(reader) => raw::Command { kind: 7, reader, ..none },
        }
    }
}

/// The kind of the command that begins a count read with this choice.
fn begin_count_read(choice: Choice) -> u8 {
    match choice {
        Choice::Low => 0x04,
        Choice::High => 0x0d,
    }
}

/// The bytes of commands, one after the other, as [`raw::Lent::run`] takes them.
#[cfg(feature = "alloc")]
pub fn commands(list: impl IntoIterator<Item = Command>) -> Vec<u8> {
    let mut bytes = Vec::new();
    list.into_iter().for_each(|command| append(command, &mut bytes));
    bytes
}

/// Put a command's bytes behind others.
#[cfg(feature = "alloc")]
pub(crate) fn append(command: Command, bytes: &mut Vec<u8>) {
    let (all, length) = command.encoded();
    bytes.extend_from_slice(&all[..length]);
}

#[cfg(test)]
mod tests {
    use super::*;

    #[test]
    fn each_command_has_its_bytes() {
        for (command, expected) in [
            (Command::WriteCount(Count(0x0102_0304_0506_0708)), &[1, 1, 2, 3, 4, 5, 6, 7, 8][..]),
            (Command::WriteRecord(0x0304), &[2, 3, 4]),
            (Command::WriterStep, &[3]),
            (Command::BeginCountRead { reader: 9, choice: Choice::Low }, &[0x04, 9]),
            (Command::BeginCountRead { reader: 9, choice: Choice::High }, &[0x0d, 9]),
            (Command::BeginRecordRead { reader: 9, attempts: 8 }, &[5, 9, 8]),
            (Command::ReaderStep(9), &[6, 9]),
            (Command::Cancel(9), &[7, 9]),
        ] {
            let mut bytes = [0xee; 12];
            assert_eq!(command.put(&mut bytes), Some(expected.len()));
            assert_eq!(bytes[..expected.len()], *expected);
            assert!(bytes[expected.len()..].iter().all(|&byte| byte == 0xee));
            for room in 0..expected.len() {
                let mut bytes = [0xee; 12];
                assert_eq!(command.put(&mut bytes[..room]), None);
                assert_eq!(bytes, [0xee; 12]);
            }
        }
    }
}
