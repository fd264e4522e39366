//! Many commands at once.
//!
//! The archive takes them in pieces, so that an accepted record is copied before its reader can overwrite it. A piece
//! ends before a reader begins a second read in it, where one that is unfinished at its start counts as the first. So
//! each reader ends at most one read in a piece: its buffer is as that read left it when the piece has ended, its
//! choice is known, and a log with one entry for each reader never fills.
use alloc::vec::Vec;
use core::{error, fmt};

use crate::command::append;
use crate::raw::{LONGEST_ENTRY, MOST_READERS};
use crate::refusal::ending;
use crate::{Choice, Command, Entries, Outcome, Page, Reading, Refusal};

/// A run that stopped at a refused command. It has changed nothing; what was carried out before it is done, and what was
/// read is here. It is not turned into its [`Refusal`] by `?`, so that no accepted record is lost on the way.
#[derive(Clone, Debug, PartialEq, Eq)]
pub struct Stopped {
    /// The commands carried out.
    pub done: usize,
    /// How reads ended before the refused command, in order.
    pub outcomes: Vec<Outcome>,
    /// Why the command after those carried out was refused.
    pub refusal: Refusal,
}

impl fmt::Display for Stopped {
    fn fmt(&self, f: &mut fmt::Formatter) -> fmt::Result {
        write!(f, "the run stopped after {} commands: {}", self.done, self.refusal)
    }
}

impl error::Error for Stopped {
    fn source(&self) -> Option<&(dyn error::Error + 'static)> {
        Some(&self.refusal)
    }
}

impl Page {
    /// Carry out commands up to the first that is refused; tells how reads ended, in order, without
    /// [`Outcome::Nothing`]. Each command is carried out as by a step, and refused as by one ([`Page::step`]). An
    /// accepted record is in its outcome, whatever its reader did after; those before a refused command are in
    /// [`Stopped`].
    ///
    /// ```
    /// use lagumtay::{Command, Count, Format, Layout, Outcome, Page, Refusal, Stopped, Version};
    ///
    /// let format = Format { bases: vec![10], q: 1, base: 10, layout: Layout::Plain, n: 2, readers: 1 };
    /// let mut page = Page::open(format, Count(4), b"aa")?;
    /// let read = [&[Command::BeginRecordRead { reader: 0, attempts: 1 }][..], &[Command::ReaderStep(0); 4]].concat();
    /// let told = vec![Outcome::Accepted { reader: 0, attempts: 1, version: Version(0), record: b"aa".to_vec() }];
    /// assert_eq!(page.run(&read), Ok(told.clone()));
    /// // One step too many: it is refused, and what was read before it is not lost.
    /// let stopped = page.run(&[read, vec![Command::ReaderStep(0)]].concat());
    /// assert_eq!(stopped, Err(Stopped { done: 5, outcomes: told, refusal: Refusal::NothingPending }));
    /// # Ok::<(), Refusal>(())
    /// ```
    pub fn run(&mut self, commands: &[Command]) -> Result<Vec<Outcome>, Stopped> {
        let (mut done, mut outcomes, mut bytes) = (0, Vec::new(), Vec::new());
        while done < commands.len() {
            let (carried_out, ended) = self.run_piece(&commands[done..], &mut bytes, &mut outcomes);
            done += carried_out;
            if let Err(refusal) = ended {
                return Err(Stopped { done, outcomes, refusal });
            }
        }
        Ok(outcomes)
    }

    /// Run the first piece of these commands, of which there is one at least; gives how many were carried out. What
    /// `bytes` holds does not matter.
    fn run_piece(
        &mut self,
        commands: &[Command],
        bytes: &mut Vec<u8>,
        outcomes: &mut Vec<Outcome>,
    ) -> (usize, Result<(), Refusal>) {
        let mut reads = Reads::unfinished(self);
        bytes.clear();
        commands[..reads.piece(commands)].iter().for_each(|&command| append(command, bytes));
        let mut log = [0; MOST_READERS * LONGEST_ENTRY];
        let (answer, number) = self.lend(|lent, records| lent.run(records, bytes, &mut log));
        let entries = Entries::new(&log[..answer.written]);
        outcomes.extend(entries.map(|entry| self.outcome(entry, reads.choice(entry.reader()))));
        (answer.done, ending(number))
    }
}

/// Of each reader the choice of the one read that it has in a piece, if it has one. A record read has any.
struct Reads([Option<Choice>; MOST_READERS]);

impl Reads {
    /// Those that are unfinished where the piece starts.
    fn unfinished(page: &Page) -> Reads {
        let mut reads = Reads([None; MOST_READERS]);
        for (read, state) in reads.0.iter_mut().zip(&page.readers) {
            *read = match Reading::of(state) {
                Reading::Idle => None,
                Reading::Count { choice, .. } => Some(choice),
                Reading::Record { .. } => Some(Choice::default()),
            };
        }
        reads
    }

    /// How many of these commands are in the piece. The first one is always: if it is a second read it is refused.
    fn piece(&mut self, commands: &[Command]) -> usize {
        let fits = |&(i, &command): &(usize, &Command)| self.note(command) || i == 0;
        commands.iter().enumerate().take_while(fits).count()
    }

    /// Note the read that a command begins; false if its reader has one already.
    fn note(&mut self, command: Command) -> bool {
        let (reader, choice) = match command {
            Command::BeginCountRead { reader, choice } => (reader, choice),
            Command::BeginRecordRead { reader, .. } => (reader, Choice::default()),
            _ => return true,
        };
        match self.0.get_mut(usize::from(reader)) {
            Some(Some(_)) => false,
            Some(none) => {
                *none = Some(choice);
                true
            }
            // No such reader: the command will be refused.
            None => true,
        }
    }

    /// The choice of a read that ended.
    fn choice(&self, reader: u8) -> Choice {
        self.0[usize::from(reader)].expect("a read that was begun")
    }
}

#[cfg(test)]
mod tests {
    use super::*;
    use Command::*;

    const COUNT: Command = BeginCountRead { reader: 0, choice: Choice::High };
    const RECORD: Command = BeginRecordRead { reader: 0, attempts: 1 };
    const OTHER: Command = BeginRecordRead { reader: 15, attempts: 1 };
    const BEYOND: Command = BeginRecordRead { reader: 16, attempts: 1 };

    /// The length of the first piece, if reader 0 has a read unfinished or not.
    fn piece(unfinished: bool, commands: &[Command]) -> usize {
        let mut reads = Reads([None; MOST_READERS]);
        reads.0[0] = unfinished.then_some(Choice::Low);
        reads.piece(commands)
    }

    #[test]
    fn a_piece_ends_before_a_second_read() {
        for begin in [COUNT, RECORD] {
            for second in [COUNT, RECORD] {
                assert_eq!(piece(false, &[begin, ReaderStep(0), Cancel(0), second, WriterStep]), 3);
                assert_eq!(piece(false, &[begin, second]), 1);
            }
            assert_eq!(piece(true, &[ReaderStep(0), begin]), 1);
            assert_eq!(piece(true, &[begin, ReaderStep(0), ReaderStep(0)]), 3);
            assert_eq!(piece(true, &[begin, begin]), 1);
            assert_eq!(piece(true, &[OTHER, ReaderStep(15), BEYOND, BEYOND, ReaderStep(0)]), 5);
            assert_eq!(piece(false, &[OTHER, begin, OTHER]), 2);
        }
    }
}
