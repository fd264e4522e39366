//! What a step of a page tells.
use alloc::vec::Vec;

use crate::{Choice, Count, Entry, Version};

/// What a command carried out has come to: most end no read, and one of a reader's steps ends its read.
#[derive(Clone, Debug, PartialEq, Eq, Hash)]
pub enum Outcome {
    /// No read has ended.
    Nothing,
    /// A count read has ended with equal copies: a count that somebody wrote.
    Shown {
        /// Who read.
        reader: u8,
        /// The count.
        count: Count,
    },
    /// A count read has ended with copies that part: the low end is below the high end, and nobody need have written
    /// either. [`Outcome::shown`] gives the one that is shown.
    Between {
        /// Who read.
        reader: u8,
        /// The low end.
        low: Count,
        /// The high end.
        high: Count,
        /// Which end is shown: as the command said that began the read.
        choice: Choice,
    },
    /// A record read has ended, and this record is whole.
    Accepted {
        /// Who read.
        reader: u8,
        /// The attempts used.
        attempts: u8,
        /// The record's version.
        version: Version,
        /// The record's n bytes.
        record: Vec<u8>,
    },
    /// A record read has ended with its last allowed attempt torn.
    GaveUp {
        /// Who read.
        reader: u8,
        /// The attempts used: all that were allowed.
        attempts: u8,
    },
}

impl Outcome {
    /// The outcome of a read that ended so: it was begun with this choice, and the reader's buffer is as it left it.
    pub(crate) fn of(entry: Entry, choice: Choice, buffer: &[u8]) -> Outcome {
        match entry {
            Entry::Shown { reader, count } => Outcome::Shown { reader, count },
            Entry::Between { reader, low, high } => Outcome::Between { reader, low, high, choice },
            Entry::Accepted { reader, attempts, version } => {
                Outcome::Accepted { reader, attempts, version, record: buffer.to_vec() }
            }
            Entry::GaveUp { reader, attempts } => Outcome::GaveUp { reader, attempts },
        }
    }

    /// The count that a count read shows: that of equal copies, else the end of its choice. None for anything else.
    pub fn shown(&self) -> Option<Count> {
        match *self {
            Outcome::Shown { count, .. } => Some(count),
            Outcome::Between { low, high, choice, .. } => Some(choice.end(low, high)),
            Outcome::Nothing | Outcome::Accepted { .. } | Outcome::GaveUp { .. } => None,
        }
    }
}

#[cfg(test)]
mod tests {
    use super::*;

    #[test]
    fn shows_the_count_or_the_chosen_end() {
        let between = |choice| Outcome::Between { reader: 1, low: Count(6), high: Count(7), choice };
        let shown = |outcome: Outcome| outcome.shown();
        assert_eq!(shown(Outcome::Shown { reader: 1, count: Count(5) }), Some(Count(5)));
        assert_eq!([Choice::Low, Choice::High].map(|choice| shown(between(choice))), [Some(Count(6)), Some(Count(7))]);
        let accepted = Outcome::Accepted { reader: 1, attempts: 2, version: Version(3), record: Vec::new() };
        let others = [Outcome::Nothing, accepted, Outcome::GaveUp { reader: 1, attempts: 2 }];
        assert_eq!(others.map(shown), [None; 3]);
    }
}
