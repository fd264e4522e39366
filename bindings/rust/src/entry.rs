//! What a run tells in its log, and a step at once.
use crate::{raw, Choice, Count, Version};

/// How a read ended: a count read as shown or between, a record read as accepted or given up.
#[derive(Clone, Copy, Debug, PartialEq, Eq, Hash)]
pub enum Entry {
    /// The copies were equal: a count that somebody wrote.
    Shown {
        /// Who read.
        reader: u8,
        /// The count.
        count: Count,
    },
    /// The record is in the reader's buffer. **Take it from there before that reader steps again.**
    Accepted {
        /// Who read.
        reader: u8,
        /// The attempts used.
        attempts: u8,
        /// The record's version.
        version: Version,
    },
    /// The last allowed attempt was torn; the reader's buffer is all zeros.
    GaveUp {
        /// Who read.
        reader: u8,
        /// The attempts used: all that were allowed.
        attempts: u8,
    },
    /// The copies part: the low end is below the high end, and nobody need have written either. Both are told under
    /// either choice; [`Entry::shown`] gives the one that is shown.
    Between {
        /// Who read.
        reader: u8,
        /// The low end.
        low: Count,
        /// The high end.
        high: Count,
    },
}

impl Entry {
    /// What a step of [`raw::Lent::step`] tells, if it ended a read.
    pub fn told(outcome: raw::Outcome) -> Option<Entry> {
        let raw::Outcome { kind, reader, attempts, choice: _, version, count, low, high } = outcome;
        match kind {
            1 => Some(Entry::Shown { reader, count: Count(count) }),
            2 => Some(Entry::Accepted { reader, attempts, version: Version(version) }),
            3 => Some(Entry::GaveUp { reader, attempts }),
            4 => Some(Entry::Between { reader, low: Count(low), high: Count(high) }),
            _ => None,
        }
    }

    /// Who read.
    pub fn reader(&self) -> u8 {
        match *self {
            Entry::Shown { reader, .. }
            | Entry::Accepted { reader, .. }
            | Entry::GaveUp { reader, .. }
            | Entry::Between { reader, .. } => reader,
        }
    }

    /// The count shown by a read that was begun with this choice: that of equal copies, else the end that is chosen.
    /// None for a record read.
    pub fn shown(&self, choice: Choice) -> Option<Count> {
        match *self {
            Entry::Shown { count, .. } => Some(count),
            Entry::Between { low, high, .. } => Some(choice.end(low, high)),
            Entry::Accepted { .. } | Entry::GaveUp { .. } => None,
        }
    }
}

/// The entries of a log in order. Bytes that no run writes end it.
#[derive(Clone, Debug)]
pub struct Entries<'a>(&'a [u8]);

impl<'a> Entries<'a> {
    /// The entries in the part of a log that a run has written.
    pub fn new(log: &'a [u8]) -> Entries<'a> {
        Entries(log)
    }
}

impl Iterator for Entries<'_> {
    type Item = Entry;

    fn next(&mut self) -> Option<Entry> {
        let (entry, rest) = match *self.0 {
            [1, reader, ref rest @ ..] => {
                let (count, rest) = take_count(rest)?;
                (Entry::Shown { reader, count }, rest)
            }
            [2, reader, attempts, a, b, c, d, ref rest @ ..] => {
                (Entry::Accepted { reader, attempts, version: Version(u32::from_be_bytes([a, b, c, d])) }, rest)
            }
            [3, reader, attempts, ref rest @ ..] => (Entry::GaveUp { reader, attempts }, rest),
            [4, reader, ref rest @ ..] => {
                let (low, rest) = take_count(rest)?;
                let (high, rest) = take_count(rest)?;
                (Entry::Between { reader, low, high }, rest)
            }
            _ => return None,
        };
        self.0 = rest;
        Some(entry)
    }
}

/// The count in front of these bytes, if it is whole, and the bytes after it.
fn take_count(bytes: &[u8]) -> Option<(Count, &[u8])> {
    let (count, rest) = bytes.split_first_chunk()?;
    Some((Count(u64::from_be_bytes(*count)), rest))
}

#[cfg(test)]
mod tests {
    use super::*;

    const SHOWN: Entry = Entry::Shown { reader: 1, count: Count(5) };
    const ACCEPTED: Entry = Entry::Accepted { reader: 1, attempts: 2, version: Version(3) };
    const GAVE_UP: Entry = Entry::GaveUp { reader: 1, attempts: 2 };
    const BETWEEN: Entry = Entry::Between { reader: 1, low: Count(6), high: Count(7) };

    #[test]
    fn each_kind_has_its_fields() {
        let all = raw::Outcome { kind: 0, reader: 1, attempts: 2, choice: 1, version: 3, count: 5, low: 6, high: 7 };
        let told = |kind| Entry::told(raw::Outcome { kind, ..all });
        assert_eq!([1, 2, 3, 4].map(told), [SHOWN, ACCEPTED, GAVE_UP, BETWEEN].map(Some));
        assert_eq!([0, 5, 255].map(told), [None; 3]);
    }

    #[test]
    fn each_kind_has_its_reader() {
        assert_eq!([SHOWN, ACCEPTED, GAVE_UP, BETWEEN].map(|entry| entry.reader()), [1; 4]);
    }

    #[test]
    fn shows_the_count_or_the_chosen_end() {
        let all = [SHOWN, BETWEEN, ACCEPTED, GAVE_UP];
        assert_eq!(all.map(|entry| entry.shown(Choice::Low)), [Some(Count(5)), Some(Count(6)), None, None]);
        assert_eq!(all.map(|entry| entry.shown(Choice::High)), [Some(Count(5)), Some(Count(7)), None, None]);
    }
}
