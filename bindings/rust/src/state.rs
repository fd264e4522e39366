//! What a page's writer and its readers are at.
use crate::{raw, Choice, Count, Version};

/// What a reader is at.
#[derive(Clone, Copy, Debug, PartialEq, Eq, Hash)]
pub enum Reading {
    /// Nothing.
    Idle,
    /// A count read.
    Count {
        /// Which end it shows where the copies part.
        choice: Choice,
        /// The steps that it took.
        steps: usize,
    },
    /// A record read.
    Record {
        /// The attempts allowed.
        allowed: u8,
        /// The attempts that were torn.
        finished: u8,
        /// The steps that it took of its present attempt.
        steps: usize,
    },
}

impl Reading {
    /// The reading in a state that the archive gave, or lets pass.
    pub(crate) fn of(state: &raw::Reader) -> Reading {
        let raw::Reader { kind, allowed, finished, choice, steps, .. } = *state;
        match kind {
            0 => Reading::Idle,
            1 => Reading::Count { choice: Choice::of(choice), steps },
            _ => Reading::Record { allowed, finished, steps },
        }
    }

    /// Whether the reader has no read unfinished.
    pub fn is_idle(&self) -> bool {
        *self == Reading::Idle
    }

    /// Whether the reader has a read unfinished.
    pub fn is_busy(&self) -> bool {
        !self.is_idle()
    }
}

/// What the writer is at.
#[derive(Clone, Copy, Debug, PartialEq, Eq, Hash)]
pub enum Writing {
    /// Nothing.
    Idle,
    /// A count write.
    Count {
        /// The count.
        count: Count,
        /// The steps that it took.
        steps: usize,
    },
    /// A record write.
    Record {
        /// Which of the page's records it is.
        index: u16,
        /// The version that it gets.
        version: Version,
        /// The steps that it took.
        steps: usize,
    },
}

impl Writing {
    /// The writing in a state that the archive gave, or lets pass.
    pub(crate) fn of(state: &raw::Writer) -> Writing {
        let raw::Writer { count, index, steps, version, kind } = *state;
        match kind {
            0 => Writing::Idle,
            1 => Writing::Count { count: Count(count), steps },
            _ => Writing::Record { index: index_of(index), version: Version(version), steps },
        }
    }

    /// Whether no write is pending.
    pub fn is_idle(&self) -> bool {
        *self == Writing::Idle
    }

    /// Whether a write is pending.
    pub fn is_busy(&self) -> bool {
        !self.is_idle()
    }
}

/// The index of a pending record write, which a command of two bytes announced.
pub(crate) fn index_of(index: usize) -> u16 {
    u16::try_from(index).expect("the index of a command")
}
