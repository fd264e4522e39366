//! Which end a count read shows.
use crate::{raw, Count};

/// Which end a count read shows where its copies part; `as u8` is its number. Equal copies show their count under
/// either.
#[repr(u8)]
#[derive(Clone, Copy, Debug, Default, PartialEq, Eq, Hash)]
pub enum Choice {
    /// The low end. It is what a read shows that names none.
    #[default]
    Low = raw::LOW,
    /// The high end.
    High = raw::HIGH,
}

impl Choice {
    /// The end that is shown, of a low one and a high one (`shown` of `crates/radix/specs/Copies.antt`).
    pub fn end(self, low: Count, high: Count) -> Count {
        match self {
            Choice::Low => low,
            Choice::High => high,
        }
    }

    /// The choice of this number, which the archive gave.
    #[cfg(feature = "alloc")]
    pub(crate) fn of(number: u8) -> Choice {
        match number {
            raw::HIGH => Choice::High,
            _ => Choice::Low,
        }
    }
}
