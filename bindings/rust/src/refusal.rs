//! Why a call on a page was refused.
use core::{error, fmt};

/// Why a call or a command was refused. `as u8` is its number, which [`raw`](crate::raw) answers.
#[repr(u8)]
#[derive(Clone, Copy, Debug, PartialEq, Eq, Hash)]
pub enum Refusal {
    /// (1) A number of the format is outside its range.
    BadFormat = 1,
    /// (2) A length differs from what the format asks for, or records are no multiple of n.
    WrongLength = 2,
    /// (3) A digit at or above its base, or a state that no steps could hold. It never comes from a page that was
    /// opened: something else has written its memory, or its saved bytes.
    InvalidState = 3,
    /// (4) A count not below the product of the bases.
    CountTooLarge = 4,
    /// (5) A count below the last one.
    CountDecreases = 5,
    /// (6) A write is pending, or this reader has a read unfinished.
    Busy = 6,
    /// (7) A step or cancel with none to do.
    NothingPending = 7,
    /// (8) A reader or record beyond the last, or 0 attempts.
    NoSuch = 8,
    /// (9) The version stands at its top: the page takes no further record until it is opened anew.
    VersionsExhausted = 9,
    /// (10) A count read would finish with its first copy above its second. It never comes from a page that was opened;
    /// such a read can be cancelled.
    CopiesCrossed = 10,
    /// (11) An unknown kind of command, or a body cut short. Over [`raw`](crate::raw) alone.
    UnknownCommand = 11,
    /// (12) The log has no room for the entry of this step, which can be taken again with another log. Over
    /// [`raw`](crate::raw) alone.
    LogFull = 12,
}

impl Refusal {
    const ALL: [Refusal; 12] = [
        Refusal::BadFormat,
        Refusal::WrongLength,
        Refusal::InvalidState,
        Refusal::CountTooLarge,
        Refusal::CountDecreases,
        Refusal::Busy,
        Refusal::NothingPending,
        Refusal::NoSuch,
        Refusal::VersionsExhausted,
        Refusal::CopiesCrossed,
        Refusal::UnknownCommand,
        Refusal::LogFull,
    ];

    /// The refusal of this number, as a call of [`raw`](crate::raw) answers it: none for 0, which says that the call
    /// was carried out, and none for a number that no call answers.
    pub fn from_number(number: u8) -> Option<Refusal> {
        Refusal::ALL.into_iter().find(|&why| why as u8 == number)
    }
}

impl fmt::Display for Refusal {
    fn fmt(&self, f: &mut fmt::Formatter) -> fmt::Result {
        f.write_str(match self {
            Refusal::BadFormat => "a number of the format is outside its range",
            Refusal::WrongLength => "a record, the lent records, or saved bytes differ in length from the format",
            Refusal::InvalidState => "a digit at or above its base, or a state that no steps could hold",
            Refusal::CountTooLarge => "a count not below the product of the bases",
            Refusal::CountDecreases => "a count below the last one",
            Refusal::Busy => "a write is pending, or this reader has a read unfinished",
            Refusal::NothingPending => "a step or cancel with none to do",
            Refusal::NoSuch => "a reader or record beyond the last, or 0 attempts",
            Refusal::VersionsExhausted => "the version stands at its top",
            Refusal::CopiesCrossed => "a count read would finish with its first copy above its second",
            Refusal::UnknownCommand => "an unknown kind of command, or a body cut short",
            Refusal::LogFull => "the log has no room for the entry of this step",
        })
    }
}

impl error::Error for Refusal {}

/// The number that a call answers.
#[cfg(feature = "alloc")]
pub(crate) fn ending(number: u8) -> Result<(), Refusal> {
    match number {
        0 => Ok(()),
        _ => Err(Refusal::from_number(number).expect("the number of a refusal")),
    }
}

#[cfg(test)]
mod tests {
    use super::*;

    #[test]
    fn numbers_are_those_of_the_header() {
        let numbers: [Option<u8>; 12] = core::array::from_fn(|i| Some(i as u8 + 1));
        assert_eq!(Refusal::ALL.map(|why| Some(why as u8)), numbers);
        for why in Refusal::ALL {
            assert_eq!(Refusal::from_number(why as u8), Some(why));
        }
        assert_eq!([0, 13, 255].map(Refusal::from_number), [None; 3]);
    }
}
