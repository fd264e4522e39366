//! Why a call on a queue was refused.
use core::{error, fmt};

/// Why a call was refused. `as u8` is its number, which [`raw`](super::raw) answers.
#[repr(u8)]
#[derive(Clone, Copy, Debug, PartialEq, Eq, Hash)]
pub enum QueueRefusal {
    /// (1) A number of the format is outside its range.
    BadFormat = 1,
    /// (2) A parcel has not n bytes. Over [`raw`](super::raw): a length differs from what the format asks for, or the
    /// lent records are no multiple of n.
    WrongLength = 2,
    /// (3) Over [`raw`](super::raw) alone: a digit at or above its base, a state that no steps could hold, more
    /// received than sent, or a pending sending whose record is not lent any more.
    InvalidState = 3,
    /// (6) This side has an act unfinished.
    Busy = 6,
    /// (7) A step with none to do, or a cancel of nothing or after a byte was moved.
    NothingPending = 7,
    /// (8) Over [`raw`](super::raw) alone: a record beyond the last.
    NoSuch = 8,
    /// (9) The number sent stands at its top: the queue takes no further parcel until it is opened anew.
    SerialsExhausted = 9,
    /// (13) All places hold parcels, as far as the gathering could see.
    QueueFull = 13,
    /// (14) No parcel is there, as far as the gathering could see.
    QueueEmpty = 14,
}

impl QueueRefusal {
    const ALL: [QueueRefusal; 9] = [
        QueueRefusal::BadFormat,
        QueueRefusal::WrongLength,
        QueueRefusal::InvalidState,
        QueueRefusal::Busy,
        QueueRefusal::NothingPending,
        QueueRefusal::NoSuch,
        QueueRefusal::SerialsExhausted,
        QueueRefusal::QueueFull,
        QueueRefusal::QueueEmpty,
    ];

    /// The refusal of this number, as a call of [`raw`](super::raw) answers it: none for 0, which says that the call
    /// was carried out, and none for a number that no call answers.
    pub fn from_number(number: u8) -> Option<QueueRefusal> {
        QueueRefusal::ALL.into_iter().find(|&why| why as u8 == number)
    }
}

impl fmt::Display for QueueRefusal {
    fn fmt(&self, f: &mut fmt::Formatter) -> fmt::Result {
        f.write_str(match self {
            QueueRefusal::BadFormat => "a number of the format is outside its range",
            QueueRefusal::WrongLength => "a parcel, or what is lent, differs in length from the format",
            QueueRefusal::InvalidState => "a digit at or above its base, or a state that no steps could hold",
            QueueRefusal::Busy => "this side has an act unfinished",
            QueueRefusal::NothingPending => "a step or cancel with none to do",
            QueueRefusal::NoSuch => "a record beyond the last",
            QueueRefusal::SerialsExhausted => "the number sent stands at its top",
            QueueRefusal::QueueFull => "the queue is full",
            QueueRefusal::QueueEmpty => "the queue is empty",
        })
    }
}

impl error::Error for QueueRefusal {}

/// The number that a call answers.
#[cfg(feature = "alloc")]
pub(super) fn ending(number: u8) -> Result<(), QueueRefusal> {
    match number {
        0 => Ok(()),
        _ => Err(QueueRefusal::from_number(number).expect("the number of a refusal")),
    }
}
