//! How the count stands on a page.
use crate::raw;

/// How the count stands on a page; `as u16` is its number.
#[repr(u16)]
#[derive(Clone, Copy, Debug, PartialEq, Eq, Hash)]
pub enum Layout {
    /// Twice: c1 and c2 have all their m digits.
    Plain = raw::PLAIN,
    /// The last digits of c1 and c2 are one digit, which is written once and read once.
    Folded = raw::FOLDED,
}
