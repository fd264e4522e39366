//! What the steps of a queue tell.

/// The number of a parcel, from 0 on.
#[derive(Clone, Copy, Debug, PartialEq, Eq, PartialOrd, Ord, Hash)]
pub struct Serial(
    /// Its value.
    pub u64,
);

/// What a sender's step did.
#[derive(Clone, Copy, Debug, PartialEq, Eq)]
pub enum Sent {
    /// A digit of the number received was gathered.
    Gathered,
    /// A byte of the parcel was moved, and more are to come.
    Moved,
    /// The last byte was moved: the parcel is put in.
    PutIn(Serial),
    /// A digit of the number sent was written.
    Wrote,
    /// The last digit was written: the sending has ended.
    Ended(Serial),
}

/// What a receiver's step did.
#[derive(Clone, Copy, Debug, PartialEq, Eq)]
pub enum Received<'a> {
    /// A digit of the number sent was gathered.
    Gathered,
    /// A byte of the parcel was moved, and more are to come.
    Moved,
    /// The last byte was moved: here is the parcel, whole.
    CopiedOut(Serial, &'a [u8]),
    /// A digit of the number received was written.
    Wrote,
    /// The last digit was written: the receiving has ended. Here is the parcel once more.
    Ended(Serial, &'a [u8]),
}
