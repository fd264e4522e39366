//! The two sorts of number that are read from a page.

/// A running count.
#[derive(Clone, Copy, Debug, PartialEq, Eq, PartialOrd, Ord, Hash)]
pub struct Count(
    /// Its value.
    pub u64,
);

/// The version of a record: 0 is the opening's, k that of the k-th record written since.
#[derive(Clone, Copy, Debug, PartialEq, Eq, PartialOrd, Ord, Hash)]
pub struct Version(
    /// Its value.
    pub u32,
);
