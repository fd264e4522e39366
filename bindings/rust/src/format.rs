//! The numbers of a page.
use alloc::vec::Vec;

use crate::raw::{self, Lent};
use crate::{Layout, Refusal};

/// The numbers of a page.
#[derive(Clone, Debug, PartialEq, Eq, Hash)]
pub struct Format {
    /// The bases of the m count places, the leftmost first: 1 to 8 of 2 to 256.
    pub bases: Vec<u16>,
    /// How many places a version has, 1 to 4.
    pub q: usize,
    /// The base of each version place, 2 to 256. A page takes base^q - 1 record writes.
    pub base: u16,
    /// How the count stands on the page.
    pub layout: Layout,
    /// The bytes of a record, 1 to 256.
    pub n: usize,
    /// How many readers there are, 1 to 16.
    pub readers: usize,
}

impl Format {
    /// The count digits on the page, and the steps of a count write or read: 2m, on a folded page 2m - 1.
    pub fn count_steps(&self) -> usize {
        match self.layout {
            Layout::Plain => 2 * self.bases.len(),
            Layout::Folded => (2 * self.bases.len()).saturating_sub(1),
        }
    }

    /// The steps of a record write, and of an attempt to read one: 2q + n.
    pub fn record_steps(&self) -> usize {
        self.q.saturating_mul(2).saturating_add(self.n)
    }

    /// How many bytes a page has. The format is one that [`Format::check`] lets pass.
    pub(crate) fn page_length(&self) -> usize {
        self.count_steps() + self.record_steps()
    }

    /// The numbers as the archive has them.
    pub(crate) fn raw(&self) -> raw::Format {
        let Format { q, base, layout, n, readers, .. } = *self;
        raw::Format { q, base, layout: layout as u16, n, readers }
    }

    /// Whether all numbers are in their ranges. The archive looks at them before any length, so that it is asked with
    /// no memory at all: the right format is refused as well, but for its lengths.
    pub(crate) fn check(&self) -> Result<(), Refusal> {
        let (format, mut writer) = (&self.raw(), raw::Writer::default());
        let [page, buffers, log]: [&mut [u8]; 3] = Default::default();
        let mut lent = Lent { format, bases: &self.bases, page, writer: &mut writer, readers: &mut [], buffers };
        match Refusal::from_number(lent.run(&[], &[], log).1) {
            Some(Refusal::WrongLength) => Ok(()),
            why => Err(why.expect("a page has bytes")),
        }
    }
}
