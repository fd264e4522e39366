//! The memory of one page, owned: what is lent to either implementation.
use lagumtay::raw::{Format, Lent, Reader, Writer};

#[derive(Clone, Debug, Default, PartialEq)]
pub struct Owned {
    pub format: Format,
    pub bases: Vec<u16>,
    pub page: Vec<u8>,
    pub writer: Writer,
    pub readers: Vec<Reader>,
    pub buffers: Vec<u8>,
}

impl Owned {
    /// Zeros in the lengths that a good format asks.
    pub fn blank(format: Format, bases: &[u16]) -> Owned {
        let Format { q, n, readers, layout, .. } = format;
        Owned {
            format,
            bases: bases.to_vec(),
            page: vec![0; 2 * bases.len() - usize::from(layout) + 2 * q + n],
            writer: Writer::default(),
            readers: vec![Reader::default(); readers],
            buffers: vec![0; readers * n],
        }
    }

    /// What a call is lent.
    pub fn lend(&mut self) -> Lent<'_> {
        let Owned { format, bases, page, writer, readers, buffers } = self;
        Lent { format, bases, page, writer, readers, buffers }
    }

    pub fn buffer(&self, reader: u8) -> &[u8] {
        &self.buffers[usize::from(reader) * self.format.n..][..self.format.n]
    }
}
