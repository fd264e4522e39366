//! A page as bytes, and back.
use alloc::vec;
use alloc::vec::Vec;

use crate::raw::{self, pack, unpack, PACKED};
use crate::refusal::ending;
use crate::state::index_of;
use crate::{Format, Layout, Page, Refusal};

/// The first byte of a saved page: which order of bytes it has.
const SAVED: u8 = 1;

impl Page {
    /// All of the page as bytes, the same on any machine, for [`Page::restore`]. Numbers are high byte first:
    ///
    /// | bytes | what |
    /// |---|---|
    /// | 1 | 1, which names this table |
    /// | 1 | m, how many bases the count has |
    /// | 2 each | the m bases |
    /// | 1, 2 | q and base: the places of a version, and their base |
    /// | 1 | the layout: [`raw::PLAIN`] or [`raw::FOLDED`] |
    /// | 2 | n, the bytes of a record |
    /// | 1 | R, how many readers there are |
    /// | 1 | the writer: 0 with nothing pending, 1 at a count, 2 at a record |
    /// | 8 | the count that is written |
    /// | 2, 4 | the index and the version of the record that is written |
    /// | 2 | the steps taken of the pending write |
    /// | 8 | how many records there are to be written |
    /// | 2m + 2q + n | the page, as [`Page::bytes`]; one fewer if it is folded |
    /// | 28 for each reader | its state, as [`raw::pack`] has it |
    /// | n for each reader | its buffer |
    /// | n each | the records |
    ///
    /// What the writer does not need is 0.
    pub fn save(&self) -> Vec<u8> {
        let mut bytes = vec![SAVED];
        put_format(&mut bytes, &self.format);
        put_writer(&mut bytes, &self.writer);
        bytes.extend(((self.records.len() / self.format.n) as u64).to_be_bytes());
        bytes.extend(&self.page);
        bytes.extend(self.packed());
        bytes.extend(&self.buffers);
        bytes.extend(&self.records);
        bytes
    }

    /// The readers' states as bytes.
    fn packed(&self) -> Vec<u8> {
        let mut bytes = vec![0; self.readers.len() * PACKED];
        ending(pack(&self.readers, &mut bytes)).expect("bytes for each reader");
        bytes
    }

    /// A page out of the bytes that [`Page::save`] gave: it goes on where it was. Some other bytes are a page too,
    /// which goes on as if it had been saved. The rest are refused: by [`Refusal::WrongLength`] if bytes are missing or
    /// too many, by [`Refusal::BadFormat`] if a number of the format is outside its range or the first byte names
    /// another table, and by [`Refusal::InvalidState`] if a digit of the page is at or above its base or the writer or
    /// a reader has a state that no steps could hold. Nothing is promised of reads that go on from a state that was not
    /// the page's last one.
    ///
    /// ```
    /// use lagumtay::{Command, Count, Format, Layout, Page, Refusal};
    ///
    /// let format = Format { bases: vec![10], q: 1, base: 10, layout: Layout::Plain, n: 2, readers: 1 };
    /// let mut page = Page::open(format, Count(4), b"aa")?;
    /// page.step(Command::WriteCount(Count(7)))?;
    /// let saved = page.save();
    /// assert_eq!(Page::restore(&saved), Ok(page));
    /// assert_eq!(Page::restore(&saved[1..]), Err(Refusal::BadFormat));
    /// # Ok::<(), Refusal>(())
    /// ```
    pub fn restore(bytes: &[u8]) -> Result<Page, Refusal> {
        let rest = &mut &bytes[..];
        if take(rest)? != [SAVED] {
            return Err(Refusal::BadFormat);
        }
        let format = take_format(rest)?;
        format.check()?;
        let writer = take_writer(rest)?;
        let number = usize::try_from(u64::from_be_bytes(take(rest)?)).map_err(|_| Refusal::WrongLength)?;
        let page = take_slice(rest, format.page_length())?.to_vec();
        let packed = take_slice(rest, format.readers * PACKED)?;
        let buffers = take_slice(rest, format.readers * format.n)?.to_vec();
        if number.checked_mul(format.n) != Some(rest.len()) {
            return Err(Refusal::WrongLength);
        }
        let mut readers = vec![raw::Reader::default(); format.readers];
        ending(unpack(&mut readers, packed))?;
        let mut page = Page { format, page, writer, readers, buffers, records: rest.to_vec() };
        ending(page.lend(|lent, records| lent.run(records, &[], &mut []).1))?;
        Ok(page)
    }
}

fn put_format(bytes: &mut Vec<u8>, format: &Format) {
    let Format { bases, q, base, layout, n, readers } = format;
    bytes.push(bases.len() as u8);
    bytes.extend(bases.iter().flat_map(|base| base.to_be_bytes()));
    bytes.push(*q as u8);
    bytes.extend(base.to_be_bytes());
    bytes.push(*layout as u8);
    bytes.extend((*n as u16).to_be_bytes());
    bytes.push(*readers as u8);
}

/// What [`put_format`] put, if the bytes are there. Numbers may be outside their range.
fn take_format(bytes: &mut &[u8]) -> Result<Format, Refusal> {
    let [m] = take(bytes)?;
    let bases = take_slice(bytes, 2 * usize::from(m))?;
    let bases = bases.chunks(2).map(|base| u16::from_be_bytes([base[0], base[1]])).collect();
    let [q, a, b, layout, c, d, readers] = take(bytes)?;
    let layout = match layout.into() {
        raw::PLAIN => Layout::Plain,
        raw::FOLDED => Layout::Folded,
        _ => return Err(Refusal::BadFormat),
    };
    let [base, n] = [[a, b], [c, d]].map(u16::from_be_bytes);
    Ok(Format { bases, q: q.into(), base, layout, n: n.into(), readers: readers.into() })
}

fn put_writer(bytes: &mut Vec<u8>, writer: &raw::Writer) {
    let raw::Writer { count, index, steps, version, kind } = *writer;
    bytes.push(kind as u8);
    bytes.extend(count.to_be_bytes());
    bytes.extend(index_of(index).to_be_bytes());
    bytes.extend(version.to_be_bytes());
    bytes.extend((steps as u16).to_be_bytes());
}

/// What [`put_writer`] put, if the bytes are there. It may be no state of a writer.
fn take_writer(bytes: &mut &[u8]) -> Result<raw::Writer, Refusal> {
    let [kind] = take(bytes)?;
    let count = u64::from_be_bytes(take(bytes)?);
    let index = u16::from_be_bytes(take(bytes)?).into();
    let version = u32::from_be_bytes(take(bytes)?);
    let steps = u16::from_be_bytes(take(bytes)?).into();
    Ok(raw::Writer { count, index, steps, version, kind: kind.into() })
}

/// The first N of these bytes, and they lose them.
fn take<const N: usize>(bytes: &mut &[u8]) -> Result<[u8; N], Refusal> {
    let (taken, rest) = bytes.split_first_chunk().ok_or(Refusal::WrongLength)?;
    *bytes = rest;
    Ok(*taken)
}

/// The first of these bytes, as many as this, and they lose them.
fn take_slice<'a>(bytes: &mut &'a [u8], length: usize) -> Result<&'a [u8], Refusal> {
    let (taken, rest) = bytes.split_at_checked(length).ok_or(Refusal::WrongLength)?;
    *bytes = rest;
    Ok(taken)
}
