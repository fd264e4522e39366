//! A page that owns its memory.
use alloc::vec;
use alloc::vec::Vec;

use crate::raw::{self, Lent};
use crate::refusal::ending;
use crate::{Choice, Command, Count, Entry, Format, Outcome, Reading, Refusal, Writing};

/// An opened page with its writer, its readers, their buffers, and the records that are there to be written.
#[derive(Clone, Debug, PartialEq, Eq)]
pub struct Page {
    pub(crate) format: Format,
    pub(crate) page: Vec<u8>,
    pub(crate) writer: raw::Writer,
    pub(crate) readers: Vec<raw::Reader>,
    pub(crate) buffers: Vec<u8>,
    pub(crate) records: Vec<u8>,
}

impl Page {
    /// A page with this count and record: nothing pending, all readers idle, all buffers zero, no records to be
    /// written. Refused by [`Refusal::BadFormat`], [`Refusal::WrongLength`] (the record has not n bytes) and
    /// [`Refusal::CountTooLarge`].
    pub fn open(format: Format, count: Count, record: &[u8]) -> Result<Page, Refusal> {
        format.check()?;
        let mut page = Page {
            page: vec![0; format.page_length()],
            writer: raw::Writer::default(),
            readers: vec![raw::Reader::default(); format.readers],
            buffers: vec![0; format.readers * format.n],
            records: Vec::new(),
            format,
        };
        page.open_again(count, record)?;
        Ok(page)
    }

    /// The same page from the beginning; it keeps the records that are there to be written. Refused by
    /// [`Refusal::WrongLength`] and [`Refusal::CountTooLarge`] as [`Page::open`]; nothing has changed then.
    pub fn open_again(&mut self, count: Count, record: &[u8]) -> Result<(), Refusal> {
        ending(self.lend(|lent, _| lent.open(count.0, record)))
    }

    /// The records that [`Command::WriteRecord`] names, n bytes each, in place of those before. They are copied, so
    /// that none changes while it is written. Refused by [`Refusal::WrongLength`] if they are no multiple of n, and by
    /// [`Refusal::Busy`] if a record write is pending that would find another record at its index, or none; nothing has
    /// changed then. Others may change meanwhile.
    ///
    /// ```
    /// use lagumtay::{Command, Count, Format, Layout, Page, Refusal};
    ///
    /// let format = Format { bases: vec![10], q: 1, base: 10, layout: Layout::Plain, n: 2, readers: 1 };
    /// let mut page = Page::open(format, Count(4), b"aa")?;
    /// assert_eq!(page.set_records(b"bbc"), Err(Refusal::WrongLength));
    /// page.set_records(b"bbcc")?;
    /// page.step(Command::WriteRecord(0))?;
    /// assert_eq!(page.set_records(b"xxcc"), Err(Refusal::Busy));
    /// page.set_records(b"bb")?;
    /// # Ok::<(), Refusal>(())
    /// ```
    pub fn set_records(&mut self, records: &[u8]) -> Result<(), Refusal> {
        if records.len() % self.format.n != 0 {
            return Err(Refusal::WrongLength);
        }
        if let Writing::Record { index, .. } = self.writer() {
            let pending = |records| self.record_of(records, index);
            if pending(records) != pending(&self.records) {
                return Err(Refusal::Busy);
            }
        }
        self.records.clear();
        self.records.extend_from_slice(records);
        Ok(())
    }

    /// Carry out one command; tells how a read ended, if this command ended one. Refused by [`Refusal::CountTooLarge`],
    /// [`Refusal::CountDecreases`], [`Refusal::Busy`], [`Refusal::NothingPending`], [`Refusal::NoSuch`],
    /// [`Refusal::VersionsExhausted`], and on a page that was restored from bytes that nobody saved
    /// [`Refusal::CopiesCrossed`]. A refused command changes nothing.
    pub fn step(&mut self, command: Command) -> Result<Outcome, Refusal> {
        let (told, number) = self.lend(|lent, records| lent.step(records, &command.raw()));
        ending(number)?;
        Ok(Entry::told(told).map_or(Outcome::Nothing, |entry| self.outcome(entry, Choice::of(told.choice))))
    }

    /// The outcome of a read that has just ended so, and that was begun with this choice.
    pub(crate) fn outcome(&self, entry: Entry, choice: Choice) -> Outcome {
        Outcome::of(entry, choice, self.buffer(entry.reader()).expect("a reader of the page"))
    }

    /// Drop a reader's read, as [`Command::Cancel`] does; its buffer keeps its bytes. Refused by [`Refusal::NoSuch`]
    /// and [`Refusal::NothingPending`].
    pub fn cancel(&mut self, reader: u8) -> Result<(), Refusal> {
        ending(self.lend(|lent, records| lent.cancel(records, reader)))
    }

    /// A call with what it is lent, and with the records. It is made in here, where its format lives.
    pub(crate) fn lend<T>(&mut self, call: impl FnOnce(&mut Lent, &[u8]) -> T) -> T {
        let Page { format, page, writer, readers, buffers, records } = self;
        let (numbers, bases) = (&format.raw(), &format.bases[..]);
        call(&mut Lent { format: numbers, bases, page, writer, readers, buffers }, records)
    }

    /// What this reader is at; none beyond the last reader.
    pub fn reader(&self, reader: u8) -> Option<Reading> {
        self.readers.get(usize::from(reader)).map(Reading::of)
    }

    /// What the writer is at.
    pub fn writer(&self) -> Writing {
        Writing::of(&self.writer)
    }

    /// The page's numbers.
    pub fn format(&self) -> &Format {
        &self.format
    }

    /// The page's bytes: c1, c2, v1, the record, v2. On a folded page the shared digit is the last of c1, and c2 has
    /// its own digits alone.
    pub fn bytes(&self) -> &[u8] {
        &self.page
    }

    /// The records that are there to be written, n bytes each.
    pub fn records(&self) -> &[u8] {
        &self.records
    }

    /// A reader's buffer; none beyond the last reader. During a read, and after one that was cancelled, it may hold a
    /// torn record: [`Outcome::Accepted`] has whole ones.
    pub fn buffer(&self, reader: u8) -> Option<&[u8]> {
        self.record_of(&self.buffers, reader.into())
    }

    /// The n bytes at this index, if there are so many.
    fn record_of<'a>(&self, records: &'a [u8], index: u16) -> Option<&'a [u8]> {
        records.chunks(self.format.n).nth(index.into())
    }
}
