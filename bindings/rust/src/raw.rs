//! The archive's calls for a caller who owns the memory, as `include/lagumtay.h` of the repository has them.
//!
//! A call answers 0, or the number of a [`Refusal`]: [`Refusal::from_number`] names it. Calls on one page are made one
//! after another, and nobody else writes what is lent meanwhile, which `&mut` sees to. Three rules are left to the
//! caller, which a [`Page`](crate::Page) keeps by itself:
//!
//! - **Take an accepted record from the reader's buffer before that reader steps again.** The steps of its next record
//!   read write the same buffer, within one run too: end the run where the record is accepted, or at the latest before
//!   that reader begins again.
//! - **The record at [`Writer::index`] stays as it was announced while [`Writer::kind`] is 2.** A write that is begun
//!   from one record and ended from another is read as a mixture of both. Between writes each call may bring new
//!   records.
//! - What the calls are lent stays as they left it, from [`Lent::open`] on, under the same format.
//!
//! ```
//! use lagumtay::raw::{Answer, Format, Lent, Reader, Writer, LONGEST_ENTRY, PLAIN};
//! use lagumtay::{Command, Count, Entries, Entry, Refusal};
//!
//! let format = Format { q: 1, base: 10, layout: PLAIN, n: 2, readers: 1 };
//! let (mut page, mut writer) = ([0; 2 * 1 + 2 * 1 + 2], Writer::default());
//! let (mut readers, mut buffers) = ([Reader::default(); 1], [0; 2]);
//! let mut lent = Lent {
//!     format: &format,
//!     bases: &[10],
//!     page: &mut page,
//!     writer: &mut writer,
//!     readers: &mut readers,
//!     buffers: &mut buffers,
//! };
//! assert_eq!(lent.open(4, b"aa"), 0);
//!
//! // Begin a count read of reader 0 and step three times: the third step finds nothing to do.
//! let commands = [4, 0, 6, 0, 6, 0, 6, 0];
//! let mut log = [0; LONGEST_ENTRY];
//! let (Answer { done, written, taken }, number) = lent.run(&[], &commands, &mut log);
//! assert_eq!((done, Refusal::from_number(number)), (3, Some(Refusal::NothingPending)));
//! assert_eq!(commands[taken..], [6, 0]);
//! let entries: Vec<Entry> = Entries::new(&log[..written]).collect();
//! assert_eq!(entries, [Entry::Shown { reader: 0, count: Count(4) }]);
//!
//! // The same by steps of one command.
//! assert_eq!(lent.step(&[], &Command::ReaderStep(0).raw()).1, Refusal::NothingPending as u8);
//! ```
#[cfg(doc)]
use crate::Refusal;

/// Mirrors `LAGUMTAY_PLAIN`: the count stands on the page twice.
pub const PLAIN: u16 = 0;

/// Mirrors `LAGUMTAY_FOLDED`: the last digits of both copies of the count are one digit.
pub const FOLDED: u16 = 1;

/// Mirrors `LAGUMTAY_LOW`: a count read shows the low end where its copies part. It is what command 04 leaves, which
/// names none.
pub const LOW: u8 = 0;

/// Mirrors `LAGUMTAY_HIGH`: a count read shows the high end where its copies part, as command 0D names it.
pub const HIGH: u8 = 1;

/// How many bytes a reader's state has when it is packed.
pub const PACKED: usize = 28;

/// How many bytes the longest entry of a log has: with so many free there always is room for the next one. A log of so
/// many for each reader step among the commands never fills.
pub const LONGEST_ENTRY: usize = 18;

/// How many bytes the longest command has.
pub const LONGEST_COMMAND: usize = 9;

/// How many readers a page has at most.
pub const MOST_READERS: usize = 16;

/// Mirrors `lagumtay_format`: the numbers of a page but for its m count bases, which are lent beside it, 1 to 8 of 2 to
/// 256.
#[repr(C)]
#[derive(Clone, Copy, Debug, Default, PartialEq, Eq)]
pub struct Format {
    /// How many places a version has, 1 to 4.
    pub q: usize,
    /// The base of each version place, 2 to 256.
    pub base: u16,
    /// [`PLAIN`] or [`FOLDED`].
    pub layout: u16,
    /// The bytes of a record, 1 to 256.
    pub n: usize,
    /// How many readers there are, 1 to [`MOST_READERS`].
    pub readers: usize,
}

/// Mirrors `lagumtay_writer`: the writer's state. Fields that the kind does not use are zero.
#[repr(C)]
#[derive(Clone, Copy, Debug, Default, PartialEq, Eq)]
pub struct Writer {
    /// The count that is written.
    pub count: u64,
    /// Which of the lent records is written. That record must not change meanwhile.
    pub index: usize,
    /// The steps taken of the pending write.
    pub steps: usize,
    /// The version of the record that is written.
    pub version: u32,
    /// 0: nothing pending; 1: a count; 2: a record.
    pub kind: u32,
}

/// Mirrors `lagumtay_reader`: a reader's state. Fields that the kind does not use are zero.
#[repr(C)]
#[derive(Clone, Copy, Debug, Default, PartialEq, Eq)]
pub struct Reader {
    /// 0: idle; 1: a count read; 2: a record read.
    pub kind: u8,
    /// The attempts allowed of a record read.
    pub allowed: u8,
    /// The attempts of a record read that were torn.
    pub finished: u8,
    /// Which end a count read shows: [`LOW`] or [`HIGH`].
    pub choice: u8,
    /// The steps taken of a count read, or of the present attempt.
    pub steps: usize,
    /// The digits gathered: of c1 (or v2) from 0 on, of c2 (or v1) from 8 on; those not gathered are zero. The shared
    /// digit of a folded page stands with those of c1 alone.
    pub digits: [u8; 16],
}

/// Mirrors `lagumtay_answer`: what a run tells beside its refusal.
#[repr(C)]
#[derive(Clone, Copy, Debug, Default, PartialEq, Eq)]
pub struct Answer {
    /// The commands carried out.
    pub done: usize,
    /// The bytes written into the log.
    pub written: usize,
    /// The bytes of the commands carried out: a refused one begins there, and so the rest of a run goes on there.
    pub taken: usize,
}

/// Mirrors `lagumtay_command`: a command for a step; [`Command::raw`](crate::Command::raw) makes one. A field that its
/// kind does not ask for is not looked at.
#[repr(C)]
#[derive(Clone, Copy, Debug, Default, PartialEq, Eq)]
pub struct Command {
    /// As the first byte of the commands of [`Lent::run`]: 1 to 7 and 0x0D.
    pub kind: u8,
    /// Who reads, steps or is cancelled.
    pub reader: u8,
    /// The attempts allowed of a record read.
    pub attempts: u8,
    /// Which of the lent records is to be written.
    pub index: u16,
    /// The count that is to be written.
    pub count: u64,
}

/// Mirrors `lagumtay_outcome`: what a step tells; [`Entry::told`](crate::Entry::told) names it. Fields that the kind
/// does not have are zero.
#[repr(C)]
#[derive(Clone, Copy, Debug, Default, PartialEq, Eq)]
pub struct Outcome {
    /// 0: no read finished; 1: a count shown; 2: a record accepted; 3: a read gave up; 4: between two counts.
    pub kind: u8,
    /// Who read.
    pub reader: u8,
    /// The attempts used of a record read.
    pub attempts: u8,
    /// Between two counts alone: the choice with which the read was begun, [`LOW`] or [`HIGH`].
    pub choice: u8,
    /// The version of an accepted record.
    pub version: u32,
    /// The count of equal copies.
    pub count: u64,
    /// The low end.
    pub low: u64,
    /// The high end.
    pub high: u64,
}

extern "C" {
    fn lagumtay_open(
        format: *const Format,
        bases: *const u16,
        m: usize,
        page: *mut u8,
        page_len: usize,
        writer: *mut Writer,
        readers: *mut Reader,
        readers_len: usize,
        buffers: *mut u8,
        buffers_len: usize,
        count: u64,
        record: *const u8,
        record_len: usize,
    ) -> u8;
    fn lagumtay_run(
        format: *const Format,
        bases: *const u16,
        m: usize,
        page: *mut u8,
        page_len: usize,
        writer: *mut Writer,
        readers: *mut Reader,
        readers_len: usize,
        buffers: *mut u8,
        buffers_len: usize,
        records: *const u8,
        records_len: usize,
        commands: *const u8,
        commands_len: usize,
        log: *mut u8,
        log_len: usize,
        answer: *mut Answer,
    ) -> u8;
    fn lagumtay_step(
        format: *const Format,
        bases: *const u16,
        m: usize,
        page: *mut u8,
        page_len: usize,
        writer: *mut Writer,
        readers: *mut Reader,
        readers_len: usize,
        buffers: *mut u8,
        buffers_len: usize,
        records: *const u8,
        records_len: usize,
        command: *const Command,
        outcome: *mut Outcome,
    ) -> u8;
    fn lagumtay_cancel(
        format: *const Format,
        bases: *const u16,
        m: usize,
        page: *const u8,
        page_len: usize,
        writer: *const Writer,
        readers: *mut Reader,
        readers_len: usize,
        buffers: *const u8,
        buffers_len: usize,
        records: *const u8,
        records_len: usize,
        who: u8,
    ) -> u8;
    fn lagumtay_pack(readers: *const Reader, readers_len: usize, bytes: *mut u8, bytes_len: usize) -> u8;
    fn lagumtay_unpack(readers: *mut Reader, readers_len: usize, bytes: *const u8, bytes_len: usize) -> u8;
}

/// Calls the archive: the arguments that all functions of a page begin with, then those of this one.
macro_rules! call {
    ($function:ident, $lent:expr, $($own:expr),+) => {
        $function(
            $lent.format,
            $lent.bases.as_ptr(),
            $lent.bases.len(),
            $lent.page.as_mut_ptr(),
            $lent.page.len(),
            $lent.writer,
            $lent.readers.as_mut_ptr(),
            $lent.readers.len(),
            $lent.buffers.as_mut_ptr(),
            $lent.buffers.len(),
            $($own),+
        )
    };
}

/// What a page's calls are lent. Any lengths but these are refused by [`Refusal::WrongLength`].
#[derive(Debug)]
pub struct Lent<'a> {
    /// The page's numbers.
    pub format: &'a Format,
    /// The bases of its m count places.
    pub bases: &'a [u16],
    /// Its bytes: c1, c2, v1, the record, v2. Plain 2m + 2q + n, folded one fewer: there the shared digit is the last
    /// of c1, and c2 has its own digits alone.
    pub page: &'a mut [u8],
    /// Its writer.
    pub writer: &'a mut Writer,
    /// Its readers, as many as the format says.
    pub readers: &'a mut [Reader],
    /// Their buffers, n bytes for each, one after the other.
    pub buffers: &'a mut [u8],
}

// These calls, and the two below, are sound: each pointer comes with its length from a reference that lives through the
// call, those written through from `&mut`, so that none overlap. The archive answers for any values, touches nothing
// else, and any bytes that it leaves are values of these types.
impl Lent<'_> {
    /// `lagumtay_open`: a page with this count and record of n bytes; nothing pending, all readers idle, all buffers
    /// zero. What was lent before does not matter. Refused by [`Refusal::BadFormat`], [`Refusal::WrongLength`] and
    /// [`Refusal::CountTooLarge`]; nothing has changed then.
    #[must_use = "it may be refused"]
    pub fn open(&mut self, count: u64, record: &[u8]) -> u8 {
        unsafe { call!(lagumtay_open, self, count, record.as_ptr(), record.len()) }
    }

    /// `lagumtay_run`: carry out commands up to the first that is refused, over these records of n bytes each, of which
    /// there may be none. The refused command has changed nothing, and those before it have been carried out:
    /// [`Answer::taken`] tells where it begins, so that a caller can go on from there.
    ///
    /// A command is a byte of kind, then its body; longer numbers are high byte first. [`Command::put`] writes them:
    /// 01 write a count (8 bytes), 02 write a record (2 bytes: its index), 03 writer step, 04 begin a count read
    /// (reader), 05 begin a record read (reader, attempts allowed), 06 reader step (reader), 07 cancel (reader),
    /// 0D begin a count read that names the high end (reader). Others are refused by [`Refusal::UnknownCommand`].
    ///
    /// How reads end is told in the log, whose other bytes keep their contents; [`Entries`](crate::Entries) reads it.
    /// An entry has 3 to [`LONGEST_ENTRY`] bytes, and only a reader step makes one: so many for each reader step always
    /// suffice. A step whose entry does not fit is refused by [`Refusal::LogFull`]: run the commands from
    /// [`Answer::taken`] on with another log.
    ///
    /// [`Refusal::BadFormat`], [`Refusal::WrongLength`] and [`Refusal::InvalidState`] are found at the start: then
    /// nothing at all has changed.
    ///
    /// [`Command::put`]: crate::Command::put
    #[must_use = "it may be refused"]
    #[inline] // so that a caller, in another crate too, takes the answer out of memory itself
    pub fn run(&mut self, records: &[u8], commands: &[u8], log: &mut [u8]) -> (Answer, u8) {
        // No answer that a run gives, so that one that is not written is seen.
        let mut answer = Answer { done: usize::MAX, written: usize::MAX, taken: usize::MAX };
        let ending = self.run_into(records, commands, log, &mut answer);
        (answer, ending)
    }

    /// [`Lent::run`] with the answer lent too, whatever it holds.
    #[must_use = "it may be refused"]
    #[inline] // as `run`
    pub fn run_into(&mut self, records: &[u8], commands: &[u8], log: &mut [u8], answer: &mut Answer) -> u8 {
        unsafe {
            call!(
                lagumtay_run,
                self,
                records.as_ptr(),
                records.len(),
                commands.as_ptr(),
                commands.len(),
                log.as_mut_ptr(),
                log.len(),
                answer
            )
        }
    }

    /// `lagumtay_step`: carry out one command over these records and tell how it ended, with no log. Refused as a run
    /// is, but never by [`Refusal::LogFull`]; a refused step changes nothing, and its outcome is of kind 0.
    #[must_use = "it may be refused"]
    #[inline] // as `run`
    pub fn step(&mut self, records: &[u8], command: &Command) -> (Outcome, u8) {
        // No outcome that a step has, so that one that is not written is seen.
        let ([kind, reader, attempts, choice], [count, low, high]) = ([255; 4], [u64::MAX; 3]);
        let mut outcome = Outcome { kind, reader, attempts, choice, version: u32::MAX, count, low, high };
        let ending = self.step_into(records, command, &mut outcome);
        (outcome, ending)
    }

    /// [`Lent::step`] with the outcome lent too, whatever it holds.
    #[must_use = "it may be refused"]
    #[inline] // as `run`
    pub fn step_into(&mut self, records: &[u8], command: &Command, outcome: &mut Outcome) -> u8 {
        unsafe { call!(lagumtay_step, self, records.as_ptr(), records.len(), command, outcome) }
    }

    /// `lagumtay_cancel`: drop the read of one reader, whose buffer keeps its bytes. Refused by [`Refusal::BadFormat`],
    /// [`Refusal::WrongLength`], [`Refusal::InvalidState`], [`Refusal::NoSuch`] and [`Refusal::NothingPending`].
    #[must_use = "it may be refused"]
    pub fn cancel(&mut self, records: &[u8], who: u8) -> u8 {
        unsafe { call!(lagumtay_cancel, self, records.as_ptr(), records.len(), who) }
    }
}

/// `lagumtay_pack`: readers' states into bytes, [`PACKED`] for each: kind, allowed, finished, choice, steps (8 bytes,
/// high byte first), 16 digits. Any states can be packed. Refused by [`Refusal::WrongLength`] alone.
#[must_use = "it may be refused"]
pub fn pack(readers: &[Reader], bytes: &mut [u8]) -> u8 {
    unsafe { lagumtay_pack(readers.as_ptr(), readers.len(), bytes.as_mut_ptr(), bytes.len()) }
}

/// `lagumtay_unpack`: readers' states out of bytes, the other way round. Any bytes can be unpacked: a state that no
/// steps could hold is refused by the next call, by [`Refusal::InvalidState`]. Refused by [`Refusal::WrongLength`]
/// alone.
#[must_use = "it may be refused"]
pub fn unpack(readers: &mut [Reader], bytes: &[u8]) -> u8 {
    unsafe { lagumtay_unpack(readers.as_mut_ptr(), readers.len(), bytes.as_ptr(), bytes.len()) }
}

#[cfg(test)]
mod tests {
    use super::*;
    use core::mem::{align_of, offset_of, size_of};

    #[test]
    fn structs_have_the_layout_of_the_header() {
        assert_eq!([offset_of!(Format, q), offset_of!(Format, base), offset_of!(Format, layout)], [0, 8, 10]);
        assert_eq!([offset_of!(Format, n), offset_of!(Format, readers)], [16, 24]);
        assert_eq!([offset_of!(Writer, count), offset_of!(Writer, index), offset_of!(Writer, steps)], [0, 8, 16]);
        assert_eq!([offset_of!(Writer, version), offset_of!(Writer, kind)], [24, 28]);
        assert_eq!([offset_of!(Reader, kind), offset_of!(Reader, allowed), offset_of!(Reader, finished)], [0, 1, 2]);
        assert_eq!([offset_of!(Reader, choice), offset_of!(Reader, steps), offset_of!(Reader, digits)], [3, 8, 16]);
        assert_eq!([offset_of!(Answer, done), offset_of!(Answer, written), offset_of!(Answer, taken)], [0, 8, 16]);
        assert_eq!([offset_of!(Command, kind), offset_of!(Command, reader), offset_of!(Command, attempts)], [0, 1, 2]);
        assert_eq!([offset_of!(Command, index), offset_of!(Command, count)], [4, 8]);
        assert_eq!([offset_of!(Outcome, kind), offset_of!(Outcome, reader), offset_of!(Outcome, attempts)], [0, 1, 2]);
        assert_eq!([offset_of!(Outcome, choice), offset_of!(Outcome, version), offset_of!(Outcome, count)], [3, 4, 8]);
        assert_eq!([offset_of!(Outcome, low), offset_of!(Outcome, high)], [16, 24]);
        assert_eq!([size_of::<Format>(), size_of::<Writer>(), size_of::<Reader>()], [32; 3]);
        assert_eq!([size_of::<Answer>(), size_of::<Command>(), size_of::<Outcome>()], [24, 16, 32]);
        assert_eq!([align_of::<Format>(), align_of::<Writer>(), align_of::<Reader>()], [8; 3]);
        assert_eq!([align_of::<Answer>(), align_of::<Command>(), align_of::<Outcome>()], [8; 3]);
    }

    const RECORDS: &[u8; 15] = b"abcdefghijklmno";

    struct Memory {
        page: [u8; 15],
        writer: Writer,
        readers: [Reader; 3],
        buffers: [u8; 15],
        log: [u8; LONGEST_ENTRY],
    }

    impl Memory {
        /// Opened with count 100 and record "abcde".
        fn opened() -> Memory {
            let mut memory = Memory {
                page: [9; 15],
                writer: Writer { count: 9, index: 9, steps: 9, version: 9, kind: 9 },
                readers: [Reader { kind: 9, allowed: 9, finished: 9, choice: 9, steps: 9, digits: [9; 16] }; 3],
                buffers: [9; 15],
                log: [0; LONGEST_ENTRY],
            };
            assert_eq!(memory.lend().0.open(100, &RECORDS[..5]), 0);
            memory
        }

        /// What the calls are lent, and the log.
        fn lend(&mut self) -> (Lent<'_>, &mut [u8]) {
            let Memory { page, writer, readers, buffers, log } = self;
            let format = &Format { q: 2, base: 11, layout: PLAIN, n: 5, readers: 3 };
            (Lent { format, bases: &[7, 8, 9], page, writer, readers, buffers }, log)
        }

        /// Commands carried out, log bytes written, and the ending.
        fn run(&mut self, commands: &[u8]) -> (usize, usize, u8) {
            let (mut lent, log) = self.lend();
            let (Answer { done, written, taken }, ending) = lent.run(RECORDS, commands, log);
            assert!(if ending == 0 { taken == commands.len() } else { taken < commands.len().max(1) });
            (done, written, ending)
        }

        /// What a step tells, and the ending.
        fn step(&mut self, command: Command) -> (Outcome, u8) {
            self.lend().0.step(RECORDS, &command)
        }
    }

    /// Each field gets a value of its own from the archive. Where the archive put it at another offset, or its structs
    /// were of another size, some field here would have another value.
    #[test]
    fn the_archive_fills_these_fields() {
        let mut memory = Memory::opened();
        assert_eq!(memory.writer, Writer::default());
        assert_eq!(memory.readers, [Reader::default(); 3]);

        // 300 is 4, 1, 3 in bases 7, 8, 9: two of its six steps.
        assert_eq!(memory.run(&[1, 0, 0, 0, 0, 0, 0, 1, 44, 3, 3]), (3, 0, 0));
        assert_eq!(memory.writer, Writer { count: 300, index: 0, steps: 2, version: 0, kind: 1 });
        assert_eq!(memory.run(&[3, 3, 3, 3]), (4, 0, 0));

        // Record 2: three of its nine steps.
        assert_eq!(memory.run(&[2, 0, 2, 3, 3, 3]), (4, 0, 0));
        assert_eq!(memory.writer, Writer { count: 0, index: 2, steps: 3, version: 1, kind: 2 });

        // Readers 1 and 0 are about to end count reads of either choice. Reader 2 is in the second of three attempts:
        // the first met the half written record.
        assert_eq!(memory.run(&[4, 1, 6, 1, 6, 1, 6, 1, 6, 1, 6, 1]), (6, 0, 0));
        assert_eq!(memory.run(&[13, 0, 6, 0, 6, 0, 6, 0, 6, 0, 6, 0]), (6, 0, 0));
        let digits = [4, 1, 3, 0, 0, 0, 0, 0, 0, 1, 3, 0, 0, 0, 0, 0];
        let gathered = |choice| Reader { kind: 1, allowed: 0, finished: 0, choice, steps: 5, digits };
        assert_eq!(memory.readers[..2], [gathered(HIGH), gathered(LOW)]);
        assert_eq!(memory.run(&[5, 2, 3]), (1, 0, 0));
        assert_eq!(memory.run(&[6, 2].repeat(11)), (11, 0, 0));
        let retried = Reader { kind: 2, allowed: 3, finished: 1, choice: 0, steps: 2, digits: [0; 16] };
        assert_eq!(memory.readers[2], retried);

        assert_eq!(memory.run(&[6, 1, 6, 1]), (1, 10, 7));
        assert_eq!(memory.log[..10], [1, 1, 0, 0, 0, 0, 0, 0, 1, 44]);
        assert_eq!(memory.run(&[6, 0, 6, 0]), (1, 10, 7));
        assert_eq!(memory.log[..10], [1, 0, 0, 0, 0, 0, 0, 0, 1, 44]);
        assert_eq!(memory.readers, [Reader::default(), Reader::default(), retried]);
    }

    /// With a's 1, 3, 1 gathered by a read of this kind, 4, 1, 3 is written; then all but the last digit of b is
    /// gathered.
    fn about_to_part(begin: u8) -> Memory {
        let mut memory = Memory::opened();
        assert_eq!(memory.run(&[begin, 1, 6, 1, 6, 1, 6, 1]), (4, 0, 0));
        assert_eq!(memory.run(&[1, 0, 0, 0, 0, 0, 0, 1, 44, 3, 3, 3, 3, 3, 3]), (7, 0, 0));
        assert_eq!(memory.run(&[6, 1, 6, 1]), (2, 0, 0));
        memory
    }

    /// The low end is 1, 7, 8 in bases 7, 8, 9, the high end 4, 0, 0. A log has both under either choice, a step tells
    /// the choice too.
    #[test]
    fn the_archive_tells_both_ends() {
        for (begin, choice) in [(4, LOW), (13, HIGH)] {
            let mut ran = about_to_part(begin);
            assert_eq!(ran.readers[1].choice, choice);
            assert_eq!(ran.run(&[6, 1]), (1, LONGEST_ENTRY, 0));
            assert_eq!(ran.log, [4, 1, 0, 0, 0, 0, 0, 0, 0, 143, 0, 0, 0, 0, 0, 0, 1, 32]);
            let mut stepped = about_to_part(begin);
            let told = Outcome { kind: 4, reader: 1, choice, low: 143, high: 288, ..Outcome::default() };
            assert_eq!(stepped.step(Command { kind: 6, reader: 1, ..Command::default() }), (told, 0));
            assert_eq!([stepped.readers, ran.readers], [[Reader::default(); 3]; 2]);
        }
    }

    /// A reader in the middle of a read that these commands began and, beside it, one that is idle.
    fn reading(commands: &[u8]) -> Memory {
        let mut memory = Memory::opened();
        assert_eq!(memory.run(&[commands, &[6, 1, 6, 1]].concat()), (3, 0, 0));
        memory
    }

    /// A count read has one of two choices; an idle reader and a record read have none.
    #[test]
    fn the_archive_reads_the_choice() {
        for (begin, right) in [(&[4, 1][..], &[LOW, HIGH][..]), (&[13, 1], &[LOW, HIGH]), (&[5, 1, 2], &[LOW])] {
            for choice in 0..=255 {
                let mut memory = reading(begin);
                memory.readers[1].choice = choice;
                let before = memory.readers;
                let why = if right.contains(&choice) { 0 } else { 3 };
                assert_eq!(memory.run(&[]), (0, 0, why), "{begin:?}, {choice}");
                assert_eq!(memory.readers, before);
                assert_eq!(memory.lend().0.cancel(RECORDS, 1), why);
                memory = reading(begin);
                memory.readers[0].choice = choice;
                let why = if choice == LOW { 0 } else { 3 };
                assert_eq!(memory.step(Command { kind: 6, reader: 1, ..Command::default() }).1, why);
            }
        }
    }

    /// What ends or drops a read leaves no choice behind.
    #[test]
    fn the_archive_clears_the_choice() {
        let mut memory = reading(&[13, 1]);
        assert_eq!(memory.readers[1].choice, HIGH);
        assert_eq!(memory.lend().0.cancel(RECORDS, 1), 0);
        assert_eq!(memory.readers, [Reader::default(); 3]);
        assert_eq!(memory.run(&[13, 1, 7, 1]), (2, 0, 0));
        assert_eq!(memory.readers, [Reader::default(); 3]);
        assert_eq!(memory.run(&[13, 1, 6, 1, 6, 1, 6, 1, 6, 1, 6, 1, 6, 1]), (7, 10, 0));
        assert_eq!(memory.readers, [Reader::default(); 3]);
        assert_eq!(memory.run(&[13, 1, 7, 1, 4, 1]), (3, 0, 0));
        assert_eq!(memory.readers[1], Reader { kind: 1, ..Reader::default() });
    }

    /// 0D is checked as 04 is, and the kinds around it are unknown.
    #[test]
    fn the_archive_refuses_0d_as_04() {
        for begin in [4, 13] {
            let mut memory = reading(&[begin, 1]);
            let before = memory.readers;
            assert_eq!(memory.run(&[begin, 1]), (0, 0, 6));
            assert_eq!(memory.run(&[begin, 3]), (0, 0, 8));
            assert_eq!(memory.run(&[begin]), (0, 0, 11));
            for (reader, why) in [(1, 6), (3, 8), (255, 8)] {
                let command = Command { kind: begin, reader, ..Command::default() };
                assert_eq!(memory.step(command), (Outcome::default(), why));
            }
            assert_eq!(memory.readers, before);
            assert_eq!(reading(&[5, 1, 1]).run(&[begin, 1]), (0, 0, 6));
        }
        let mut memory = Memory::opened();
        for kind in (8..=12).chain(14..=255).chain([0]) {
            assert_eq!(memory.run(&[kind, 0]), (0, 0, 11));
            assert_eq!(memory.step(Command { kind, ..Command::default() }), (Outcome::default(), 11));
        }
        assert_eq!(memory.readers, [Reader::default(); 3]);
    }

    /// The layout is seen where it stands, and both its bytes are.
    #[test]
    fn the_archive_reads_the_layout() {
        let mut memory = Memory::opened();
        for (layout, why) in [(PLAIN, 0), (FOLDED, 2), (2, 1), (256, 1), (257, 1), (u16::MAX, 1)] {
            let (Lent { format, bases, page, writer, readers, buffers }, _) = memory.lend();
            let format = &Format { layout, ..*format };
            assert_eq!(Lent { format, bases, page, writer, readers, buffers }.open(100, &RECORDS[..5]), why);
        }
    }

    /// A value that no steps could leave is seen in each field.
    #[test]
    fn the_archive_reads_these_fields() {
        let damages: [fn(&mut Memory); 11] = [
            |memory| memory.writer.count = 1,
            |memory| memory.writer.index = 1,
            |memory| memory.writer.steps = 1,
            |memory| memory.writer.version = 1,
            |memory| memory.writer.kind = 3,
            |memory| memory.readers[2].kind = 3,
            |memory| memory.readers[2].allowed = 1,
            |memory| memory.readers[2].finished = 1,
            |memory| memory.readers[2].choice = 1,
            |memory| memory.readers[2].steps = 1,
            |memory| memory.readers[2].digits[15] = 1,
        ];
        for damage in damages {
            let mut memory = Memory::opened();
            damage(&mut memory);
            assert_eq!(memory.run(&[4, 0]), (0, 0, 3));
        }
        assert_eq!(Memory::opened().run(&[4, 0]), (1, 0, 0));
    }

    #[test]
    fn a_run_tells_the_bytes_that_it_took() {
        let mut memory = Memory::opened();
        let commands = [4, 1, 6, 1, 6, 1, 2, 0, 2, 3, 6, 0, 3];
        let (mut lent, log) = memory.lend();
        assert_eq!(lent.run(RECORDS, &commands, log), (Answer { done: 5, written: 0, taken: 10 }, 7));
        assert_eq!(lent.run(RECORDS, &commands[..10], &mut []), (Answer::default(), 6));
    }

    /// Each field of a command is asked for by one kind, and each field of an outcome is told by another.
    #[test]
    fn steps_read_and_fill_these_fields() {
        let mut memory = Memory::opened();
        let nothing = (Outcome::default(), 0);
        let other = Command { kind: 0, reader: 9, attempts: 9, index: 9, count: 999 };
        let step = |memory: &mut Memory, reader| memory.step(Command { kind: 6, reader, ..other });

        assert_eq!(memory.step(Command { kind: 1, count: 300, ..other }), nothing);
        assert_eq!(memory.writer, Writer { count: 300, index: 0, steps: 0, version: 0, kind: 1 });
        for _ in 0..6 {
            assert_eq!(memory.step(Command { kind: 3, ..other }), nothing);
        }
        assert_eq!(memory.step(Command { kind: 2, index: 2, ..other }), nothing);
        assert_eq!(memory.writer, Writer { count: 0, index: 2, steps: 0, version: 1, kind: 2 });
        for _ in 0..9 {
            assert_eq!(memory.step(Command { kind: 3, ..other }), nothing);
        }

        assert_eq!(memory.step(Command { kind: 4, reader: 1, ..other }), nothing);
        for _ in 0..5 {
            assert_eq!(step(&mut memory, 1), nothing);
        }
        assert_eq!(step(&mut memory, 1), (Outcome { kind: 1, reader: 1, count: 300, ..Outcome::default() }, 0));
        // Equal copies do not tell the choice.
        assert_eq!(memory.step(Command { kind: 13, reader: 0, ..other }), nothing);
        assert_eq!(memory.readers[0], Reader { kind: 1, choice: HIGH, ..Reader::default() });
        for _ in 0..5 {
            assert_eq!(step(&mut memory, 0), nothing);
        }
        assert_eq!(step(&mut memory, 0), (Outcome { kind: 1, reader: 0, count: 300, ..Outcome::default() }, 0));

        assert_eq!(memory.step(Command { kind: 5, reader: 2, attempts: 3, ..other }), nothing);
        assert_eq!(memory.readers[2], Reader { kind: 2, allowed: 3, ..Reader::default() });
        for _ in 0..8 {
            assert_eq!(step(&mut memory, 2), nothing);
        }
        let accepted = Outcome { kind: 2, reader: 2, attempts: 1, version: 1, ..Outcome::default() };
        assert_eq!(step(&mut memory, 2), (accepted, 0));
        assert_eq!(memory.buffers[10..], RECORDS[10..]);

        // v2 is read before the next write begins, v1 after its first digit.
        assert_eq!(memory.step(Command { kind: 5, reader: 2, attempts: 1, ..other }), nothing);
        for _ in 0..2 {
            assert_eq!(step(&mut memory, 2), nothing);
        }
        assert_eq!(memory.step(Command { kind: 2, index: 0, ..other }), nothing);
        for _ in 0..2 {
            assert_eq!(memory.step(Command { kind: 3, ..other }), nothing);
        }
        for _ in 0..6 {
            assert_eq!(step(&mut memory, 2), nothing);
        }
        let gave_up = Outcome { kind: 3, reader: 2, attempts: 1, ..Outcome::default() };
        assert_eq!(step(&mut memory, 2), (gave_up, 0));

        assert_eq!(memory.step(Command { kind: 4, reader: 0, ..other }), nothing);
        assert_eq!(memory.step(Command { kind: 7, reader: 0, ..other }), nothing);
        assert_eq!(memory.readers, [Reader::default(); 3]);
    }

    #[test]
    fn a_refused_step_tells_nothing() {
        let mut memory = Memory::opened();
        for (command, why) in [
            (Command { kind: 0, ..Command::default() }, 11),
            (Command { kind: 8, ..Command::default() }, 11),
            (Command { kind: 255, reader: 255, ..Command::default() }, 11),
            (Command { kind: 1, count: 504, ..Command::default() }, 4),
            (Command { kind: 1, count: 99, ..Command::default() }, 5),
            (Command { kind: 2, index: 3, ..Command::default() }, 8),
            (Command { kind: 3, ..Command::default() }, 7),
            (Command { kind: 4, reader: 3, ..Command::default() }, 8),
            (Command { kind: 5, reader: 0, ..Command::default() }, 8),
            (Command { kind: 6, reader: 255, ..Command::default() }, 8),
            (Command { kind: 7, reader: 2, ..Command::default() }, 7),
        ] {
            assert_eq!(memory.step(command), (Outcome::default(), why));
        }
        memory.readers[0].kind = 3;
        assert_eq!(memory.step(Command { kind: 9, ..Command::default() }), (Outcome::default(), 3));
    }

    /// Each field has bytes of its own.
    #[test]
    fn packs_all_fields() {
        let digits = core::array::from_fn(|i| 20 + i as u8);
        let first = Reader { kind: 1, allowed: 2, finished: 3, choice: 4, steps: 0x0506_0708_090a_0b0c, digits };
        let readers = [first, Reader { kind: 9, ..first }];
        let mut bytes = [0xee; 2 * PACKED];
        assert_eq!(pack(&readers, &mut bytes), 0);
        assert_eq!(bytes[..12], [1, 2, 3, 4, 5, 6, 7, 8, 9, 10, 11, 12]);
        assert_eq!(bytes[12..PACKED], digits);
        assert_eq!((bytes[PACKED], &bytes[PACKED + 1..]), (9, &bytes[1..PACKED]));
        let mut back = [Reader::default(); 2];
        assert_eq!(unpack(&mut back, &bytes), 0);
        assert_eq!(back, readers);
        for length in [0, PACKED, 2 * PACKED - 1] {
            let mut bytes = [0xee; 2 * PACKED];
            assert_eq!(pack(&readers, &mut bytes[..length]), 2);
            assert_eq!(bytes, [0xee; 2 * PACKED]);
            assert_eq!(unpack(&mut back, &bytes[..length]), 2);
            assert_eq!(back, readers);
        }
        assert_eq!((pack(&[], &mut []), unpack(&mut [], &[])), (0, 0));
        assert_eq!((pack(&[], &mut [1]), unpack(&mut [], &[1])), (2, 2));
    }
}
