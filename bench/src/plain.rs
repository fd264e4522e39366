//! Document 01 in plain Rust, with both ends told where the copies of a count part, the choice between them, and folded
//! pages, over the same lent memory as the proved archive: the baseline of the bench, and the other side of the fuzz
//! program. It is written from documents 01 and 02 to be fast: a run checks its memory once, digits eight at a time,
//! and after that a command costs a look at its kind and one byte moved. What depends on the layout is compiled for
//! each: SHARED is how many digits the copies of the count share.
use lagumtay::raw::{Answer, Command, Format, Lent, Outcome, Reader, Writer};
use lagumtay::raw::{FOLDED, HIGH, LONGEST_ENTRY, LOW, PACKED, PLAIN};
use lagumtay::Refusal::{self, *};

// Kinds of a state, the writer's and a reader's.
const IDLE: u8 = 0;
const COUNT: u8 = 1;
const RECORD: u8 = 2;

pub type Ending = Result<(), Refusal>;

/// Document 01's number of an ending: 0 if nothing was refused.
#[inline]
pub fn number(ending: Ending) -> u8 {
    ending.map_or_else(|why| why as u8, |()| 0)
}

/// The opening. A refused one changes nothing.
pub fn open(lent: &mut Lent, count: u64, record: &[u8]) -> Ending {
    match lent.format.layout {
        PLAIN => open_sharing::<0>(lent, count, record),
        FOLDED => open_sharing::<1>(lent, count, record),
        _ => Err(BadFormat),
    }
}

fn open_sharing<const SHARED: usize>(lent: &mut Lent, count: u64, record: &[u8]) -> Ending {
    let Lent { format, bases, .. } = *lent;
    let counts = good_places(format, bases)?;
    check_lengths::<SHARED>(lent)?;
    ensure(record.len() == format.n, WrongLength)?;
    let digits = counts.digits(count).ok_or(CountTooLarge)?.to_be_bytes();
    let (m, own) = (bases.len(), bases.len() - SHARED);
    let (c1, rest) = lent.page.split_at_mut(m);
    let (c2, rest) = rest.split_at_mut(own);
    let (v1, rest) = rest.split_at_mut(format.q);
    let (content, v2) = rest.split_at_mut(format.n);
    c1.copy_from_slice(&digits[..m]);
    c2.copy_from_slice(&digits[..own]);
    v1.fill(0);
    content.copy_from_slice(record);
    v2.fill(0);
    *lent.writer = Writer::default();
    lent.readers.fill(Reader::default());
    lent.buffers.fill(0);
    Ok(())
}

/// A run: refusals 1 to 3 once at its start, then the commands in order up to the first that is refused.
#[inline]
pub fn run(lent: &mut Lent, records: &[u8], commands: &[u8], log: &mut [u8]) -> (Answer, Ending) {
    match lent.format.layout {
        PLAIN => run_sharing::<0>(lent, records, commands, log),
        FOLDED => run_sharing::<1>(lent, records, commands, log),
        _ => (Answer::default(), Err(BadFormat)),
    }
}

#[inline(never)] // the archive's run cannot be inlined either
fn run_sharing<const SHARED: usize>(
    lent: &mut Lent,
    records: &[u8],
    commands: &[u8],
    log: &mut [u8],
) -> (Answer, Ending) {
    let most = match check::<SHARED>(lent, records) {
        Ok(most) => most,
        Err(why) => return (Answer::default(), Err(why)),
    };
    let mut log = Log { bytes: log, written: 0 };
    let (done, left, ending) = Machine::<SHARED>::new(lent, records, most).commands(commands, &mut log);
    (Answer { done, written: log.written, taken: commands.len() - left }, ending)
}

/// One command, told at once: there is no log that could be full.
#[inline]
pub fn step(lent: &mut Lent, records: &[u8], command: &Command) -> (Outcome, Ending) {
    match lent.format.layout {
        PLAIN => step_sharing::<0>(lent, records, command),
        FOLDED => step_sharing::<1>(lent, records, command),
        _ => (Outcome::default(), Err(BadFormat)),
    }
}

#[inline(never)]
fn step_sharing<const SHARED: usize>(lent: &mut Lent, records: &[u8], command: &Command) -> (Outcome, Ending) {
    let mut outcome = Outcome::default();
    let ending = check::<SHARED>(lent, records)
        .and_then(|most| Machine::<SHARED>::new(lent, records, most).command(command, &mut outcome));
    (outcome, ending)
}

/// The run of one command that cancels this reader's read.
pub fn cancel(lent: &mut Lent, records: &[u8], who: u8) -> Ending {
    match lent.format.layout {
        PLAIN => cancel_sharing::<0>(lent, records, who),
        FOLDED => cancel_sharing::<1>(lent, records, who),
        _ => Err(BadFormat),
    }
}

fn cancel_sharing<const SHARED: usize>(lent: &mut Lent, records: &[u8], who: u8) -> Ending {
    let most = check::<SHARED>(lent, records)?;
    Machine::<SHARED>::new(lent, records, most).cancel(who)
}

/// The command that these bytes are, of those that a step is told; kind 0 if they are none.
pub fn command_of(bytes: &[u8]) -> Command {
    let none = Command::default();
    match *bytes {
        [1, ref count @ ..] => match count.try_into() {
            Ok(count) => Command { kind: 1, count: u64::from_be_bytes(count), ..none },
            Err(_) => none,
        },
        [2, high, low] => Command { kind: 2, index: u16::from_be_bytes([high, low]), ..none },
        [3] => Command { kind: 3, ..none },
        [kind @ (4 | 6 | 7 | 13), reader] => Command { kind, reader, ..none },
        [5, reader, attempts] => Command { kind: 5, reader, attempts, ..none },
        _ => none,
    }
}

/// Readers' states into bytes: kind, allowed, finished, choice, steps with the high byte first, digits.
pub fn pack(readers: &[Reader], bytes: &mut [u8]) -> Ending {
    ensure(bytes.len() == PACKED * readers.len(), WrongLength)?;
    for (state, reader) in bytes.chunks_exact_mut(PACKED).zip(readers) {
        state[..4].copy_from_slice(&[reader.kind, reader.allowed, reader.finished, reader.choice]);
        state[4..12].copy_from_slice(&reader.steps.to_be_bytes());
        state[12..].copy_from_slice(&reader.digits);
    }
    Ok(())
}

/// Readers' states out of bytes.
pub fn unpack(readers: &mut [Reader], bytes: &[u8]) -> Ending {
    ensure(bytes.len() == PACKED * readers.len(), WrongLength)?;
    for (reader, state) in readers.iter_mut().zip(bytes.chunks_exact(PACKED)) {
        let (mut steps, mut digits) = ([0; 8], [0; 16]);
        steps.copy_from_slice(&state[4..12]);
        digits.copy_from_slice(&state[12..]);
        let [kind, allowed, finished, choice] = [state[0], state[1], state[2], state[3]];
        *reader = Reader { kind, allowed, finished, choice, steps: usize::from_be_bytes(steps), digits };
    }
    Ok(())
}

fn ensure(condition: bool, otherwise: Refusal) -> Ending {
    if condition {
        Ok(())
    } else {
        Err(otherwise)
    }
}

// DIGITS, EIGHT AT ONCE: in one number, the leftmost digit in the highest byte, zeros past the last. So they compare as
// their values do.

/// A base of a place.
fn good_base(base: u16) -> bool {
    (2..=256).contains(&base)
}

/// All bits of so many places.
pub(crate) fn high(places: usize) -> u64 {
    if places < 8 {
        !(u64::MAX >> (8 * places))
    } else {
        u64::MAX
    }
}

/// Is each digit at most the other's?
pub(crate) fn within(digits: u64, most: u64) -> bool {
    // Exactly then the subtraction of all at once takes nothing from a byte for the one below it.
    let (difference, taken) = most.overflowing_sub(digits);
    !taken & ((difference ^ most ^ digits) & 0x0101_0101_0101_0100 == 0)
}

/// The digits of up to eight places.
fn packed(digits: &[u8]) -> u64 {
    match digits.try_into() {
        Ok(eight) => u64::from_be_bytes(eight),
        Err(_) => digits.iter().rev().fold(0, |x, &digit| x >> 8 | u64::from(digit) << 56),
    }
}

/// The largest digits of a version.
fn top_version(base: u16, q: usize) -> u64 {
    (u64::from(base - 1) * 0x0101_0101_0101_0101) & high(q)
}

/// The places of a count or of a version: their bases, and the largest digits.
#[derive(Clone, Copy)]
pub(crate) struct Radix<'a> {
    pub bases: &'a [u16],
    pub most: u64,
}

impl<'a> Radix<'a> {
    /// Places of these bases, of which there are 1 to 8, if they are good.
    #[inline(always)]
    pub fn new(bases: &'a [u16]) -> Option<Radix<'a>> {
        let mut most = 0;
        for &base in bases {
            if !good_base(base) {
                return None;
            }
            most = most << 8 | u64::from(base - 1);
        }
        Some(Radix { bases, most: most << (64 - 8 * bases.len()) })
    }

    /// Versions of q places.
    fn versions(base: &'a [u16; 4], q: usize) -> Radix<'a> {
        Radix { bases: &base[..q], most: top_version(base[0], q) }
    }

    /// Are all bases 256, so that the digits are the number's bytes?
    pub fn bytewise(self) -> bool {
        self.most == high(self.bases.len())
    }

    /// The bits past the last place.
    fn spare(self) -> usize {
        64 - 8 * self.bases.len()
    }

    /// Is each digit at the front of these bytes below its base? So many of the last places are not there.
    #[inline(always)]
    pub fn valid(self, bytes: &[u8], missing: usize) -> bool {
        let there = |digits: u64| digits >> self.spare() >> (8 * missing);
        match bytes.first_chunk() {
            Some(&eight) => within(there(u64::from_be_bytes(eight)), there(self.most)),
            None => {
                let bases = &self.bases[..self.bases.len() - missing];
                bytes.iter().zip(bases).all(|(&digit, &base)| u16::from(digit) < base)
            }
        }
    }

    /// Is the number below the product of the bases? If that overflows, every number is.
    fn fits(self, number: u64) -> bool {
        if self.bytewise() {
            return number << self.spare() >> self.spare() == number;
        }
        let product = self.bases.iter().try_fold(1u64, |x, &base| x.checked_mul(base.into()));
        product.is_none_or(|product| number < product)
    }

    /// The digits of a number, if it fits.
    fn digits(self, number: u64) -> Option<u64> {
        if self.bytewise() {
            return self.fits(number).then_some(number << self.spare());
        }
        let (digits, rest) = self.bases.iter().rev().fold((0, number), |(digits, x), &base| {
            let base = u64::from(base);
            (digits >> 8 | (x % base) << 56, x / base)
        });
        (rest == 0).then_some(digits)
    }

    pub fn value(self, digits: u64) -> u64 {
        if self.bytewise() {
            return digits >> self.spare();
        }
        let digits = digits.to_be_bytes();
        self.bases.iter().zip(digits).fold(0, |x, (&base, digit)| x * u64::from(base) + u64::from(digit))
    }
}

// THE CHECKS AT THE START OF A CALL

/// All that refusals 1 to 3 ask of a run but for the layout; gives the largest digits of a count.
#[inline(never)] // so that it has all registers, and the commands have
fn check<const SHARED: usize>(lent: &Lent, records: &[u8]) -> Result<u64, Refusal> {
    let Lent { format, bases, .. } = *lent;
    let counts = good_places(format, bases)?;
    check_lengths::<SHARED>(lent)?;
    let Format { q, base, n, .. } = *format;
    ensure(records.len().is_multiple_of(n), WrongLength)?;
    let (m, all) = (bases.len(), 2 * bases.len() - SHARED);
    let page = &*lent.page;
    ensure(counts.valid(page, 0) && counts.valid(&page[m..], SHARED), InvalidState)?;
    let below = |digits: &[u8]| digits.iter().all(|&digit| u16::from(digit) < base);
    ensure(below(&page[all..][..q]) && below(&page[all + q + n..]), InvalidState)?;
    let w = &*lent.writer;
    let valid_writer = match u8::try_from(w.kind) {
        Ok(IDLE) => *w == Writer::default(),
        Ok(COUNT) => w.index == 0 && w.version == 0 && w.steps < all && counts.fits(w.count),
        Ok(RECORD) => {
            w.count == 0
                && w.steps < 2 * q + n
                && w.version != 0
                && u64::from(w.version) < u64::from(base).pow(q as u32)
                && w.index.checked_mul(n).is_some_and(|at| at < records.len())
        }
        _ => false,
    };
    ensure(valid_writer, InvalidState)?;
    let in_c2 = if SHARED == 0 { counts.most } else { counts.most & high(m - SHARED) };
    let versions = top_version(base, q);
    for r in lent.readers.iter() {
        let valid_reader = match r.kind {
            IDLE => *r == Reader::default(),
            COUNT => {
                r.allowed == 0 && r.finished == 0 && r.choice <= HIGH && valid_gathered(r, [counts.most, in_c2], all)
            }
            RECORD => r.finished < r.allowed && r.choice == 0 && valid_gathered(r, [versions; 2], 2 * q + n),
            _ => false,
        };
        ensure(valid_reader, InvalidState)?;
    }
    Ok(counts.most)
}

pub fn check_format(format: &Format, bases: &[u16]) -> Ending {
    ensure(format.layout <= FOLDED, BadFormat)?;
    good_places(format, bases).map(|_| ())
}

/// The places of a count, if the format is good. Its layout is not looked at.
#[inline(always)]
fn good_places<'a>(format: &Format, bases: &'a [u16]) -> Result<Radix<'a>, Refusal> {
    let good = (1..=8).contains(&bases.len())
        && (1..=4).contains(&format.q)
        && good_base(format.base)
        && (1..=256).contains(&format.n)
        && (1..=16).contains(&format.readers);
    ensure(good, BadFormat)?;
    Radix::new(bases).ok_or(BadFormat)
}

/// On a page come c1 with all its digits, a shared one last, then those of c2 that are its own, then version and record.
#[inline(always)]
fn check_lengths<const SHARED: usize>(lent: &Lent) -> Ending {
    let Format { q, n, readers, .. } = *lent.format;
    let good = lent.page.len() == 2 * lent.bases.len() - SHARED + 2 * q + n
        && lent.readers.len() == readers
        && lent.buffers.len() == readers * n;
    ensure(good, WrongLength)
}

/// Of all the steps that a count read or an attempt has, the first gather digits into the first half from the left, and
/// the last into the second half from the right. Are these at most the largest of each half, and all others zero?
#[inline(always)]
fn valid_gathered(reader: &Reader, [most, most_after]: [u64; 2], all: usize) -> bool {
    let (first, second) = halves(reader);
    reader.steps < all
        && within(first, most & high(reader.steps))
        && within(second, most_after & !high(all - reader.steps))
}

fn halves(reader: &Reader) -> (u64, u64) {
    let digits = u128::from_be_bytes(reader.digits);
    ((digits >> 64) as u64, digits as u64)
}

// ONE COMMAND AFTER ANOTHER

/// Who is told how a read ended. It is told before the step changes anything, so that a step refused here has changed
/// nothing.
trait Told {
    fn shown(&mut self, who: u8, count: u64) -> Ending;
    fn between(&mut self, who: u8, choice: u8, low: u64, high: u64) -> Ending;
    fn accepted(&mut self, who: u8, attempts: u8, version: u32) -> Ending;
    fn gave_up(&mut self, who: u8, attempts: u8) -> Ending;
}

impl Told for Outcome {
    fn shown(&mut self, reader: u8, count: u64) -> Ending {
        *self = Outcome { kind: 1, reader, count, ..Outcome::default() };
        Ok(())
    }

    fn between(&mut self, reader: u8, choice: u8, low: u64, high: u64) -> Ending {
        *self = Outcome { kind: 4, reader, choice, low, high, ..Outcome::default() };
        Ok(())
    }

    fn accepted(&mut self, reader: u8, attempts: u8, version: u32) -> Ending {
        *self = Outcome { kind: 2, reader, attempts, version, ..Outcome::default() };
        Ok(())
    }

    fn gave_up(&mut self, reader: u8, attempts: u8) -> Ending {
        *self = Outcome { kind: 3, reader, attempts, ..Outcome::default() };
        Ok(())
    }
}

struct Log<'a> {
    bytes: &'a mut [u8],
    written: usize,
}

impl Told for Log<'_> {
    fn shown(&mut self, who: u8, count: u64) -> Ending {
        let [a, b, c, d, e, f, g, h] = count.to_be_bytes();
        self.put([1, who, a, b, c, d, e, f, g, h])
    }

    /// The entry has both ends under either choice.
    fn between(&mut self, who: u8, _: u8, low: u64, high: u64) -> Ending {
        let mut entry = [0; LONGEST_ENTRY];
        entry[..2].copy_from_slice(&[4, who]);
        entry[2..10].copy_from_slice(&low.to_be_bytes());
        entry[10..].copy_from_slice(&high.to_be_bytes());
        self.put(entry)
    }

    fn accepted(&mut self, who: u8, attempts: u8, version: u32) -> Ending {
        let [a, b, c, d] = version.to_be_bytes();
        self.put([2, who, attempts, a, b, c, d])
    }

    fn gave_up(&mut self, who: u8, attempts: u8) -> Ending {
        self.put([3, who, attempts])
    }
}

impl Log<'_> {
    fn put<const N: usize>(&mut self, entry: [u8; N]) -> Ending {
        let room = self.bytes[self.written..].first_chunk_mut().ok_or(LogFull)?;
        *room = entry;
        self.written += N;
        Ok(())
    }
}

struct Machine<'a, const SHARED: usize> {
    counts: Radix<'a>,
    /// the base of a version's places
    base: u16,
    /// c1, and of c2 its own digits
    copies: &'a mut [u8],
    v1: &'a mut [u8],
    content: &'a mut [u8],
    v2: &'a mut [u8],
    writer: &'a mut Writer,
    readers: &'a mut [Reader],
    buffers: &'a mut [u8],
    records: &'a [u8],
    /// what a pending record write writes
    record: &'a [u8],
    /// the digits of the number that the pending write writes, from the first step in this run that needs them on
    digits: Option<u64>,
}

// All of it is put into one loop over the commands. What is long and seldom is called: it would take the loop's registers.
impl<'a, const SHARED: usize> Machine<'a, SHARED> {
    #[inline(always)]
    fn new(lent: &'a mut Lent, records: &'a [u8], most: u64) -> Machine<'a, SHARED> {
        let Lent { format, bases, page, writer, readers, buffers } = lent;
        let Format { q, base, n, .. } = **format;
        let (copies, rest) = page.split_at_mut(2 * bases.len() - SHARED);
        let (v1, rest) = rest.split_at_mut(q);
        let (content, v2) = rest.split_at_mut(n);
        let record = if writer.kind == RECORD.into() { &records[writer.index * n..][..n] } else { &[] };
        let counts = Radix { bases, most };
        Machine { counts, base, copies, v1, content, v2, writer, readers, buffers, records, record, digits: None }
    }

    /// The commands up to the first that is refused: how many were carried out, how many bytes are left, and the
    /// refusal.
    #[inline(always)]
    fn commands(mut self, commands: &[u8], log: &mut Log) -> (usize, usize, Ending) {
        let mut bytes = commands.iter();
        let mut done = 0;
        while let Some(&kind) = bytes.next() {
            // Almost all are steps: they are told apart first, by comparing.
            let (read, ending) = match kind {
                3 => (1, self.writer_step()),
                6 => match bytes.next() {
                    Some(&who) => (2, self.reader_step(who, log)),
                    None => (1, Err(UnknownCommand)),
                },
                _ => (1, self.no_step(kind, bytes.as_slice()).map(|rest| bytes = rest.iter())),
            };
            if ending.is_err() {
                return (done, read + bytes.len(), ending);
            }
            done += 1;
        }
        (done, 0, Ok(()))
    }

    /// One command that is no bytes.
    fn command(mut self, command: &Command, outcome: &mut Outcome) -> Ending {
        let Command { kind, reader, attempts, index, count } = *command;
        match kind {
            1 => self.begin_count_write(count),
            2 => self.begin_record_write(index.into()),
            3 => self.writer_step(),
            4 => self.begin_read(reader, COUNT, 0, LOW),
            5 => self.begin_record_read(reader, attempts),
            6 => self.reader_step(reader, outcome),
            7 => self.cancel(reader),
            13 => self.begin_read(reader, COUNT, 0, HIGH),
            _ => Err(UnknownCommand),
        }
    }

    /// A command that is no step, of this kind and with its body in front of these bytes; gives the bytes after it.
    #[inline(always)]
    fn no_step<'c>(&mut self, kind: u8, bytes: &'c [u8]) -> Result<&'c [u8], Refusal> {
        let rest = match (kind, bytes) {
            (1, [a, b, c, d, e, f, g, h, rest @ ..]) => {
                self.begin_count_write(u64::from_be_bytes([*a, *b, *c, *d, *e, *f, *g, *h]))?;
                rest
            }
            (2, [high, low, rest @ ..]) => {
                self.begin_record_write(u16::from_be_bytes([*high, *low]).into())?;
                rest
            }
            (4 | 13, [who, rest @ ..]) => {
                self.begin_read(*who, COUNT, 0, if kind == 4 { LOW } else { HIGH })?;
                rest
            }
            (5, [who, allowed, rest @ ..]) => {
                self.begin_record_read(*who, *allowed)?;
                rest
            }
            (7, [who, rest @ ..]) => {
                self.cancel(*who)?;
                rest
            }
            _ => return Err(UnknownCommand),
        };
        Ok(rest)
    }

    #[inline(always)]
    fn begin_count_write(&mut self, count: u64) -> Ending {
        ensure(self.writer.kind == IDLE.into(), Busy)?;
        self.digits = Some(next_count::<SHARED>(self.counts, self.copies, count)?);
        *self.writer = Writer { kind: COUNT.into(), count, ..Writer::default() };
        Ok(())
    }

    #[inline(always)]
    fn begin_record_write(&mut self, index: usize) -> Ending {
        let n = self.content.len();
        let record = self.records.get(index * n..(index + 1) * n).ok_or(NoSuch)?;
        ensure(self.writer.kind == IDLE.into(), Busy)?;
        let version = next_version(self.base, self.v1)?;
        self.record = record;
        self.digits = None;
        *self.writer = Writer { kind: RECORD.into(), version, index, ..Writer::default() };
        Ok(())
    }

    /// A digit that the pending write writes.
    #[inline(always)]
    fn digit(&mut self, place: usize) -> u8 {
        let make = || pending_digits(self.counts, self.base, self.v1.len(), self.writer);
        (*self.digits.get_or_insert_with(make) >> (56 - 8 * place)) as u8
    }

    #[inline(always)]
    fn writer_step(&mut self) -> Ending {
        let k = self.writer.steps;
        let left = match self.writer.kind as u8 {
            IDLE => return Err(NothingPending),
            COUNT => {
                // c2's own digits left to right, c1 right to left
                let m = self.counts.bases.len();
                let left = 2 * m - SHARED - 1 - k;
                let (to, place) = if k < m - SHARED { (m + k, k) } else { (left, left) };
                self.copies[to] = self.digit(place);
                left
            }
            _ => {
                // v1 left to right, the bytes ascending, v2 right to left
                let q = self.v1.len();
                let byte = k.wrapping_sub(q);
                if let Some(to) = self.content.get_mut(byte) {
                    *to = self.record[byte];
                    self.writer.steps = k + 1;
                    return Ok(());
                }
                let left = 2 * q + self.content.len() - 1 - k;
                if k < q {
                    self.v1[k] = self.digit(k);
                } else {
                    self.v2[left] = self.digit(left);
                }
                left
            }
        };
        self.writer.steps = k + 1;
        if left == 0 {
            *self.writer = Writer::default();
        }
        Ok(())
    }

    #[inline(always)]
    fn begin_record_read(&mut self, who: u8, allowed: u8) -> Ending {
        ensure(allowed != 0, NoSuch)?;
        self.begin_read(who, RECORD, allowed, 0)
    }

    #[inline(always)]
    fn begin_read(&mut self, who: u8, kind: u8, allowed: u8, choice: u8) -> Ending {
        let reader = self.readers.get_mut(usize::from(who)).ok_or(NoSuch)?;
        ensure(reader.kind == IDLE, Busy)?;
        *reader = Reader { kind, allowed, choice, ..Reader::default() };
        Ok(())
    }

    #[inline(always)]
    fn cancel(&mut self, who: u8) -> Ending {
        let reader = self.readers.get_mut(usize::from(who)).ok_or(NoSuch)?;
        ensure(reader.kind != IDLE, NothingPending)?;
        *reader = Reader::default();
        Ok(())
    }

    #[inline(always)]
    fn reader_step(&mut self, who: u8, told: &mut impl Told) -> Ending {
        let reader = self.readers.get_mut(usize::from(who)).ok_or(NoSuch)?;
        let k = reader.steps;
        match reader.kind {
            IDLE => return Err(NothingPending),
            COUNT => {
                // c1 left to right, c2's own digits right to left
                let m = self.counts.bases.len();
                let left = 2 * m - SHARED - 1 - k;
                if left == 0 {
                    // The first digit of c2. Of a single place that is shared there is no other than c1's.
                    let last = if SHARED == 0 { m } else { m.min(2 * m - SHARED - 1) };
                    return end_count_read::<SHARED>(self.counts, reader, self.copies[last], who, told);
                }
                let (from, to) = if k < m { (k, k) } else { (m + left, 8 + left) };
                reader.digits[to] = self.copies[from];
            }
            _ => {
                // v2 left to right, the bytes ascending into the buffer, v1 right to left
                let (q, n) = (self.v1.len(), self.content.len());
                let byte = k.wrapping_sub(q);
                if let Some(&from) = self.content.get(byte) {
                    self.buffers[usize::from(who) * n + byte] = from;
                } else if k < q {
                    reader.digits[k] = self.v2[k];
                } else {
                    let left = 2 * q + n - 1 - k;
                    if left == 0 {
                        let buffer = &mut self.buffers[usize::from(who) * n..][..n];
                        return end_attempt(self.base, self.v1, reader, buffer, who, told);
                    }
                    reader.digits[8 + left] = self.v1[left];
                }
            }
        }
        reader.steps = k + 1;
        Ok(())
    }
}

/// The digits of a count that may be written next to c1 and c2.
#[inline(never)]
fn next_count<const SHARED: usize>(counts: Radix, copies: &[u8], count: u64) -> Result<u64, Refusal> {
    let digits = counts.digits(count).ok_or(CountTooLarge)?;
    // The last m digits are c2; on a folded page the shared digit, its last, stands before its own.
    let last = packed(&copies[counts.bases.len() - SHARED..]);
    let c2 = if SHARED == 0 { last } else { last << 8 | last >> 56 << counts.spare() };
    ensure(digits >= c2, CountDecreases)?;
    Ok(digits)
}

/// The version to be written next to v1.
#[inline(never)]
fn next_version(base: u16, v1: &[u8]) -> Result<u32, Refusal> {
    let bases = [base; 4];
    let versions = Radix::versions(&bases, v1.len());
    let last = packed(v1);
    ensure(last != versions.most, VersionsExhausted)?;
    Ok(versions.value(last) as u32 + 1)
}

/// The digits of the number that the pending write writes.
#[inline(never)]
fn pending_digits(counts: Radix, base: u16, q: usize, writer: &Writer) -> u64 {
    let digits = match writer.kind as u8 {
        COUNT => counts.digits(writer.count),
        _ => Radix::versions(&[base; 4], q).digits(writer.version.into()),
    };
    digits.expect("the number of a pending write fits: the start of the run has checked it")
}

/// The last step of a count read, with the digit that it reads.
#[inline(never)]
fn end_count_read<const SHARED: usize>(
    counts: Radix,
    reader: &mut Reader,
    digit: u8,
    who: u8,
    told: &mut impl Told,
) -> Ending {
    let (mut a, mut b) = halves(reader);
    b |= u64::from(digit) << 56;
    if SHARED > 0 {
        // The shared digit was gathered as the last of a, or, if it is the only one, just now.
        let own = counts.bases.len() - SHARED;
        a = if own == 0 { b } else { a };
        b |= a & !high(own);
    }
    ensure(a <= b, CopiesCrossed)?;
    if a == b {
        told.shown(who, counts.value(a))?;
    } else {
        let (low, high) = ends(a, b, counts.most);
        told.between(who, reader.choice, counts.value(low), counts.value(high))?;
    }
    *reader = Reader::default();
    Ok(())
}

/// The ends of copies that part: each keeps its digits as far as the first that differs; the largest digits come after
/// it in the low end, zeros in the high end.
fn ends(a: u64, b: u64, most: u64) -> (u64, u64) {
    let agree = (a ^ b).leading_zeros() as usize / 8;
    let kept = high(agree + 1);
    (a & kept | most & !kept, b & kept)
}

/// The last step of an attempt at a record read, which reads the first digit of v1.
#[inline(never)]
fn end_attempt(base: u16, v1: &[u8], reader: &mut Reader, buffer: &mut [u8], who: u8, told: &mut impl Told) -> Ending {
    let (first, second) = halves(reader);
    let second = second | u64::from(v1[0]) << 56;
    let used = reader.finished + 1;
    if first == second {
        told.accepted(who, used, Radix::versions(&[base; 4], v1.len()).value(first) as u32)?;
        *reader = Reader::default();
    } else if used < reader.allowed {
        *reader = Reader { kind: RECORD, allowed: reader.allowed, finished: used, ..Reader::default() };
    } else {
        told.gave_up(who, used)?;
        *reader = Reader::default();
        buffer.fill(0); // no torn bytes stay behind
    }
    Ok(())
}
