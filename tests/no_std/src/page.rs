//! A page in static memory: a count that is read while it is written, and a record.
use core::ptr::addr_of_mut;

use lagumtay::raw::{Answer, Format, Lent, Reader, Writer, LONGEST_COMMAND, LONGEST_ENTRY, PLAIN};
use lagumtay::Command::*;
use lagumtay::{Choice, Command, Count, Entries, Entry, Refusal, Version};

use crate::check;

const N: usize = 8;
const RECORD: &[u8; N] = b"batch 17";

struct Memory {
    page: [u8; 4 + 2 + N],
    writer: Writer,
    readers: [Reader; 2],
    buffers: [u8; 2 * N],
}

const IDLE: Reader = Reader { kind: 0, allowed: 0, finished: 0, choice: 0, steps: 0, digits: [0; 16] };

static mut MEMORY: Memory = Memory {
    page: [0; 4 + 2 + N],
    writer: Writer { count: 0, index: 0, steps: 0, version: 0, kind: 0 },
    readers: [IDLE; 2],
    buffers: [0; 2 * N],
};

/// Carry out one command by its bytes; gives how a read ended, if it did.
fn run(lent: &mut Lent, command: Command) -> Result<Option<Entry>, Refusal> {
    let (mut bytes, mut log) = ([0; LONGEST_COMMAND], [0; LONGEST_ENTRY]);
    let Some(length) = command.put(&mut bytes) else { return Err(Refusal::UnknownCommand) };
    let (Answer { written, .. }, number) = lent.run(RECORD, &bytes[..length], &mut log);
    Refusal::from_number(number).map_or(Ok(Entries::new(&log[..written]).next()), Err)
}

/// The same many times; gives what the last one told.
fn repeat(lent: &mut Lent, command: Command, times: usize) -> Result<Option<Entry>, Refusal> {
    for _ in 1..times {
        run(lent, command)?;
    }
    run(lent, command)
}

/// Hours and minutes, records of 8 bytes, two readers.
pub fn counts_and_records() {
    // Sound: there is one thread, and this is called once.
    let memory = unsafe { &mut *addr_of_mut!(MEMORY) };
    let format = &Format { q: 1, base: 256, layout: PLAIN, n: N, readers: 2 };
    let Memory { page, writer, readers, buffers } = memory;
    let mut lent = Lent { format, bases: &[24, 60], page, writer, readers, buffers };
    check(1, lent.open(11 * 60 + 57, b"opening.") == 0);

    let begin = BeginCountRead { reader: 0, choice: Choice::High };
    check(2, run(&mut lent, begin) == Ok(None) && repeat(&mut lent, ReaderStep(0), 2) == Ok(None));
    check(3, run(&mut lent, WriteCount(Count(12 * 60 + 4))) == Ok(None));
    check(4, repeat(&mut lent, WriterStep, 4) == Ok(None));
    let Ok(Some(between)) = repeat(&mut lent, ReaderStep(0), 2) else { return check(5, false) };
    check(6, between == Entry::Between { reader: 0, low: Count(11 * 60 + 59), high: Count(12 * 60) });
    check(7, between.shown(Choice::High) == Some(Count(12 * 60)));

    check(8, run(&mut lent, WriteRecord(1)) == Err(Refusal::NoSuch));
    check(9, run(&mut lent, WriteRecord(0)) == Ok(None) && repeat(&mut lent, WriterStep, 2 + N) == Ok(None));
    check(10, run(&mut lent, BeginRecordRead { reader: 1, attempts: 1 }) == Ok(None));
    let accepted = repeat(&mut lent, ReaderStep(1), 2 + N);
    check(11, accepted == Ok(Some(Entry::Accepted { reader: 1, attempts: 1, version: Version(1) })));
    check(12, lent.buffers[N..] == *RECORD);
}
