//! What is left to a caller who owns the memory: room in the log, bytes that are no command, records that change, and a
//! buffer that the next read overwrites.
mod common;

use common::memory::Memory;
use common::{begin, begin_high, begin_record, format, steps};
use lagumtay::raw::{Answer, LONGEST_ENTRY};
use lagumtay::Command::*;
use lagumtay::{commands, Choice, Command, Count, Entries, Entry, Layout, Refusal, Version};

const NOTHING: Answer = Answer { done: 0, written: 0, taken: 0 };

fn opened(bases: &[u16], count: u64) -> Memory {
    Memory::open(&format(Layout::Plain, bases), count, b"aa").unwrap()
}

/// Carry out commands that are not refused; gives how reads ended.
#[track_caller]
fn go(memory: &mut Memory, records: &[u8], list: &[Command]) -> Vec<Entry> {
    let (bytes, mut log) = (commands(list.iter().copied()), vec![0; LONGEST_ENTRY * list.len()]);
    let (answer, why) = memory.run(records, &bytes, &mut log);
    assert_eq!((answer.done, answer.taken, why), (list.len(), bytes.len(), None));
    Entries::new(&log[..answer.written]).collect()
}

#[test]
fn a_log_without_room_for_both_ends_is_refused() {
    let mut memory = opened(&[24, 60], 11 * 60 + 57);
    go(&mut memory, b"", &[vec![begin_high(1)], steps(ReaderStep(1), 2)].concat());
    go(&mut memory, b"", &[vec![WriteCount(Count(12 * 60 + 4))], steps(WriterStep, 4)].concat());
    go(&mut memory, b"", &[ReaderStep(1)]);
    let before = memory.clone();
    for room in 0..18 {
        let mut log = vec![0xee; room];
        assert_eq!(memory.run(b"", &[6, 1], &mut log), (NOTHING, Some(Refusal::LogFull)), "{room}");
        assert_eq!((&memory, log), (&before, vec![0xee; room]));
    }
    let mut log = [0; 18];
    assert_eq!(memory.run(b"", &[6, 1], &mut log), (Answer { done: 1, written: 18, taken: 2 }, None));
    let between = Entry::Between { reader: 1, low: Count(11 * 60 + 59), high: Count(12 * 60) };
    assert_eq!(Entries::new(&log).collect::<Vec<_>>(), [between]);
    assert_eq!(between.shown(Choice::High), Some(Count(12 * 60)));
    assert_eq!(memory.step(b"", ReaderStep(1).raw()).1, Some(Refusal::NothingPending));
}

/// A run goes on where a full log ended it.
#[test]
fn goes_on_with_another_log() {
    let mut memory = opened(&[10], 4);
    let read = [begin(0), ReaderStep(0), ReaderStep(0)];
    let bytes = commands([read, read, read].concat());
    let (mut taken, mut entries, mut runs) = (0, Vec::new(), 0);
    loop {
        let mut log = [0; LONGEST_ENTRY];
        let (answer, why) = memory.run(b"", &bytes[taken..], &mut log);
        entries.extend(Entries::new(&log[..answer.written]));
        taken += answer.taken;
        runs += 1;
        if why.is_none() {
            break;
        }
        assert_eq!(why, Some(Refusal::LogFull));
    }
    assert_eq!((taken, runs), (bytes.len(), 3));
    assert_eq!(entries, [Entry::Shown { reader: 0, count: Count(4) }; 3]);
}

#[test]
fn refuses_bytes_that_are_no_command() {
    let mut memory = opened(&[10], 4);
    let before = memory.clone();
    let unknown = [&[0][..], &[8, 0], &[9], &[10, 0], &[11], &[12, 0], &[14, 0], &[255]];
    let cut = [&[1, 0, 0, 0, 0, 0, 0, 0][..], &[2, 0], &[4], &[5, 0], &[6], &[7], &[13]];
    for bytes in unknown.iter().chain(&cut) {
        assert_eq!(memory.run(b"bb", bytes, &mut []), (NOTHING, Some(Refusal::UnknownCommand)), "{bytes:?}");
    }
    assert_eq!(memory, before);
}

#[test]
fn refuses_records_that_do_not_fit() {
    let mut memory = opened(&[10], 4);
    assert_eq!(memory.run(b"bbc", &[], &mut []), (NOTHING, Some(Refusal::WrongLength)));
    assert_eq!(memory.step(b"bbc", begin(0).raw()).1, Some(Refusal::WrongLength));
    go(&mut memory, b"bbcc", &[WriteRecord(1), WriterStep, begin(0)]);
    let before = memory.clone();
    // The pending write needs its record: without it the state is one that no steps could hold.
    assert_eq!(memory.run(b"bb", &[], &mut []), (NOTHING, Some(Refusal::InvalidState)));
    assert_eq!(memory.step(b"bb", WriterStep.raw()).1, Some(Refusal::InvalidState));
    assert_eq!(memory.cancel(b"bb", 0), Some(Refusal::InvalidState));
    assert_eq!(memory, before);
    assert_eq!(memory.cancel(b"bbcc", 0), None);
}

/// What reader 0 accepts of record 1, if these records are lent to the write's first two steps, those to its last two
/// and to the read.
fn accepted(first: &[u8], rest: &[u8]) -> Vec<u8> {
    let mut memory = opened(&[10], 4);
    go(&mut memory, first, &[vec![WriteRecord(1)], steps(WriterStep, 2)].concat());
    assert_eq!((memory.writer.kind, memory.writer.index), (2, 1));
    let read = [vec![begin_record(0, 1)], steps(ReaderStep(0), 4)].concat();
    let entries = go(&mut memory, rest, &[steps(WriterStep, 2), read].concat());
    assert_eq!(entries, [Entry::Accepted { reader: 0, attempts: 1, version: Version(1) }]);
    assert_eq!(memory.writer.kind, 0);
    memory.buffer(0).to_vec()
}

#[test]
fn takes_new_records_beside_a_pending_one() {
    assert_eq!(accepted(b"bbcd", b"bbcd"), b"cd");
    assert_eq!(accepted(b"bbcd", b"xxcdyy"), b"cd");
    // What the promise excludes: the pending record itself was changed.
    assert_eq!(accepted(b"bbcd", b"bbxy"), b"cy");
}

/// Why a record is taken before its reader steps again: two accepted reads in one run, and one buffer.
#[test]
fn the_next_read_overwrites_the_buffer() {
    let mut memory = opened(&[10], 4);
    let read = [vec![begin_record(0, 1)], steps(ReaderStep(0), 4)].concat();
    let write = [vec![WriteRecord(0)], steps(WriterStep, 4)].concat();
    let entries = go(&mut memory, b"bb", &[&read[..], &write, &read[..3]].concat());
    assert_eq!(entries, [Entry::Accepted { reader: 0, attempts: 1, version: Version(0) }]);
    assert_eq!(memory.buffer(0), b"ba");
}
