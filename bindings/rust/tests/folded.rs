//! Folded pages against document 02: the digit that each step moves, the refusals that a shared digit decides, and the
//! recorded schedules of `reference/data/folded.txt`.
mod common;

use std::fs;
use std::path::Path;

use common::memory::Memory;
use common::{accepted, begin, begin_record, go, steps};
use lagumtay::raw::{LONGEST_ENTRY, PACKED};
use lagumtay::Command::*;
use lagumtay::{Choice, Command, Count, Entries, Entry, Format, Layout, Outcome, Page, Reading, Refusal, Stopped};

fn format(bases: &[u16]) -> Format {
    common::format(Layout::Folded, bases)
}

fn opened(bases: &[u16], count: u64) -> Page {
    common::opened(Layout::Folded, bases, count)
}

fn write(page: &mut Page, count: u64) {
    let all = page.format().count_steps();
    assert_eq!(go(page, &[vec![WriteCount(Count(count))], steps(WriterStep, all)].concat()), []);
}

fn read(page: &mut Page) -> Vec<Outcome> {
    let all = page.format().count_steps();
    go(page, &[vec![begin(0)], steps(ReaderStep(0), all)].concat())
}

fn shown(count: u64) -> Vec<Outcome> {
    vec![common::shown(0, count)]
}

fn between(low: u64, high: u64) -> Vec<Outcome> {
    vec![common::between(0, low, high, Choice::Low)]
}

#[test]
fn has_a_digit_fewer() {
    assert_eq!(opened(&[10], 7).bytes(), [7, 0, b'a', b'a', 0]);
    assert_eq!(opened(&[24, 60], 11 * 60 + 57).bytes(), [11, 57, 11, 0, b'a', b'a', 0]);
    assert_eq!(opened(&[10, 10, 10], 123).bytes(), [1, 2, 3, 1, 2, 0, b'a', b'a', 0]);
    let widest = opened(&[256; 8], u64::MAX - 1);
    assert_eq!(widest.bytes().len(), 15 + 4);
    assert_eq!(widest.bytes()[..15], [255, 255, 255, 255, 255, 255, 255, 254, 255, 255, 255, 255, 255, 255, 255]);
    for m in 1..=8 {
        assert_eq!(format(&vec![2; m]).count_steps(), 2 * m - 1);
        assert_eq!(Format { layout: Layout::Plain, ..format(&vec![2; m]) }.count_steps(), 2 * m);
    }
    assert_eq!(Format { q: 4, n: 256, ..format(&[2]) }.record_steps(), 264);
    assert_eq!(Format { q: usize::MAX, n: usize::MAX, ..format(&[2]) }.record_steps(), usize::MAX);
    assert_eq!([Layout::Plain as u16, Layout::Folded as u16], [0, 1]);
}

#[test]
fn refuses_openings() {
    let open = |format, count, record: &[u8]| Page::open(format, Count(count), record).err();
    assert_eq!(open(format(&[]), 0, b"aa"), Some(Refusal::BadFormat));
    assert_eq!(open(format(&[2; 9]), 0, b"aa"), Some(Refusal::BadFormat));
    assert_eq!(open(Format { n: 257, ..format(&[10]) }, 0, b"aa"), Some(Refusal::BadFormat));
    assert_eq!(open(format(&[10]), 0, b"a"), Some(Refusal::WrongLength));
    assert_eq!(open(format(&[10]), 10, b"aa"), Some(Refusal::CountTooLarge));
    assert_eq!(open(format(&[24, 60]), 24 * 60, b"aa"), Some(Refusal::CountTooLarge));
}

/// 11:57 becomes 12:04: c2's own digit, the shared one, c1's own. The read goes the other way.
#[test]
fn moves_one_digit_a_step() {
    let mut page = opened(&[24, 60], 11 * 60 + 57);
    go(&mut page, &[WriteCount(Count(12 * 60 + 4))]);
    for digits in [[11, 57, 12], [11, 4, 12], [12, 4, 12]] {
        assert_eq!(page.step(WriterStep), Ok(Outcome::Nothing));
        assert_eq!(page.bytes()[..3], digits);
        assert_eq!(page.bytes()[3..], [0, b'a', b'a', 0]);
    }
    assert_eq!(page.step(WriterStep), Err(Refusal::NothingPending));
    go(&mut page, &[begin(0)]);
    for (steps, a, b) in [(1, [12, 0], [0, 0]), (2, [12, 4], [0, 0])] {
        assert_eq!(page.step(ReaderStep(0)), Ok(Outcome::Nothing));
        let saved = page.save();
        // The states of two readers, then two buffers and two records of two bytes. A state has four bytes, then eight
        // of steps, then sixteen digits.
        let state = &saved[saved.len() - 8 - 2 * PACKED..];
        assert_eq!((state[11], &state[12..14], &state[20..22]), (steps, &a[..], &b[..]));
    }
    assert_eq!(page.step(ReaderStep(0)), Ok(common::shown(0, 12 * 60 + 4)));
    assert_eq!(page.step(ReaderStep(0)), Err(Refusal::NothingPending));
}

#[test]
fn one_place_is_never_between() {
    let mut page = opened(&[10], 4);
    assert_eq!(read(&mut page), shown(4));
    // Announced, and not yet written; then written.
    assert_eq!(go(&mut page, &[begin(0), WriteCount(Count(7)), ReaderStep(0)]), shown(4));
    assert_eq!(go(&mut page, &[begin(0), WriterStep, ReaderStep(0)]), shown(7));
    assert_eq!(page.step(WriteCount(Count(6))), Err(Refusal::CountDecreases));
    write(&mut page, 7);
    assert_eq!(read(&mut page), shown(7));
}

/// A read that took this many steps meets a whole write.
fn met(bases: &[u16], opening: u64, written: u64, taken: usize) -> Vec<Outcome> {
    let mut page = opened(bases, opening);
    go(&mut page, &[vec![begin(0)], steps(ReaderStep(0), taken)].concat());
    write(&mut page, written);
    let left = page.format().count_steps() - taken;
    go(&mut page, &steps(ReaderStep(0), left))
}

/// Where the shared digit alone changes, the copies never part; where another does, they may at any step.
#[test]
fn two_places_part_in_the_first_alone() {
    let old = 11 * 60 + 57;
    assert_eq!([0, 1].map(|taken| met(&[24, 60], old, old + 2, taken)), [(); 2].map(|()| shown(old + 2)));
    assert_eq!(met(&[24, 60], old, old + 2, 2), shown(old));
    assert_eq!(met(&[24, 60], old, 12 * 60 + 4, 0), shown(12 * 60 + 4));
    assert_eq!([1, 2].map(|taken| met(&[24, 60], old, 12 * 60 + 4, taken)), [(); 2].map(|()| between(719, 720)));
    // A write that is at c2's own digit is seen there, and not in c1.
    let mut page = opened(&[24, 60], old);
    go(&mut page, &[WriteCount(Count(12 * 60 + 4)), WriterStep]);
    assert_eq!(read(&mut page), between(719, 720));
    assert_eq!(page.bytes()[..3], [11, 57, 12]);
}

/// 11:57 half turned into 12:04: both choices meet the same copies, and show another end of them.
#[test]
fn shows_the_chosen_end() {
    let mut page = opened(&[24, 60], 11 * 60 + 57);
    for (choice, end) in [(Choice::Low, 719), (Choice::High, 720)] {
        go(&mut page, &[vec![BeginCountRead { reader: 0, choice }], steps(ReaderStep(0), 2)].concat());
        assert_eq!(page.reader(0), Some(Reading::Count { choice, steps: 2 }));
        if choice == Choice::Low {
            go(&mut page, &[WriteCount(Count(12 * 60 + 4)), WriterStep]);
        }
        let outcome = common::between(0, 719, 720, choice);
        assert_eq!(outcome.shown(), Some(Count(end)));
        assert_eq!(page.clone().step(ReaderStep(0)), Ok(outcome.clone()));
        assert_eq!(go(&mut page, &[ReaderStep(0)]), [outcome]);
        assert_eq!(page.reader(0), Some(Reading::Idle));
    }
}

#[test]
fn eight_places_up_to_the_largest_count() {
    let mut page = opened(&[256; 8], 0);
    write(&mut page, u64::MAX);
    assert_eq!(page.bytes()[..15], [255; 15]);
    assert_eq!(read(&mut page), shown(u64::MAX));
    assert_eq!(page.step(WriteCount(Count(u64::MAX - 1))), Err(Refusal::CountDecreases));
    // Of a read that has the first copy: all of its own digits are from before, and so is the shared one.
    assert_eq!(met(&[256; 8], 0, u64::MAX, 8), between((1 << 56) - 1, 255 << 56));
    assert_eq!(met(&[256; 8], u64::MAX - 1, u64::MAX, 7), shown(u64::MAX));
    assert_eq!(met(&[256; 8], u64::MAX - 1, u64::MAX, 8), shown(u64::MAX - 1));
    assert_eq!(met(&[256; 8], 255, 256, 8), between(255, 256));
}

/// c2 is its own digits and the shared one: in each of these the shared digit decides.
#[test]
fn a_shared_digit_tells_what_goes_back() {
    for (bases, count) in [(&[10][..], 4), (&[24, 60], 11 * 60 + 57), (&[10, 10, 10], 123), (&[256; 8], u64::MAX)] {
        let mut page = opened(bases, count);
        let before = page.clone();
        assert_eq!(page.step(WriteCount(Count(count - 1))), Err(Refusal::CountDecreases));
        assert_eq!(page, before);
        assert_eq!(page.step(WriteCount(Count(count))), Ok(Outcome::Nothing));
    }
}

/// A state with a digit at the last place of b, or with all steps taken; and one with a third choice, which none has.
#[test]
fn refuses_states_of_a_plain_page() {
    for m in [1, 2, 8] {
        let mut page = opened(&vec![10; m], 5);
        go(&mut page, &[vec![begin(1)], steps(ReaderStep(1), 2 * m - 2)].concat());
        let saved = page.save();
        // The second reader's state is followed by two buffers and two records of two bytes.
        let state = saved.len() - 8 - PACKED;
        for (at, byte) in [(12 + 8 + m - 1, 1), (11, 2 * m as u8 - 1), (3, 2)] {
            let mut wrong = saved.clone();
            wrong[state + at] = byte;
            assert_eq!(Page::restore(&wrong), Err(Refusal::InvalidState), "m = {m}, byte {at}");
        }
        let mut page = Page::restore(&saved).unwrap();
        assert_eq!(page.step(ReaderStep(1)), Ok(common::shown(1, 5)));
    }
}

#[test]
fn records_stand_behind_the_shorter_count() {
    let mut page = opened(&[10, 10], 42);
    let write = [vec![WriteRecord(1)], steps(WriterStep, 4)].concat();
    let read = [vec![begin_record(0, 1)], steps(ReaderStep(0), 4)].concat();
    assert_eq!(go(&mut page, &[write, read].concat()), [accepted(0, 1, 1, b"cc")]);
    assert_eq!(page.bytes(), [4, 2, 4, 1, b'c', b'c', 1]);
    assert_eq!(page.buffer(0), Some(&b"cc"[..]));
}

// THE RECORDED SCHEDULES: reference/README.md says how they are written.

fn bytes(hex: &str) -> Vec<u8> {
    let byte = |i| u8::from_str_radix(&hex[i..i + 2], 16).expect("two hexadecimal digits");
    (0..hex.len()).step_by(2).map(byte).collect()
}

/// The first bytes of what is left.
fn take<'a>(input: &mut &'a [u8], length: usize) -> &'a [u8] {
    let (taken, rest) = input.split_at(length);
    *input = rest;
    taken
}

fn number(bytes: &[u8]) -> u64 {
    bytes.iter().fold(0, |x, &byte| x << 8 | u64::from(byte))
}

/// What the header of an input says: the format, on the folded layout, the first count and record, the records to be
/// written, and the commands after it.
struct Recorded<'a> {
    format: Format,
    count: Count,
    record: &'a [u8],
    records: &'a [u8],
    commands: &'a [u8],
}

fn recorded(mut input: &[u8]) -> Recorded<'_> {
    let m = take(&mut input, 1)[0];
    let bases = (0..m).map(|_| number(take(&mut input, 2)) as u16).collect();
    let [q, base, n, readers] = [1, 2, 2, 1].map(|length| number(take(&mut input, length)) as usize);
    let count = Count(number(take(&mut input, 8)));
    let record = take(&mut input, n);
    let size = number(take(&mut input, 2)) as usize;
    let records = take(&mut input, size * n);
    let format = Format { bases, q, base: base as u16, layout: Layout::Folded, n, readers };
    Recorded { format, count, record, records, commands: input }
}

/// The first command of some bytes, and how many it has; a bare byte, and no command, if it is unknown or cut short.
fn first_command(bytes: &[u8]) -> (Option<Command>, usize) {
    let command = match *bytes {
        [1, a, b, c, d, e, f, g, h, ..] => WriteCount(Count(u64::from_be_bytes([a, b, c, d, e, f, g, h]))),
        [2, a, b, ..] => WriteRecord(u16::from_be_bytes([a, b])),
        [3, ..] => WriterStep,
        [4, reader, ..] => BeginCountRead { reader, choice: Choice::Low },
        [5, reader, attempts, ..] => BeginRecordRead { reader, attempts },
        [6, reader, ..] => ReaderStep(reader),
        [7, reader, ..] => Cancel(reader),
        [13, reader, ..] => BeginCountRead { reader, choice: Choice::High },
        _ => return (None, bytes.len()),
    };
    (Some(command), lagumtay::commands([command]).len())
}

fn hex(bytes: &[u8]) -> String {
    bytes.iter().fold(String::new(), |text, byte| text + &format!("{byte:02x}"))
}

/// The line of a read that ended so, with this record if it has one.
fn line(entry: Entry, record: &[u8]) -> String {
    match entry {
        Entry::Shown { reader, count } => format!("C {reader} {}\n", count.0),
        Entry::Between { reader, low, high } => format!("B {reader} {} {}\n", low.0, high.0),
        Entry::GaveUp { reader, attempts } => format!("G {reader} {attempts}\n"),
        Entry::Accepted { reader, attempts, version } => {
            format!("R {reader} {attempts} {} {}\n", version.0, hex(record))
        }
    }
}

/// The same of an outcome, which has its record.
fn line_of(outcome: &Outcome) -> String {
    match *outcome {
        Outcome::Nothing => String::new(),
        Outcome::Shown { reader, count } => line(Entry::Shown { reader, count }, b""),
        Outcome::Between { reader, low, high, .. } => line(Entry::Between { reader, low, high }, b""),
        Outcome::GaveUp { reader, attempts } => line(Entry::GaveUp { reader, attempts }, b""),
        Outcome::Accepted { reader, attempts, version, ref record } => {
            line(Entry::Accepted { reader, attempts, version }, record)
        }
    }
}

/// The last lines.
fn end(done: usize, why: Option<Refusal>, page: &[u8], buffers: &[u8]) -> String {
    let number = why.map_or(0, |why| why as u8);
    format!("END {done} {number}\npage {}\nbuffers {}\n", hex(page), hex(buffers))
}

/// All that is recorded of an input, from runs of one command's bytes each: a record is printed as its buffer holds it
/// then.
fn replayed_raw(input: &Recorded) -> String {
    let mut memory = match Memory::open(&input.format, input.count.0, input.record) {
        Ok(memory) => memory,
        Err(why) => return format!("END 0 {}\n", why as u8),
    };
    let (mut out, mut done, mut refusal, mut rest) = (String::new(), 0, None, input.commands);
    while !rest.is_empty() && refusal.is_none() {
        let (_, length) = first_command(rest);
        let mut log = [0; LONGEST_ENTRY];
        let (answer, why) = memory.run(input.records, &rest[..length], &mut log);
        for entry in Entries::new(&log[..answer.written]) {
            out += &line(entry, memory.buffer(entry.reader()));
        }
        (done, refusal, rest) = (done + answer.done, why, &rest[length..]);
    }
    out + &end(done, refusal, &memory.page, &memory.buffers)
}

/// What one run of all bytes leaves: how many reads ended, and the last lines. None if the opening is refused.
fn at_once(input: &Recorded) -> Option<(usize, String)> {
    let mut memory = Memory::open(&input.format, input.count.0, input.record).ok()?;
    let mut log = vec![0; LONGEST_ENTRY * input.commands.len()];
    let (answer, why) = memory.run(input.records, input.commands, &mut log);
    let ended = Entries::new(&log[..answer.written]).count();
    Some((ended, end(answer.done, why, &memory.page, &memory.buffers)))
}

/// The same as recorded from a page: all commands in one run. Bytes that are no command are none for a page.
fn replayed(input: &Recorded) -> String {
    let mut page = match Page::open(input.format.clone(), input.count, input.record) {
        Ok(page) => page,
        Err(why) => return format!("END 0 {}\n", why as u8),
    };
    page.set_records(input.records).unwrap();
    let (mut list, mut rest) = (Vec::new(), input.commands);
    while let (Some(command), length) = first_command(rest) {
        list.push(command);
        rest = &rest[length..];
    }
    let (done, outcomes, refusal) = match page.run(&list) {
        Ok(outcomes) => (list.len(), outcomes, None),
        Err(Stopped { done, outcomes, refusal }) => (done, outcomes, Some(refusal)),
    };
    let unknown = (!rest.is_empty()).then_some(Refusal::UnknownCommand);
    let buffers: Vec<u8> = (0..16).flat_map(|reader| page.buffer(reader).unwrap_or_default().to_vec()).collect();
    let lines: String = outcomes.iter().map(line_of).collect();
    lines + &end(done, refusal.or(unknown), page.bytes(), &buffers)
}

#[test]
fn replays_the_recorded_schedules() {
    let file = Path::new(env!("CARGO_MANIFEST_DIR")).join("../../reference/data/folded.txt");
    let all = fs::read_to_string(file).unwrap();
    let mut schedules = 0;
    for block in all.trim_end().split("\n\n") {
        let (name, rest) = block.split_once('\n').expect("a name");
        let (input, expected) = rest.split_once('\n').expect("an input");
        let input = bytes(input);
        assert_eq!(replayed_raw(&recorded(&input)).trim_end(), expected, "{name}");
        assert_eq!(replayed(&recorded(&input)).trim_end(), expected, "{name}");
        if let Some((ended, last)) = at_once(&recorded(&input)) {
            assert!(expected.ends_with(last.trim_end()), "{name}");
            assert_eq!(expected.lines().count(), ended + 3, "{name}");
        }
        schedules += 1;
    }
    assert!(schedules >= 130, "only {schedules} recorded schedules found");
}
