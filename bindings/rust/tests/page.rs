//! The bindings against document 01: its printed run, its trap, and the refusals that a caller can meet.
mod common;

use common::{accepted, begin, begin_high, begin_record, between, go, shown, steps};
use lagumtay::Command::*;
use lagumtay::{
    commands, raw, Choice, Command, Count, Entries, Entry, Format, Layout, Outcome, Page, Reading, Refusal, Stopped,
    Version, Writing,
};

fn format(bases: &[u16]) -> Format {
    common::format(Layout::Plain, bases)
}

fn opened(bases: &[u16], count: u64) -> Page {
    common::opened(Layout::Plain, bases, count)
}

#[test]
fn opens_a_page() {
    let page = Page::open(format(&[10, 10]), Count(42), b"aa").unwrap();
    assert_eq!(page.bytes(), [4, 2, 4, 2, 0, b'a', b'a', 0]);
    assert_eq!(page.buffer(1), Some(&[0, 0][..]));
    assert_eq!(page.buffer(2), None);
    assert_eq!(page.records(), []);
    assert_eq!([0, 1, 2].map(|reader| page.reader(reader)), [Some(Reading::Idle), Some(Reading::Idle), None]);
    assert_eq!((page.writer(), page.format()), (Writing::Idle, &format(&[10, 10])));
}

#[test]
fn refuses_openings() {
    let open = |format, count, record: &[u8]| Page::open(format, Count(count), record).err();
    assert_eq!(open(format(&[]), 0, b"aa"), Some(Refusal::BadFormat));
    assert_eq!(open(format(&[2; 9]), 0, b"aa"), Some(Refusal::BadFormat));
    assert_eq!(open(format(&[257]), 0, b"aa"), Some(Refusal::BadFormat));
    assert_eq!(open(format(&[1]), 0, b"aa"), Some(Refusal::BadFormat));
    assert_eq!(open(Format { q: 0, ..format(&[10]) }, 0, b"aa"), Some(Refusal::BadFormat));
    assert_eq!(open(Format { q: 5, ..format(&[10]) }, 0, b"aa"), Some(Refusal::BadFormat));
    assert_eq!(open(Format { q: usize::MAX, ..format(&[10]) }, 0, b"aa"), Some(Refusal::BadFormat));
    assert_eq!(open(Format { base: 1, ..format(&[10]) }, 0, b"aa"), Some(Refusal::BadFormat));
    assert_eq!(open(Format { n: 0, ..format(&[10]) }, 0, b""), Some(Refusal::BadFormat));
    assert_eq!(open(Format { n: usize::MAX, ..format(&[10]) }, 0, b"aa"), Some(Refusal::BadFormat));
    assert_eq!(open(Format { readers: 0, ..format(&[10]) }, 0, b"aa"), Some(Refusal::BadFormat));
    assert_eq!(open(Format { readers: 17, ..format(&[10]) }, 0, b"aa"), Some(Refusal::BadFormat));
    assert_eq!(open(Format { readers: usize::MAX, ..format(&[10]) }, 0, b"aa"), Some(Refusal::BadFormat));
    assert_eq!(open(format(&[10]), 0, b"a"), Some(Refusal::WrongLength));
    assert_eq!(open(format(&[10]), 10, b"aa"), Some(Refusal::CountTooLarge));
    let widest = Format { q: 4, base: 256, n: 256, readers: 16, ..format(&[256; 8]) };
    assert_eq!(open(widest, u64::MAX, &[7; 256]), None);
    let mut page = opened(&[10], 4);
    let before = page.clone();
    assert_eq!(page.open_again(Count(10), b"aa"), Err(Refusal::CountTooLarge));
    assert_eq!(page.open_again(Count(9), b"a"), Err(Refusal::WrongLength));
    assert_eq!(page, before);
}

/// All but the records is as at the beginning.
#[test]
fn opens_again() {
    let mut page = opened(&[10], 4);
    go(&mut page, &[WriteRecord(1), WriterStep, begin(0), ReaderStep(0), begin_record(1, 2), ReaderStep(1)]);
    go(&mut page, &[ReaderStep(1)]);
    assert_eq!(page.open_again(Count(7), b"xy"), Ok(()));
    let mut fresh = Page::open(format(&[10]), Count(7), b"xy").unwrap();
    fresh.set_records(b"bbcc").unwrap();
    assert_eq!(page, fresh);
}

/// The printed run of document 01.
fn schedule() -> Vec<Command> {
    let first = [begin_record(0, 2), ReaderStep(0), ReaderStep(0), WriteRecord(0)];
    [
        &first[..],
        &steps(WriterStep, 3),
        &steps(ReaderStep(0), 2),
        &[WriterStep],
        &steps(ReaderStep(0), 4),
        &[WriteCount(Count(7)), begin(0), ReaderStep(0), WriterStep, WriterStep, ReaderStep(0)],
    ]
    .concat()
}

fn told() -> [Outcome; 2] {
    [accepted(0, 2, 1, b"bb"), between(0, 4, 7, Choice::Low)]
}

#[test]
fn runs_the_schedule_of_document_01() {
    let mut page = opened(&[10], 4);
    assert_eq!(schedule().len(), 20);
    assert_eq!(go(&mut page, &schedule()), told());
    assert_eq!(page.buffer(0), Some(&b"bb"[..]));
}

#[test]
fn steps_through_the_schedule_of_document_01() {
    let mut page = opened(&[10], 4);
    let mut ended = Vec::new();
    for (i, command) in schedule().into_iter().enumerate() {
        // What was saved and restored goes on where it was.
        let before = page.clone();
        page = Page::restore(&page.save()).unwrap();
        assert_eq!(page, before);
        match page.step(command).unwrap() {
            Outcome::Nothing => {}
            outcome => ended.push((i, outcome)),
        }
    }
    let [first, second] = told();
    assert_eq!(ended, [(13, first), (19, second)]);
    let mut at_once = opened(&[10], 4);
    go(&mut at_once, &schedule());
    assert_eq!(page, at_once);
}

/// What the writer and the readers are at, after each step.
#[test]
fn tells_what_each_is_at() {
    let mut page = opened(&[10], 4);
    page.step(WriteCount(Count(7))).unwrap();
    for steps in 0..2 {
        assert_eq!(page.writer(), Writing::Count { count: Count(7), steps });
        assert!(page.writer().is_busy() && !page.writer().is_idle());
        page.step(WriterStep).unwrap();
    }
    assert!(page.writer().is_idle() && !page.writer().is_busy());
    page.step(begin_record(1, 3)).unwrap();
    page.step(ReaderStep(1)).unwrap();
    page.step(WriteRecord(1)).unwrap();
    for steps in 0..4 {
        assert_eq!(page.writer(), Writing::Record { index: 1, version: Version(1), steps });
        page.step(WriterStep).unwrap();
    }
    assert_eq!(page.writer(), Writing::Idle);
    // v2 was read before the write, v1 after it.
    for (finished, taken) in [(0, 1), (0, 2), (0, 3), (1, 0), (1, 1)] {
        assert_eq!(page.reader(1), Some(Reading::Record { allowed: 3, finished, steps: taken }));
        assert!(page.reader(1).unwrap().is_busy());
        page.step(ReaderStep(1)).unwrap();
    }
    assert_eq!(page.reader(0), Some(Reading::Idle));
    assert!(page.reader(0).unwrap().is_idle());
    page.step(begin_high(0)).unwrap();
    page.step(ReaderStep(0)).unwrap();
    assert_eq!(page.reader(0), Some(Reading::Count { choice: Choice::High, steps: 1 }));
}

#[test]
fn a_refused_step_changes_nothing() {
    let mut page = opened(&[10], 4);
    go(&mut page, &[begin(1)]);
    let before = page.clone();
    for (command, why) in [
        (WriteCount(Count(10)), Refusal::CountTooLarge),
        (WriteCount(Count(3)), Refusal::CountDecreases),
        (WriterStep, Refusal::NothingPending),
        (ReaderStep(0), Refusal::NothingPending),
        (begin(1), Refusal::Busy),
        (begin_high(1), Refusal::Busy),
        (begin(2), Refusal::NoSuch),
        (begin_high(2), Refusal::NoSuch),
        (ReaderStep(255), Refusal::NoSuch),
        (WriteRecord(2), Refusal::NoSuch),
        (begin_record(0, 0), Refusal::NoSuch),
        (Cancel(0), Refusal::NothingPending),
    ] {
        assert_eq!(page.step(command), Err(why));
    }
    assert_eq!(page, before);
    assert_eq!(page.step(Cancel(1)), Ok(Outcome::Nothing));
    assert_eq!(page, opened(&[10], 4));
}

/// A page of two versions takes one record write.
#[test]
fn versions_come_to_their_end() {
    let mut page = Page::open(Format { base: 2, ..format(&[10]) }, Count(4), b"aa").unwrap();
    assert_eq!(page.step(WriteRecord(0)), Err(Refusal::NoSuch));
    page.set_records(b"bb").unwrap();
    go(&mut page, &[vec![WriteRecord(0)], steps(WriterStep, 4)].concat());
    assert_eq!(page.step(WriteRecord(0)), Err(Refusal::VersionsExhausted));
    page.open_again(Count(4), b"aa").unwrap();
    assert_eq!(page.step(WriteRecord(0)), Ok(Outcome::Nothing));
}

#[test]
fn a_step_tells_that_a_read_gave_up() {
    let mut page = opened(&[10], 4);
    let list = [begin_record(1, 1), ReaderStep(1), WriteRecord(1), WriterStep];
    go(&mut page, &[&list[..], &steps(ReaderStep(1), 2)].concat());
    assert_eq!(page.step(ReaderStep(1)), Ok(Outcome::GaveUp { reader: 1, attempts: 1 }));
    assert_eq!(page.buffer(1), Some(&[0, 0][..]));
}

#[test]
fn a_later_read_may_show_less_than_one_that_it_overlaps() {
    for (choice, less) in [(Choice::Low, 99), (Choice::High, 100)] {
        let mut page = opened(&[10, 10, 10], 99);
        go(&mut page, &[&[BeginCountRead { reader: 0, choice }][..], &steps(ReaderStep(0), 3)].concat());
        go(&mut page, &[&[WriteCount(Count(150))][..], &steps(WriterStep, 6)].concat());
        let second = go(&mut page, &[&[BeginCountRead { reader: 1, choice }][..], &steps(ReaderStep(1), 6)].concat());
        let first = go(&mut page, &steps(ReaderStep(0), 3));
        assert_eq!(second, [shown(1, 150)]);
        assert_eq!(first, [between(0, 99, 100, choice)]);
        assert_eq!((first[0].shown(), second[0].shown()), (Some(Count(less)), Some(Count(150))));
    }
}

/// The low end is no count fully written, and above them all: 05 half turned into 30 shows 09.
#[test]
fn the_low_end_may_be_above_every_count_fully_written() {
    for (choice, end) in [(Choice::Low, 9), (Choice::High, 30)] {
        let mut page = opened(&[10, 10], 5);
        go(&mut page, &[&[WriteCount(Count(30))][..], &steps(WriterStep, 2)].concat());
        let read = go(&mut page, &[&[BeginCountRead { reader: 0, choice }][..], &steps(ReaderStep(0), 4)].concat());
        assert_eq!(read, [between(0, 9, 30, choice)]);
        assert_eq!(read[0].shown(), Some(Count(end)));
    }
}

/// One step before the end of a count read: it gathered the first copy, 11:57, before this count was written.
fn about_to_end(choice: Choice, written: u64) -> Page {
    let mut page = opened(&[24, 60], 11 * 60 + 57);
    go(&mut page, &[&[BeginCountRead { reader: 1, choice }][..], &steps(ReaderStep(1), 2)].concat());
    go(&mut page, &[&[WriteCount(Count(written))][..], &steps(WriterStep, 4), &[ReaderStep(1)]].concat());
    assert_eq!(page.reader(1), Some(Reading::Count { choice, steps: 3 }));
    page
}

#[test]
fn equal_copies_show_a_count_though_a_write_was_met() {
    for choice in [Choice::Low, Choice::High] {
        let mut page = about_to_end(choice, 11 * 60 + 57);
        let shown = shown(1, 11 * 60 + 57);
        assert_eq!(page.clone().step(ReaderStep(1)), Ok(shown.clone()));
        assert_eq!(shown.shown(), Some(Count(11 * 60 + 57)));
        assert_eq!(go(&mut page, &[ReaderStep(1)]), [shown]);
        assert_eq!(page.reader(1), Some(Reading::Idle));
    }
}

/// The low end has the largest digits of each place's own base. Both are told under either choice, which decides the
/// count shown.
#[test]
fn copies_that_part_give_both_ends() {
    for (written, low, high) in [(12 * 60 + 4, 11 * 60 + 59, 12 * 60), (11 * 60 + 58, 11 * 60 + 57, 11 * 60 + 58)] {
        for (choice, end) in [(Choice::Low, low), (Choice::High, high)] {
            let mut page = about_to_end(choice, written);
            let between = between(1, low, high, choice);
            assert_eq!(page.clone().step(ReaderStep(1)), Ok(between.clone()));
            assert_eq!(between.shown(), Some(Count(end)));
            assert_eq!(go(&mut page, &[ReaderStep(1)]), [between]);
            assert_eq!(page.reader(1), Some(Reading::Idle));
        }
    }
}

#[test]
fn choices_are_commands_of_their_own() {
    assert_eq!(commands([begin(3), begin_high(3), WriteRecord(258), Cancel(1)]), [0x04, 3, 0x0d, 3, 2, 1, 2, 7, 1]);
    assert_eq!([Choice::Low as u8, Choice::High as u8], [raw::LOW, raw::HIGH]);
    assert_eq!((raw::LOW, raw::HIGH, Choice::default()), (0, 1, Choice::Low));
}

/// A choice is there while a count read is, and no longer.
#[test]
fn a_page_keeps_the_choice() {
    let mut page = opened(&[10], 4);
    let count = |choice, steps| Some(Reading::Count { choice, steps });
    let both = |page: &Page| [0, 1].map(|reader| page.reader(reader));
    assert_eq!(both(&page), [Some(Reading::Idle); 2]);
    go(&mut page, &[begin_high(0), begin(1), ReaderStep(0), ReaderStep(1)]);
    assert_eq!(both(&page), [count(Choice::High, 1), count(Choice::Low, 1)]);
    go(&mut page, &[Cancel(0), ReaderStep(1)]);
    assert_eq!(page, opened(&[10], 4));
    go(&mut page, &[begin(0), begin_high(1)]);
    assert_eq!(both(&page), [count(Choice::Low, 0), count(Choice::High, 0)]);
    assert_eq!(page.cancel(1), Ok(()));
    go(&mut page, &[begin_record(1, 1)]);
    let record = Reading::Record { allowed: 1, finished: 0, steps: 0 };
    assert_eq!(both(&page), [count(Choice::Low, 0), Some(record)]);
}

#[test]
fn ends_with_the_first_refused_command() {
    let mut page = opened(&[10], 4);
    let refused = |done, refusal| Err(Stopped { done, outcomes: vec![], refusal });
    for (command, why) in [
        (WriteCount(Count(10)), Refusal::CountTooLarge),
        (WriteCount(Count(3)), Refusal::CountDecreases),
        (WriterStep, Refusal::NothingPending),
        (ReaderStep(1), Refusal::NothingPending),
        (begin(2), Refusal::NoSuch),
        (begin_high(2), Refusal::NoSuch),
        (ReaderStep(2), Refusal::NoSuch),
        (WriteRecord(2), Refusal::NoSuch),
        (begin_record(1, 0), Refusal::NoSuch),
    ] {
        assert_eq!(page.run(&[begin(0), Cancel(0), command, WriterStep]), refused(2, why));
    }
    assert_eq!(page.run(&[begin(0), begin(0)]), refused(1, Refusal::Busy));
    assert_eq!(page.run(&[begin_high(1), begin_high(1)]), refused(1, Refusal::Busy));
    assert_eq!(page.run(&[begin_high(0)]), refused(0, Refusal::Busy));
    assert_eq!(page.run(&[begin(1)]), refused(0, Refusal::Busy));
}

#[test]
fn gives_up_with_an_empty_buffer() {
    let mut page = opened(&[10], 4);
    let list =
        [begin_record(1, 1), ReaderStep(1), WriteRecord(1), WriterStep, ReaderStep(1), ReaderStep(1), ReaderStep(1)];
    assert_eq!(go(&mut page, &list), [Outcome::GaveUp { reader: 1, attempts: 1 }]);
    assert_eq!(page.buffer(1), Some(&[0, 0][..]));
}

#[test]
fn cancels_a_read() {
    let mut page = opened(&[10], 4);
    go(&mut page, &[begin_record(0, 1), ReaderStep(0), ReaderStep(0)]);
    assert_eq!(page.cancel(2), Err(Refusal::NoSuch));
    assert_eq!(page.cancel(1), Err(Refusal::NothingPending));
    assert_eq!(page.cancel(0), Ok(()));
    assert_eq!(page.buffer(0), Some(&[b'a', 0][..]));
}

#[test]
fn reads_logs() {
    let log = [
        &[1, 3, 0, 0, 0, 0, 0, 0, 1, 2][..],
        &[2, 4, 5, 0, 0, 1, 0],
        &[4, 8, 0, 0, 0, 0, 0, 0, 2, 3, 1, 0, 0, 0, 0, 0, 0, 4],
        &[3, 6, 7],
    ]
    .concat();
    let entries: Vec<Entry> = Entries::new(&log).collect();
    assert_eq!(
        entries,
        [
            Entry::Shown { reader: 3, count: Count(258) },
            Entry::Accepted { reader: 4, attempts: 5, version: Version(256) },
            Entry::Between { reader: 8, low: Count(515), high: Count(1 << 56 | 4) },
            Entry::GaveUp { reader: 6, attempts: 7 },
        ]
    );
    assert_eq!(Entries::new(&log[..9]).count(), 0);
    assert_eq!([17, 34, 35].map(|length| Entries::new(&log[..length]).count()), [2, 2, 3]);
    assert_eq!(Entries::new(&[9, 0, 0]).count(), 0);
}

/// A page goes from one thread to another, and a refusal is an error for other crates.
#[test]
fn can_be_moved_to_a_thread() {
    let mut page = opened(&[10], 4);
    let moved = std::thread::spawn(move || page.step(begin(0)));
    assert_eq!(moved.join().unwrap(), Ok(Outcome::Nothing));
    let why: Box<dyn std::error::Error + Send + Sync> = Box::new(Refusal::Busy);
    assert_eq!(why.to_string(), "a write is pending, or this reader has a read unfinished");
}
