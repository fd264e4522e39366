//! Saved pages: what is saved goes on where it was, and other bytes are refused or are a page that goes on.
mod common;

use common::random::Random;
use common::{begin, begin_high, begin_record, go, opened, shown, steps};
use lagumtay::Command::*;
use lagumtay::{Choice, Command, Count, Format, Layout, Outcome, Page, Reading, Refusal, Writing};

/// A page in the middle of everything: a record write, a count read and a record read.
fn busy(layout: Layout) -> Page {
    let mut page = opened(layout, &[24, 60], 11 * 60 + 57);
    go(&mut page, &[begin_high(0), ReaderStep(0), ReaderStep(0), begin_record(1, 3), ReaderStep(1), ReaderStep(1)]);
    go(&mut page, &[WriteRecord(1), WriterStep, WriterStep]);
    page
}

/// The same with a count write, in all but its last step.
fn counting(layout: Layout) -> Page {
    let mut page = opened(layout, &[24, 60], 11 * 60 + 57);
    let all = page.format().count_steps();
    go(&mut page, &[vec![WriteCount(Count(12 * 60 + 4))], steps(WriterStep, all - 1), vec![begin(1)]].concat());
    page
}

fn all_kinds() -> Vec<Page> {
    let fresh = Page::open(common::format(Layout::Plain, &[10]), Count(4), b"aa").unwrap();
    let both = [Layout::Plain, Layout::Folded].into_iter().flat_map(|layout| [busy(layout), counting(layout)]);
    both.chain([fresh]).collect()
}

#[test]
fn the_bytes_are_as_documented() {
    let mut page = busy(Layout::Folded);
    let header = [1, 2, 0, 24, 0, 60, 1, 0, 10, 1, 0, 2, 2];
    let writer = [2, 0, 0, 0, 0, 0, 0, 0, 0, 0, 1, 0, 0, 0, 1, 0, 2];
    let records = [0, 0, 0, 0, 0, 0, 0, 2];
    let digits = [11, 57, 11, 1, b'c', b'a', 0];
    let first = [&[1, 0, 0, 1, 0, 0, 0, 0, 0, 0, 0, 2, 11, 57][..], &[0; 14]].concat();
    let second = [&[2, 3, 0, 0, 0, 0, 0, 0, 0, 0, 0, 2][..], &[0; 16]].concat();
    let buffers = [0, 0, b'a', 0];
    let expected = [&header[..], &writer, &records, &digits, &first, &second, &buffers, b"bbcc"].concat();
    assert_eq!(page.save(), expected);

    page.open_again(Count(0), b"aa").unwrap();
    go(&mut page, &[WriteCount(Count(0x0102)), WriterStep]);
    assert_eq!(page.save()[13..30], [1, 0, 0, 0, 0, 0, 0, 1, 2, 0, 0, 0, 0, 0, 0, 0, 1]);
}

/// The numbers that need two bytes have both, and the largest page is restored.
#[test]
fn the_largest_page_is_restored() {
    let format = Format { bases: vec![256; 8], q: 4, base: 256, layout: Layout::Plain, n: 256, readers: 16 };
    let mut page = Page::open(format, Count(u64::MAX), &[7; 256]).unwrap();
    page.set_records(&(0..300 * 256).map(|i| (i / 256) as u8).collect::<Vec<u8>>()).unwrap();
    go(&mut page, &[vec![WriteRecord(299)], steps(WriterStep, 263)].concat());
    go(&mut page, &[vec![begin_record(15, 255)], steps(ReaderStep(15), 263)].concat());
    let restored = Page::restore(&page.save()).unwrap();
    assert_eq!(restored, page);
    assert_eq!(restored.writer(), Writing::Record { index: 299, version: lagumtay::Version(1), steps: 263 });
    assert_eq!(restored.reader(15), Some(Reading::Record { allowed: 255, finished: 0, steps: 263 }));
}

#[test]
fn goes_on_where_it_was() {
    for page in all_kinds() {
        let restored = Page::restore(&page.save()).unwrap();
        assert_eq!(restored, page);
        let list = [ReaderStep(0), ReaderStep(0), WriterStep, WriterStep, ReaderStep(1), begin(0)];
        let [mut one, mut other] = [page, restored];
        assert_eq!(one.run(&list), other.run(&list));
        assert_eq!(one, other);
    }
    let mut page = Page::restore(&busy(Layout::Plain).save()).unwrap();
    assert_eq!(page.reader(0), Some(Reading::Count { choice: Choice::High, steps: 2 }));
    assert_eq!(go(&mut page, &steps(ReaderStep(0), 2)), [shown(0, 11 * 60 + 57)]);
    // The record that is written is bound as before.
    assert_eq!(page.set_records(b"bbxx"), Err(Refusal::Busy));
}

#[test]
fn bytes_that_are_cut_or_too_many_are_refused() {
    for page in all_kinds() {
        let saved = page.save();
        for length in 0..saved.len() {
            assert_eq!(Page::restore(&saved[..length]), Err(Refusal::WrongLength), "{length}");
        }
        for more in 1..=5 {
            let longer = [&saved[..], &vec![0; more]].concat();
            assert_eq!(Page::restore(&longer), Err(Refusal::WrongLength));
        }
    }
}

/// No refusal of a page that the archive does not let pass.
#[track_caller]
fn mild(ending: Result<(), Refusal>) {
    let strange = [Refusal::BadFormat, Refusal::WrongLength, Refusal::InvalidState].map(Err);
    assert!(!strange.contains(&ending), "{ending:?}");
}

/// Any steps of all, one at a time and in one run.
fn runs_on(page: &mut Page) {
    let some = |reader| [ReaderStep(reader), Cancel(reader), begin(reader), ReaderStep(reader)];
    let list: Vec<Command> = (0..page.format().readers as u8).flat_map(some).collect();
    for command in [&[WriterStep; 2][..], &list, &[WriteCount(Count(0)), WriteRecord(0), WriterStep]].concat() {
        mild(page.step(command).map(|_| ()));
    }
    mild(page.run(&list).map(|_| ()).map_err(|stopped| stopped.refusal));
}

/// How other bytes fare: restored to a page that has them all and goes on, or refused by one of these.
fn restored(bytes: &[u8], by: &[Refusal]) -> bool {
    match Page::restore(bytes) {
        Ok(mut page) => {
            assert_eq!(page.save(), bytes);
            runs_on(&mut page);
            true
        }
        Err(why) => {
            assert!(by.contains(&why), "{bytes:?}: {why}");
            false
        }
    }
}

#[test]
fn each_changed_byte_is_refused_or_runs_on() {
    let by = [Refusal::WrongLength, Refusal::BadFormat, Refusal::InvalidState];
    for page in all_kinds() {
        let saved = page.save();
        let (mut passed, mut refused) = (0, 0);
        for at in 0..saved.len() {
            for change in 1..=255 {
                let mut wrong = saved.clone();
                wrong[at] ^= change;
                if restored(&wrong, &by) {
                    passed += 1;
                } else {
                    refused += 1;
                }
            }
        }
        // Any buffers, records and digits below their base pass; states are refused.
        assert!(passed > 1000 && refused > 10_000, "{passed}, {refused}");
    }
}

/// Where a number of the header is wrong, and what it is refused by.
#[test]
fn refusals_are_told_apart() {
    let saved = busy(Layout::Plain).save();
    for (at, byte, why) in [
        (0, 0, Refusal::BadFormat),
        (0, 2, Refusal::BadFormat),
        (1, 9, Refusal::BadFormat),
        (1, 255, Refusal::WrongLength),
        (2, 1, Refusal::BadFormat),
        (3, 1, Refusal::BadFormat),
        (6, 5, Refusal::BadFormat),
        (6, 2, Refusal::WrongLength),
        (8, 1, Refusal::BadFormat),
        (9, 2, Refusal::BadFormat),
        (9, 1, Refusal::WrongLength),
        (10, 1, Refusal::BadFormat),
        (11, 3, Refusal::WrongLength),
        (12, 17, Refusal::BadFormat),
        (12, 1, Refusal::WrongLength),
        (13, 3, Refusal::InvalidState),
        (23, 2, Refusal::InvalidState),
        (27, 0, Refusal::InvalidState),
        (29, 4, Refusal::InvalidState),
        (30, 255, Refusal::WrongLength),
        (37, 1, Refusal::WrongLength),
        (38, 24, Refusal::InvalidState),
    ] {
        let mut wrong = saved.clone();
        assert_ne!(wrong[at], byte, "{at}");
        wrong[at] = byte;
        assert_eq!(Page::restore(&wrong), Err(why), "{at}, {byte}");
    }
}

/// The fourth byte of a reader's state is its choice: a count read has one of two, an idle reader and a record read
/// none.
#[test]
fn refuses_strange_choices() {
    for (list, right) in [
        (&[][..], &[0][..]),
        (&[begin(1)], &[0, 1]),
        (&[begin_high(1), ReaderStep(1)], &[0, 1]),
        (&[begin_record(1, 2), ReaderStep(1)], &[0]),
    ] {
        let mut page = opened(Layout::Plain, &[10], 4);
        go(&mut page, list);
        let mut saved = page.save();
        // Behind them are the second reader's state, two buffers and two records of two bytes.
        let at = saved.len() - 8 - 28 + 3;
        for choice in 0..=255 {
            saved[at] = choice;
            match Page::restore(&saved) {
                Ok(page) => {
                    assert!(right.contains(&choice), "{list:?}, {choice}");
                    assert_eq!(page.save()[at], choice);
                }
                Err(why) => assert!(!right.contains(&choice) && why == Refusal::InvalidState, "{list:?}, {choice}"),
            }
        }
    }
}

/// A first copy above the second: nobody saved that. Its read cannot end, and can be cancelled.
#[test]
fn crossed_copies_can_be_cancelled() {
    let mut page = opened(Layout::Plain, &[10], 4);
    go(&mut page, &[begin(0), ReaderStep(0)]);
    let mut saved = page.save();
    let c1 = saved.len() - 8 - 2 * 28 - 6;
    assert_eq!(saved[c1..c1 + 2], [4, 4]);
    saved[c1 + 1] = 3;
    let mut page = Page::restore(&saved).unwrap();
    assert_eq!(page.step(ReaderStep(0)), Err(Refusal::CopiesCrossed));
    let stopped = page.run(&[begin(1), ReaderStep(0)]).unwrap_err();
    assert_eq!((stopped.done, stopped.refusal), (1, Refusal::CopiesCrossed));
    assert_eq!(page.step(Cancel(0)), Ok(Outcome::Nothing));
}

#[test]
fn random_bytes_are_refused_or_run_on() {
    let mut random = Random(7);
    let by = [Refusal::WrongLength, Refusal::BadFormat, Refusal::InvalidState];
    for _ in 0..20_000 {
        let length = random.below(300) as usize;
        let mut bytes = random.bytes(length);
        restored(&bytes, &by);
        // The same behind the first byte of a saved page, and with numbers that are often in range.
        bytes.iter_mut().take(40).for_each(|byte| *byte %= 4);
        bytes.splice(0..0, [1]);
        restored(&bytes, &by);
    }
    let pages = all_kinds();
    for _ in 0..20_000 {
        let mut bytes = pages[random.below(pages.len() as u64) as usize].save();
        for _ in 0..random.below(4) {
            let at = random.below(bytes.len() as u64) as usize;
            bytes[at] = random.next() as u8;
        }
        restored(&bytes, &by);
    }
}
