//! The records that a page owns: they stay while one of them is written.
mod common;

use common::{accepted, begin, begin_record, go, opened, steps};
use lagumtay::Command::*;
use lagumtay::{Layout, Outcome, Page, Refusal, Version, Writing};

#[test]
fn a_page_keeps_a_copy() {
    let mut page = opened(Layout::Plain, &[10], 4);
    let mut mine = *b"ddee";
    page.set_records(&mine).unwrap();
    mine.fill(b'x');
    assert_eq!(page.records(), b"ddee");
    page.set_records(b"").unwrap();
    assert_eq!(page.records(), b"");
    assert_eq!(page.step(WriteRecord(0)), Err(Refusal::NoSuch));
}

/// Refused, and nothing has changed.
#[track_caller]
fn refused(page: &mut Page, records: &[u8], why: Refusal) {
    let before = page.clone();
    assert_eq!(page.set_records(records), Err(why));
    assert_eq!(*page, before);
}

#[test]
fn records_are_whole() {
    let mut page = opened(Layout::Plain, &[10], 4);
    for wrong in [&b"b"[..], b"bbc", b"bbccd"] {
        refused(&mut page, wrong, Refusal::WrongLength);
    }
    for right in [&b""[..], b"bb", b"bbcc", b"bbccdd"] {
        assert_eq!(page.set_records(right), Ok(()));
        assert_eq!(page.records(), right);
    }
}

/// At each step of a write, up to its last one, its own record stays, and all others may change.
#[test]
fn the_pending_record_stays() {
    for taken in 0..4 {
        let mut page = opened(Layout::Plain, &[10], 4);
        go(&mut page, &[vec![WriteRecord(1)], steps(WriterStep, taken)].concat());
        assert_eq!(page.writer(), Writing::Record { index: 1, version: Version(1), steps: taken });
        for other in [&b"bbcx"[..], b"bbxc", b"ccbb", b"bb", b"", b"cc"] {
            refused(&mut page, other, Refusal::Busy);
        }
        refused(&mut page, b"bbccd", Refusal::WrongLength);
        for same in [&b"bbcc"[..], b"xxcc", b"bbccyy", b"cccc"] {
            assert_eq!(page.set_records(same), Ok(()));
        }
        go(&mut page, &steps(WriterStep, 4 - taken));
        assert_eq!(page.set_records(b"dd"), Ok(()));
        let read = [vec![begin_record(0, 1)], steps(ReaderStep(0), 4)].concat();
        assert_eq!(go(&mut page, &read), [accepted(0, 1, 1, b"cc")]);
    }
}

/// A count write needs none of them, and a read neither.
#[test]
fn records_change_beside_a_count_write() {
    let mut page = opened(Layout::Plain, &[10], 4);
    go(&mut page, &[WriteCount(lagumtay::Count(7)), WriterStep, begin(0), begin_record(1, 1)]);
    assert_eq!(page.set_records(b"xx"), Ok(()));
    assert_eq!(page.step(WriterStep), Ok(Outcome::Nothing));
    assert_eq!(page.step(WriteRecord(1)), Err(Refusal::NoSuch));
}

#[test]
fn a_refused_write_binds_nothing() {
    let mut page = opened(Layout::Plain, &[10], 4);
    assert_eq!(page.step(WriteRecord(2)), Err(Refusal::NoSuch));
    assert_eq!(page.set_records(b"xxyyzz"), Ok(()));
    assert_eq!(page.step(WriteRecord(2)), Ok(Outcome::Nothing));
    page.open_again(lagumtay::Count(0), b"aa").unwrap();
    assert_eq!(page.records(), b"xxyyzz");
    assert_eq!(page.set_records(b""), Ok(()));
}
