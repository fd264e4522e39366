//! What the tests of a page share.
#![allow(dead_code)] // each test takes what it needs

pub mod memory;
pub mod random;

use lagumtay::{Choice, Command, Count, Format, Layout, Outcome, Page, Version};

/// Two readers, records of two bytes, versions of one decimal digit.
pub fn format(layout: Layout, bases: &[u16]) -> Format {
    Format { bases: bases.to_vec(), q: 1, base: 10, layout, n: 2, readers: 2 }
}

/// A page with two records to be written.
pub fn opened(layout: Layout, bases: &[u16], count: u64) -> Page {
    let mut page = Page::open(format(layout, bases), Count(count), b"aa").unwrap();
    page.set_records(b"bbcc").unwrap();
    page
}

/// Carry out commands that are not refused; gives how reads ended.
#[track_caller]
pub fn go(page: &mut Page, list: &[Command]) -> Vec<Outcome> {
    page.run(list).unwrap()
}

pub fn steps(command: Command, times: usize) -> Vec<Command> {
    vec![command; times]
}

/// A count read without a choice.
pub fn begin(reader: u8) -> Command {
    Command::BeginCountRead { reader, choice: Choice::default() }
}

/// A count read that names the high end.
pub fn begin_high(reader: u8) -> Command {
    Command::BeginCountRead { reader, choice: Choice::High }
}

pub fn begin_record(reader: u8, attempts: u8) -> Command {
    Command::BeginRecordRead { reader, attempts }
}

pub fn shown(reader: u8, count: u64) -> Outcome {
    Outcome::Shown { reader, count: Count(count) }
}

pub fn between(reader: u8, low: u64, high: u64, choice: Choice) -> Outcome {
    Outcome::Between { reader, low: Count(low), high: Count(high), choice }
}

pub fn accepted(reader: u8, attempts: u8, version: u32, record: &[u8]) -> Outcome {
    Outcome::Accepted { reader, attempts, version: Version(version), record: record.to_vec() }
}
