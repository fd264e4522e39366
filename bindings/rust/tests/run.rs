//! Runs of many commands: each accepted record is whole and is the one that its version says, whatever its reader does
//! after; and a run is what its commands are one at a time.
mod common;

use common::random::Random;
use common::*;
use lagumtay::Command::*;
use lagumtay::{Choice, Command, Count, Format, Layout, Outcome, Page, Refusal, Stopped};

/// A record that is told by its number alone.
fn record(k: u8) -> Vec<u8> {
    vec![b'a' + k, b'A' + k, b'a' + k]
}

/// A reader reads one record after the other in one run, while the writer writes others between, and begins to gather
/// another right after each was accepted.
#[test]
fn a_record_is_the_one_that_its_version_says() {
    let format = Format { bases: vec![10], q: 1, base: 10, layout: Layout::Plain, n: 3, readers: 2 };
    let all = format.record_steps();
    let mut page = Page::open(format, Count(0), &record(0)).unwrap();
    page.set_records(&(1..10).flat_map(record).collect::<Vec<u8>>()).unwrap();
    let mut list = Vec::new();
    for k in 0..9 {
        for reader in [0, 1] {
            list.extend([vec![begin_record(reader, 1)], steps(ReaderStep(reader), all)].concat());
        }
        list.extend([vec![WriteRecord(k)], steps(WriterStep, all)].concat());
        // Reader 0 has all bytes of the new record in its buffer before its read is dropped.
        list.extend([vec![begin_record(0, 1)], steps(ReaderStep(0), all - 1), vec![Cancel(0)]].concat());
    }
    let expected: Vec<Outcome> =
        (0..9).flat_map(|k| [0, 1].map(|reader| accepted(reader, 1, k.into(), &record(k)))).collect();
    assert_eq!(go(&mut page, &list), expected);
    assert_eq!(page.buffer(0), Some(&record(9)[..]));
}

/// A read that was unfinished before the run counts too.
#[test]
fn a_read_that_was_begun_before_is_told_with_its_own() {
    let mut page = opened(Layout::Plain, &[10], 4);
    go(&mut page, &[begin_record(0, 1), ReaderStep(0), begin_high(1), ReaderStep(1), WriteCount(Count(7))]);
    go(&mut page, &steps(WriterStep, 2));
    let mut list = steps(ReaderStep(0), 3);
    list.extend([vec![WriteRecord(1)], steps(WriterStep, 4)].concat());
    list.extend([vec![begin_record(0, 1)], steps(ReaderStep(0), 3)].concat());
    // Reader 1 ends between 4 and 7, and reads again with the other choice.
    list.extend([ReaderStep(1), begin(1), ReaderStep(1), WriteCount(Count(9)), WriterStep, ReaderStep(1)]);
    let expected = [accepted(0, 1, 0, b"aa"), between(1, 4, 7, Choice::High), between(1, 7, 9, Choice::Low)];
    assert_eq!(go(&mut page, &list), expected);
}

/// All 16 readers end between two counts in one run, each by its own choice; and once more.
#[test]
fn sixteen_readers_have_room() {
    let format = Format { readers: 16, ..format(Layout::Plain, &[10]) };
    let mut page = Page::open(format, Count(4), b"aa").unwrap();
    let choice = |reader| if reader % 3 == 0 { Choice::High } else { Choice::Low };
    let round = |count| {
        let begun = (0..16).flat_map(|reader| [BeginCountRead { reader, choice: choice(reader) }, ReaderStep(reader)]);
        let mut list: Vec<Command> = begun.collect();
        list.extend([WriteCount(Count(count)), WriterStep, WriterStep]);
        list.extend((0..16).map(ReaderStep));
        list
    };
    let told = go(&mut page, &[round(7), round(9)].concat());
    let expected = |low, high| (0..16).map(move |reader| between(reader, low, high, choice(reader)));
    assert_eq!(told, expected(4, 7).chain(expected(7, 9)).collect::<Vec<_>>());
}

#[test]
fn nothing_is_run_of_nothing() {
    let mut page = opened(Layout::Plain, &[10], 4);
    assert_eq!(page.run(&[]), Ok(vec![]));
    assert_eq!(page, opened(Layout::Plain, &[10], 4));
}

/// A second read of a reader is where a piece ends; if it is refused, so is the run, at the right command.
#[test]
fn a_refused_second_read_ends_the_run() {
    for second in [begin(0), begin_high(0), begin_record(0, 1)] {
        let mut page = opened(Layout::Plain, &[10], 4);
        let busy = |done| Err(Stopped { done, outcomes: vec![], refusal: Refusal::Busy });
        assert_eq!(page.run(&[begin(1), begin(0), ReaderStep(0), second, ReaderStep(1)]), busy(3));
        assert_eq!(page.run(&[second, ReaderStep(1)]), busy(0));
    }
}

fn some_format(random: &mut Random) -> Format {
    let m = 1 + random.below(3);
    Format {
        bases: (0..m).map(|_| random.of(&[3, 10, 256])).collect(),
        q: random.of(&[1, 2]),
        base: random.of(&[4, 10, 256]),
        layout: random.of(&[Layout::Plain, Layout::Folded]),
        n: random.of(&[1, 2, 5]),
        readers: random.of(&[1, 2, 3, 16]),
    }
}

/// Any command that could be there, mostly steps.
fn some_command(random: &mut Random, format: &Format) -> Command {
    let reader = random.below(format.readers as u64) as u8;
    let beyond = random.of(&[reader, reader, reader, reader, format.readers as u8, 255]);
    let top: u64 = format.bases.iter().map(|&base| u64::from(base)).product();
    match random.below(24) {
        0 => WriteCount(Count(random.below(top + 2))),
        1 => WriteRecord(random.below(5) as u16),
        2 | 3 => BeginCountRead { reader: beyond, choice: random.of(&[Choice::Low, Choice::High]) },
        4 | 5 => BeginRecordRead { reader: beyond, attempts: random.of(&[0, 1, 2, 3]) },
        6 => Cancel(beyond),
        7..=13 => WriterStep,
        _ => ReaderStep(beyond),
    }
}

/// A list of commands with what they come to one at a time, after which the page is as they leave it. Of refused ones
/// most are left out; one that stays ends the run, with others behind it that are not carried out.
fn some_run(random: &mut Random, page: &mut Page) -> (Vec<Command>, Result<Vec<Outcome>, Stopped>) {
    let format = page.format().clone();
    let (mut list, mut outcomes) = (Vec::new(), Vec::new());
    while list.len() < 150 {
        let command = some_command(random, &format);
        match page.step(command) {
            Ok(outcome) => {
                list.push(command);
                outcomes.extend((outcome != Outcome::Nothing).then_some(outcome));
            }
            Err(refusal) if random.below(600) == 0 => {
                let done = list.len();
                list.push(command);
                list.extend((0..10).map(|_| some_command(random, &format)));
                return (list, Err(Stopped { done, outcomes, refusal }));
            }
            Err(_) => {}
        }
    }
    (list, Ok(outcomes))
}

/// The records that these commands begin to write are the next versions.
fn note_versions(written: &mut Vec<Vec<u8>>, page: &Page, carried_out: &[Command]) {
    for command in carried_out {
        if let WriteRecord(index) = *command {
            written.push(page.records().chunks(page.format().n).nth(index.into()).unwrap().to_vec());
        }
    }
}

#[test]
fn a_run_is_what_its_commands_are_one_at_a_time() {
    let mut random = Random(1);
    let (mut accepted, mut parted, mut refused) = (0, 0, 0);
    for _ in 0..300 {
        let format = some_format(&mut random);
        let n = format.n;
        let mut written = vec![random.bytes(n)];
        let mut stepped = Page::open(format, Count(0), &written[0]).unwrap();
        let records = random.bytes(4 * n);
        stepped.set_records(&records).unwrap();
        let mut page = stepped.clone();
        for _ in 0..6 {
            let (list, expected) = some_run(&mut random, &mut stepped);
            let ran = page.run(&list);
            assert_eq!(ran, expected, "{list:?}");
            assert_eq!(page, stepped, "{list:?}");
            let (done, outcomes) = match &ran {
                Ok(outcomes) => (list.len(), outcomes),
                Err(stopped) => (stopped.done, &stopped.outcomes),
            };
            note_versions(&mut written, &page, &list[..done]);
            for outcome in outcomes {
                match outcome {
                    Outcome::Accepted { version, record, .. } => {
                        assert_eq!(*record, written[version.0 as usize], "{list:?}");
                        accepted += 1;
                    }
                    Outcome::Between { .. } => parted += 1,
                    _ => {}
                }
            }
            refused += u32::from(ran.is_err());
        }
    }
    // So many of each that none of the three is tried by chance alone.
    assert!(accepted > 3000 && parted > 500 && refused > 500, "{accepted}, {parted}, {refused}");
}
