//! The plain implementation against the documents: the printed run, the trap, the edges with both ends and both choices,
//! each refusal.
use std::cmp::Ordering;

use lagumtay::raw::{Answer, Command, Format, Outcome, Reader, Writer, FOLDED, HIGH, LOW, PACKED, PLAIN};
use lagumtay::Refusal;
use lagumtay_bench::owned::Owned;
use lagumtay_bench::plain::{self, command_of, number};
use lagumtay_bench::runlist::{command_length, printed};

fn bytes(text: &str) -> Vec<u8> {
    let digits: Vec<u8> = text.chars().filter_map(|c| c.to_digit(16)).map(|digit| digit as u8).collect();
    digits.chunks(2).map(|pair| pair[0] << 4 | pair[1]).collect()
}

/// Two readers, a version of one place, records of two bytes.
const FORMAT: Format = Format { q: 1, base: 10, layout: PLAIN, n: 2, readers: 2 };
const RECORDS: &[u8] = b"bbcc";

fn open(lent: &mut Owned, count: u64, record: &[u8]) -> u8 {
    number(plain::open(&mut lent.lend(), count, record))
}

fn opened(bases: &[u16], count: u64) -> Owned {
    opened_as(FORMAT, bases, count)
}

/// The same on a folded page.
fn opened_folded(bases: &[u16], count: u64) -> Owned {
    opened_as(Format { layout: FOLDED, ..FORMAT }, bases, count)
}

fn opened_as(format: Format, bases: &[u16], count: u64) -> Owned {
    let mut lent = Owned::blank(format, bases);
    assert_eq!(open(&mut lent, count, b"aa"), 0);
    lent
}

/// Run commands given in hexadecimal; gives commands carried out, the log's entries and the refusal.
fn run(lent: &mut Owned, commands: &str) -> (usize, Vec<u8>, u8) {
    run_with(lent, RECORDS, commands, 100)
}

fn run_with(lent: &mut Owned, records: &[u8], commands: &str, room: usize) -> (usize, Vec<u8>, u8) {
    let mut log = vec![0xee; room];
    let commands = bytes(commands);
    let (Answer { done, written, taken }, ending) = plain::run(&mut lent.lend(), records, &commands, &mut log);
    assert_eq!(taken, length_of(&commands, done), "the bytes of the commands carried out");
    assert!(log[written..].iter().all(|&byte| byte == 0xee), "the log is written past what is told");
    log.truncate(written);
    (done, log, number(ending))
}

/// The bytes of so many commands.
fn length_of(commands: &[u8], done: usize) -> usize {
    (0..done).fold(0, |at, _| at + command_length(commands[at]))
}

/// The run's last command is refused by this number and changes nothing.
fn refused(lent: &mut Owned, commands: &str, refused: &str, number: u8) {
    assert_eq!(run(lent, commands).2, 0);
    let before = lent.clone();
    assert_eq!(run(lent, refused), (0, vec![], number));
    assert_eq!(*lent, before);
}

#[test]
fn prints_the_documents_run() {
    let input = bytes(
        "01 000A 01 000A 0002 01 0000000000000004 6161 0001 6262
         050002 0600 0600 020000 03 03 03 0600 0600 03 0600 0600 0600 0600 010000000000000007 0400 0600 03 03 0600",
    );
    assert_eq!(printed(&input), "R 0 2 1 6262\nB 0 4 7\nEND 20 0\n");
}

#[test]
fn prints_a_count_of_equal_copies() {
    for begin in ["0400", "0d00"] {
        let input = bytes(&format!("01 000A 01 000A 0002 01 0000000000000004 6161 0000 {begin} 0600 0600"));
        assert_eq!(printed(&input), "C 0 4\nEND 3 0\n");
    }
}

/// Lines of both ends keep their text under either choice.
#[test]
fn prints_both_ends_of_either_choice() {
    for begin in ["0400", "0d00"] {
        let header = "01 000A 01 000A 0002 01 0000000000000004 6161 0000";
        let input = bytes(&format!("{header} 010000000000000007 {begin} 0600 03 03 0600 {begin} {begin}"));
        assert_eq!(printed(&input), "B 0 4 7\nEND 7 6\n");
    }
}

#[test]
fn a_later_read_may_show_less_than_one_that_it_overlaps() {
    let mut lent = opened(&[10, 10, 10], 99);
    let write_150 = "01 0000000000000096 03 03 03 03 03 03";
    assert_eq!(run(&mut lent, "0400 0600 0600 0600").2, 0);
    assert_eq!(run(&mut lent, write_150).2, 0);
    assert_eq!(run(&mut lent, "0401 0601 0601 0601 0601 0601 0601").1, bytes("01 01 0000000000000096"));
    assert_eq!(run(&mut lent, "0600 0600 0600").1, bytes("04 00 0000000000000063 0000000000000064"));
}

/// One step before the end of reader 0's count read, with these digits in the copies.
fn about_to_end(bases: &[u16], a: &[u8], b: &[u8]) -> Owned {
    about_to_end_as("0400", bases, a, b)
}

/// The same of a read that this command began.
fn about_to_end_as(begin: &str, bases: &[u16], a: &[u8], b: &[u8]) -> Owned {
    let mut lent = opened(bases, 0);
    let m = bases.len();
    lent.page[..m].copy_from_slice(a);
    lent.page[m..2 * m].copy_from_slice(b);
    assert_eq!(run(&mut lent, &format!("{begin} {}", "0600".repeat(2 * m - 1))).2, 0);
    lent
}

/// What a step tells, given in hexadecimal.
fn step(lent: &mut Owned, command: &str) -> (Outcome, u8) {
    let (outcome, ending) = plain::step(&mut lent.lend(), RECORDS, &command_of(&bytes(command)));
    (outcome, number(ending))
}

/// The count shown by what a step told.
fn shown(outcome: Outcome) -> u64 {
    match outcome.kind {
        1 => outcome.count,
        4 if outcome.choice == HIGH => outcome.high,
        4 => outcome.low,
        kind => panic!("kind {kind} shows no count"),
    }
}

fn between(low: u64, high: u64) -> Vec<u8> {
    bytes(&format!("04 00 {low:016x} {high:016x}"))
}

#[test]
fn copies_that_part_give_the_ends_of_the_edges() {
    for (bases, a, b, low, high) in [
        (&[10, 10, 10][..], &[0, 0, 0][..], &[1, 0, 0][..], 99, 100),
        (&[10, 10, 10], &[0, 9, 9], &[1, 9, 9], 99, 100),
        (&[24, 60], &[11, 57], &[12, 4], 11 * 60 + 59, 12 * 60),
        (&[24, 60], &[11, 57], &[11, 59], 11 * 60 + 57, 11 * 60 + 59),
        (&[10], &[5], &[7], 5, 7),
        // Each place has a largest digit of its own: 0, 1, 59, 255 and 1, 0, 0, 0.
        (&[2, 2, 60, 256], &[0, 1, 2, 3], &[1, 1, 2, 3], 2 * 60 * 256 - 1, 2 * 60 * 256),
        (&[256; 8], &[0; 8], &[255; 8], (1 << 56) - 1, 255 << 56),
    ] {
        for (begin, choice, end) in [("0400", LOW, low), ("0d00", HIGH, high)] {
            let mut lent = about_to_end_as(begin, bases, a, b);
            assert_eq!(lent.readers[0].choice, choice);
            let (outcome, ending) = step(&mut lent.clone(), "0600");
            assert_eq!((outcome, ending), (Outcome { kind: 4, choice, low, high, ..Outcome::default() }, 0));
            assert_eq!(shown(outcome), end);
            assert_eq!(run(&mut lent, "0600"), (1, between(low, high), 0));
            assert_eq!(lent.readers[0], Reader::default());
        }
    }
}

/// 05 half turned into 30: the low end, 09, is above the only count fully written.
#[test]
fn the_low_end_may_be_above_every_count_fully_written() {
    for (begin, end) in [("0400", 9), ("0d00", 30)] {
        let mut lent = opened(&[10, 10], 5);
        assert_eq!(run(&mut lent, &format!("01 000000000000001e 03 03 {begin} 0600 0600 0600")).2, 0);
        assert_eq!(shown(step(&mut lent, "0600").0), end);
    }
}

/// 0D is checked as 04 is.
#[test]
fn begins_with_either_choice() {
    for (begin, choice) in [("04", LOW), ("0d", HIGH)] {
        let mut lent = opened(&[10], 4);
        assert_eq!(run(&mut lent, &format!("{begin}01")).2, 0);
        assert_eq!(lent.readers, [Reader::default(), Reader { kind: 1, choice, ..Reader::default() }]);
        for other in ["04", "0d"] {
            refused(&mut lent, "", &format!("{other}01"), 6);
            refused(&mut lent, "", &format!("{other}02"), 8);
            refused(&mut lent, "", &format!("{other}ff"), 8);
            refused(&mut lent, "", other, 11);
            assert_eq!(step(&mut lent, &format!("{other}01")), (Outcome::default(), 6));
            assert_eq!(step(&mut lent, &format!("{other}02")), (Outcome::default(), 8));
        }
        let opened = opened(&[10], 4);
        assert_eq!(run(&mut lent, "0701"), (1, vec![], 0));
        assert_eq!(lent, opened);
        // Equal copies show their count, and a step tells no choice of them.
        assert_eq!(run(&mut lent, &format!("{begin}01 0601")).2, 0);
        let equal = Outcome { kind: 1, reader: 1, count: 4, ..Outcome::default() };
        assert_eq!(step(&mut lent, "0601"), (equal, 0));
        assert_eq!(lent, opened);
        // A busy reader is busy with any read.
        refused(&mut lent, "050102", &format!("{begin}01"), 6);
        assert_eq!(run(&mut lent, "0701").2, 0);
        refused(&mut lent, &format!("{begin}01"), "050102", 6);
    }
}

#[test]
fn equal_copies_show_their_count() {
    let mut lent = opened(&[24, 60], 11 * 60 + 57);
    let shown = bytes("01 00 00000000000002cd");
    assert_eq!(run(&mut lent, "0400 0600 0600 0600 0600"), (5, shown.clone(), 0));
    // A write of the same count that is met changes nothing about it.
    assert_eq!(run(&mut lent, "0400 0600 01 00000000000002cd 03 03 0600 0600 03 0600"), (9, shown, 0));
    let mut largest = about_to_end(&[256; 8], &[255; 8], &[255; 8]);
    assert_eq!(run(&mut largest, "0600").1, bytes("01 00 ffffffffffffffff"));
}

#[test]
fn refusal_10_copies_crossed() {
    let mut lent = about_to_end(&[24, 60], &[12, 4], &[11, 57]);
    refused(&mut lent, "", "0600", 10);
    let before = lent.clone();
    assert_eq!(run_with(&mut lent, RECORDS, "0600", 0), (0, vec![], 10), "10 comes before 12");
    assert_eq!(lent, before);
    assert_eq!(run(&mut lent, "0700").2, 0, "a read refused by 10 can be cancelled");
}

/// The ends of copies that part, digit by digit.
fn ends(bases: &[u16], a: &[u8], b: &[u8]) -> (u64, u64) {
    let p = (0..bases.len()).find(|&i| a[i] != b[i]).expect("the copies part");
    let value = |digit: &dyn Fn(usize) -> u64| (0..bases.len()).fold(0, |x, i| x * u64::from(bases[i]) + digit(i));
    let low = value(&|i| if i <= p { a[i].into() } else { u64::from(bases[i]) - 1 });
    let high = value(&|i| if i <= p { b[i].into() } else { 0 });
    (low, high)
}

/// Copies of four places with small bases.
#[test]
fn ends_all_pairs_of_copies() {
    let bases = [2, 3, 2, 4];
    let digits = |count: u8| [count / 24, count / 8 % 3, count / 4 % 2, count % 4];
    for (a, b) in (0..48).flat_map(|a| (0..48).map(move |b| (a, b))) {
        let mut lent = about_to_end(&bases, &digits(a), &digits(b));
        match a.cmp(&b) {
            Ordering::Equal => assert_eq!(run(&mut lent, "0600").1, bytes(&format!("01 00 {a:016x}"))),
            Ordering::Greater => refused(&mut lent, "", "0600", 10),
            Ordering::Less => {
                let (low, high) = ends(&bases, &digits(a), &digits(b));
                assert!(u64::from(a) <= low && low < high && high <= u64::from(b));
                assert_eq!(run(&mut lent, "0600").1, between(low, high));
            }
        }
    }
}

#[test]
fn writes_the_largest_count() {
    assert_eq!(opened(&[256; 8], u64::MAX).page[..16], [255; 16]);
}

#[test]
fn refusal_1_bad_format() {
    let good = Owned::blank(FORMAT, &[10]);
    let mut bad = Vec::new();
    for bases in [&[][..], &[2; 9], &[1], &[257], &[10, 0], &[u16::MAX]] {
        bad.push(Owned { bases: bases.to_vec(), ..good.clone() });
    }
    for format in [
        Format { q: 0, ..FORMAT },
        Format { q: 5, ..FORMAT },
        Format { base: 1, ..FORMAT },
        Format { base: 257, ..FORMAT },
        Format { layout: 2, ..FORMAT },
        Format { layout: 257, ..FORMAT },
        Format { layout: u16::MAX, ..FORMAT },
        Format { n: 0, ..FORMAT },
        Format { n: 257, ..FORMAT },
        Format { readers: 0, ..FORMAT },
        Format { readers: 17, ..FORMAT },
        Format { n: usize::MAX, ..FORMAT },
    ] {
        bad.push(Owned { format, ..good.clone() });
    }
    for mut lent in bad {
        let before = lent.clone();
        assert_eq!(open(&mut lent, 0, b"aa"), 1);
        assert_eq!(run(&mut lent, "03"), (0, vec![], 1));
        assert_eq!(lent, before);
    }
}

#[test]
fn refusal_2_wrong_length() {
    for wrong in [
        |lent: &mut Owned| lent.page.push(0),
        |lent: &mut Owned| lent.readers.truncate(1),
        |lent: &mut Owned| lent.buffers.push(0),
    ] {
        let mut lent = opened(&[10], 4);
        wrong(&mut lent);
        let before = lent.clone();
        assert_eq!(open(&mut lent, 0, b"aa"), 2);
        assert_eq!(run(&mut lent, "03"), (0, vec![], 2));
        assert_eq!(lent, before);
    }
    let mut lent = opened(&[10], 4);
    assert_eq!(open(&mut lent, 0, b"a"), 2);
    assert_eq!(run_with(&mut lent, b"bbc", "03", 0), (0, vec![], 2));
    assert_eq!(run_with(&mut lent, b"", "0400", 0), (1, vec![], 0));
}

/// Each layout asks a length of its own.
#[test]
fn refusal_2_of_the_other_layout() {
    for m in 1..=8 {
        for layout in [PLAIN, FOLDED] {
            let mut lent = opened_as(Format { layout, ..FORMAT }, &vec![10; m], 4);
            assert_eq!(lent.page.len(), 2 * m - usize::from(layout) + 4);
            lent.format.layout = 1 - layout;
            let before = lent.clone();
            assert_eq!(open(&mut lent, 0, b"aa"), 2);
            assert_eq!(run(&mut lent, "03"), (0, vec![], 2));
            assert_eq!(lent, before);
        }
    }
}

#[test]
fn refusal_3_invalid_state() {
    // What no steps could hold, from a page with a count pending, a count read and an attempt under way.
    let begun = || {
        let mut lent = opened(&[10, 10], 4);
        assert_eq!(run(&mut lent, "01 0000000000000005 03 0400 0600 0600 0600 050102 0601 0601 0601").2, 0);
        lent
    };
    let changes: &[fn(&mut Owned)] = &[
        |lent| lent.page[0] = 10,
        |lent| lent.page[3] = 10,
        |lent| lent.page[4] = 10,
        |lent| lent.page[7] = 10,
        |lent| lent.writer.kind = 3,
        |lent| lent.writer.kind = 0,
        |lent| lent.writer.kind = 0x101,
        |lent| lent.writer.steps = 4,
        |lent| lent.writer.count = 100,
        |lent| lent.writer.version = 1,
        |lent| lent.writer.index = 1,
        |lent| lent.writer = Writer { kind: 2, ..Writer::default() },
        |lent| lent.writer = Writer { kind: 2, version: 10, ..Writer::default() },
        |lent| lent.writer = Writer { kind: 2, version: 1, index: 2, ..Writer::default() },
        |lent| lent.writer = Writer { kind: 2, version: 1, steps: 4, ..Writer::default() },
        |lent| lent.writer = Writer { kind: 2, version: 1, count: 1, ..Writer::default() },
        |lent| lent.readers[0].kind = 0,
        |lent| lent.readers[0].kind = 3,
        |lent| lent.readers[0].steps = 4,
        |lent| lent.readers[0].allowed = 1,
        |lent| lent.readers[0].finished = 1,
        |lent| lent.readers[0].choice = 2,
        |lent| lent.readers[0].choice = 255,
        |lent| lent.readers[0].digits[1] = 10,
        |lent| lent.readers[0].digits[2] = 1,
        |lent| lent.readers[0].digits[8] = 1,
        |lent| lent.readers[0].digits[9] = 10,
        |lent| lent.readers[0].digits[10] = 1,
        |lent| lent.readers[0].steps = 2,
        |lent| lent.readers[0] = Reader { choice: 1, ..Reader::default() },
        |lent| lent.readers[0] = Reader { choice: 2, ..Reader::default() },
        |lent| lent.readers[1].choice = 1,
        |lent| lent.readers[1].choice = 2,
        |lent| lent.readers[1].finished = 2,
        |lent| lent.readers[1].steps = 4,
        |lent| lent.readers[1].digits[0] = 10,
        |lent| lent.readers[1].digits[8] = 1,
        |lent| lent.readers[1].digits[15] = 1,
    ];
    assert_eq!(run(&mut begun(), ""), (0, vec![], 0));
    for (i, change) in changes.iter().enumerate() {
        let mut lent = begun();
        change(&mut lent);
        let before = lent.clone();
        assert_eq!(run(&mut lent, "03"), (0, vec![], 3), "change {i}");
        assert_eq!(plain::cancel(&mut lent.lend(), RECORDS, 9), Err(Refusal::InvalidState));
        assert_eq!(lent, before);
    }
    // A count read may have either choice.
    let mut lent = begun();
    lent.readers[0].choice = HIGH;
    assert_eq!(run(&mut lent, "03"), (1, vec![], 0));
}

/// A write and a read of a folded page, each one step before its end.
#[test]
fn refusal_3_on_a_folded_page() {
    let begun = || {
        let mut lent = opened_as(Format { layout: FOLDED, base: 200, ..FORMAT }, &[10, 10, 10], 456);
        let four = "03 03 03 03 0400 0600 0600 0600 0600";
        assert_eq!(run(&mut lent, &format!("01 00000000000001c8 {four}")), (10, vec![], 0));
        lent
    };
    assert_eq!(begun().readers[0].digits, [4, 5, 6, 0, 0, 0, 0, 0, 0, 5, 0, 0, 0, 0, 0, 0]);
    let changes: &[fn(&mut Owned)] = &[
        |lent| lent.page[2] = 10,
        |lent| lent.page[3] = 10,
        |lent| lent.page[4] = 10,
        |lent| lent.page[5] = 200,
        |lent| lent.page[8] = 200,
        |lent| lent.writer.steps = 5,
        |lent| lent.readers[0].choice = 2,
        |lent| lent.readers[1].choice = 1,
        |lent| lent.readers[0].steps = 5,
        |lent| lent.readers[0].steps = 3,
        |lent| lent.readers[0].digits[2] = 10,
        |lent| lent.readers[0].digits[3] = 1,
        |lent| lent.readers[0].digits[8] = 1,
        |lent| lent.readers[0].digits[9] = 10,
        |lent| lent.readers[0].digits[10] = 1,
        |lent| lent.readers[0].digits[15] = 1,
    ];
    for (i, change) in changes.iter().enumerate() {
        let mut lent = begun();
        change(&mut lent);
        let before = lent.clone();
        assert_eq!(run(&mut lent, "03"), (0, vec![], 3), "change {i}");
        assert_eq!(lent, before);
    }
    // What stands behind c2's own digits is no digit of it; the record may have any bytes, a digit any below its base.
    let mut lent = begun();
    lent.page[5] = 199;
    lent.page[6..8].fill(255);
    lent.readers[0].choice = 1;
    lent.readers[0].digits[9] = 9;
    assert_eq!(run(&mut lent, "03"), (1, vec![], 0));
}

/// c2's own digits left to right, the shared digit, c1's own right to left; a read takes them in reverse.
#[test]
fn steps_over_a_folded_page() {
    let mut lent = opened_folded(&[10, 10, 10], 123);
    assert_eq!(lent.page, [1, 2, 3, 1, 2, 0, b'a', b'a', 0]);
    assert_eq!(run(&mut lent, "01 00000000000001c8").2, 0);
    for digits in [[1, 2, 3, 4, 2], [1, 2, 3, 4, 5], [1, 2, 6, 4, 5], [1, 5, 6, 4, 5], [4, 5, 6, 4, 5]] {
        assert_eq!(run(&mut lent, "03").2, 0);
        assert_eq!(lent.page[..5], digits);
    }
    refused(&mut lent, "", "03", 7);
    assert_eq!(run(&mut lent, "0400 0600 0600 0600 0600").2, 0);
    assert_eq!(run(&mut lent, "0600"), (1, bytes("01 00 00000000000001c8"), 0));
    refused(&mut lent, "", "0600", 7);
}

#[test]
fn one_folded_place_is_never_between() {
    let mut lent = opened_folded(&[10], 4);
    assert_eq!(lent.page, [4, 0, b'a', b'a', 0]);
    assert_eq!(run(&mut lent, "0400 01 0000000000000007 0600").1, bytes("01 00 0000000000000004"));
    assert_eq!(run(&mut lent, "0400 03 0600").1, bytes("01 00 0000000000000007"));
    refused(&mut lent, "", "01 0000000000000006", 5);
    refused(&mut lent, "01 0000000000000007 03", "03", 7);
    lent.readers[0] = Reader { kind: 1, steps: 1, ..Reader::default() };
    assert_eq!(run(&mut lent, "").2, 3);
}

/// Copies of a folded page are read from any digits that it may hold: all that can be told by two of one shared digit.
#[test]
fn ends_all_pairs_of_folded_copies() {
    let bases = [2, 3, 4];
    let digits = |count: u8| [count / 12, count / 4 % 3, count % 4];
    for (a, b) in (0..24).flat_map(|a| (0..24).map(move |b| (a, b))).filter(|(a, b)| a % 4 == b % 4) {
        let mut lent = opened_folded(&bases, 0);
        lent.page[..3].copy_from_slice(&digits(a));
        lent.page[3..5].copy_from_slice(&digits(b)[..2]);
        // Reader 1 gathers the same and names the high end.
        assert_eq!(run(&mut lent, "0400 0600 0600 0600 0600 0d01 0601 0601 0601 0601").2, 0);
        match a.cmp(&b) {
            Ordering::Equal => {
                assert_eq!(run(&mut lent.clone(), "0600").1, bytes(&format!("01 00 {a:016x}")));
                assert_eq!(["0600", "0601"].map(|last| shown(step(&mut lent, last).0)), [a.into(); 2]);
            }
            Ordering::Greater => {
                refused(&mut lent, "", "0600", 10);
                refused(&mut lent, "", "0601", 10);
            }
            Ordering::Less => {
                let (low, high) = ends(&bases, &digits(a), &digits(b));
                assert_eq!(run(&mut lent.clone(), "0600").1, between(low, high));
                assert_eq!(["0600", "0601"].map(|last| shown(step(&mut lent, last).0)), [low, high]);
            }
        }
    }
}

/// Whatever own digits c2 has and whatever the shared digit is, they decide together what goes back.
#[test]
fn refusal_5_by_the_digits_of_a_folded_c2() {
    for (bases, page, c2) in [
        (&[10, 10, 10][..], &[9, 9, 3, 1, 2][..], 123),
        (&[24, 60], &[0, 57, 11], 11 * 60 + 57),
        (&[10], &[7], 7),
        (&[256; 8], &[0, 0, 0, 0, 0, 0, 0, 255, 255, 255, 255, 255, 255, 255, 255], u64::MAX),
        (&[256; 8], &[9, 9, 9, 9, 9, 9, 9, 1, 0, 0, 0, 0, 0, 0, 2], 0x0201),
    ] {
        let mut lent = opened_folded(bases, 0);
        lent.page[..page.len()].copy_from_slice(page);
        refused(&mut lent, "", &format!("01 {:016x}", c2 - 1), 5);
        assert_eq!(run(&mut lent, &format!("01 {c2:016x}")), (1, vec![], 0));
    }
}

#[test]
fn refusals_4_to_9() {
    let mut lent = opened(&[10], 4);
    assert_eq!(open(&mut lent, 10, b"aa"), 4);
    refused(&mut lent, "", "01 000000000000000a", 4);
    refused(&mut lent, "", "01 0000000000000003", 5);
    refused(&mut lent, "01 0000000000000004", "01 000000000000000a", 6);
    refused(&mut lent, "", "020000", 6);
    refused(&mut lent, "03 03", "03", 7);
    refused(&mut lent, "", "0600", 7);
    refused(&mut lent, "", "0700", 7);
    refused(&mut lent, "0400", "0400", 6);
    refused(&mut lent, "", "050001", 6);
    refused(&mut lent, "", "0402", 8);
    refused(&mut lent, "", "050201", 8);
    refused(&mut lent, "", "050000", 8);
    refused(&mut lent, "", "0602", 8);
    refused(&mut lent, "", "0702", 8);
    refused(&mut lent, "", "020002", 8);
    for _ in 0..9 {
        assert_eq!(run(&mut lent, "020001 03 03 03 03").2, 0);
    }
    refused(&mut lent, "", "020000", 9);
}

#[test]
fn refusal_11_unknown_command() {
    let mut lent = opened(&[10], 4);
    for command in ["00", "ff", "01 00000000000000", "02 00", "04", "05 09", "06", "07", "0d"] {
        refused(&mut lent, "", command, 11);
    }
    for command in ["08", "0800", "0900", "0a00", "0b00", "0c00", "0e00", "0f00"] {
        refused(&mut lent, "", command, 11);
    }
}

#[test]
fn refusal_12_log_full() {
    for (begin, end, entry) in [
        ("0400 0600", "0600", "01 00 0000000000000004"),
        ("050001 0600 0600 0600", "0600", "02 00 01 00000000"),
        ("050001 0600 020000 03 0600 0600", "0600", "03 00 01"),
        ("0400 0600 01 0000000000000007 03", "0600", "04 00 0000000000000004 0000000000000007"),
        ("0d00 0600 01 0000000000000007 03", "0600", "04 00 0000000000000004 0000000000000007"),
    ] {
        let mut lent = opened(&[10], 4);
        assert_eq!(run(&mut lent, begin).2, 0);
        let before = lent.clone();
        let entry = bytes(entry);
        for room in 0..entry.len() {
            assert_eq!(run_with(&mut lent, RECORDS, end, room), (0, vec![], 12), "{room}");
            assert_eq!(lent, before);
        }
        assert_eq!(run_with(&mut lent, RECORDS, end, entry.len()), (1, entry, 0));
    }
}

#[test]
fn steps_as_it_runs() {
    let nothing = Outcome::default();
    let mut stepped = opened(&[10], 4);
    let mut ran = stepped.clone();
    // Reader 1 gives up after two attempts that a record write meets, then reader 0 accepts; then a count is shown, and
    // two count reads meet a write, one of each choice.
    let torn = "050102 0601 020001 03 0601 0601 0601 0601 0601 0601 | 0601 03 03 03 050001 0600 0600 0600 | 0600 \
                01,0000000000000007 03 03 0401 0601 | 0601 0401 0601 0d00 0600 01,0000000000000009 03 | 0601 | 0600 \
                03 0401 0701 0d01 0701";
    let mut told = [
        Outcome { kind: 3, reader: 1, attempts: 2, ..nothing },
        Outcome { kind: 2, reader: 0, attempts: 1, version: 1, ..nothing },
        Outcome { kind: 1, reader: 1, count: 7, ..nothing },
        Outcome { kind: 4, reader: 1, choice: LOW, low: 7, high: 9, ..nothing },
        Outcome { kind: 4, reader: 0, choice: HIGH, low: 7, high: 9, ..nothing },
    ]
    .into_iter();
    let mut ends = false;
    for command in torn.split_whitespace() {
        if command == "|" {
            ends = true;
            continue;
        }
        let outcome = if ends { told.next().unwrap() } else { nothing };
        ends = false;
        assert_eq!(step(&mut stepped, command), (outcome, 0), "{command}");
        assert_eq!(run(&mut ran, command).2, 0);
        assert_eq!(stepped, ran);
    }
    assert_eq!(told.next(), None);
    for (command, why) in [
        ("", Refusal::UnknownCommand),
        ("03", Refusal::NothingPending),
        ("01,000000000000000a", Refusal::CountTooLarge),
        ("01,0000000000000006", Refusal::CountDecreases),
        ("020002", Refusal::NoSuch),
        ("050000", Refusal::NoSuch),
        ("0dff", Refusal::NoSuch),
        ("06ff", Refusal::NoSuch),
        ("0701", Refusal::NothingPending),
    ] {
        assert_eq!(step(&mut stepped, command), (nothing, why as u8), "{command}");
    }
    for kind in [0, 8, 9, 10, 11, 12, 14, 255] {
        let unknown = Command { kind, reader: 255, ..Command::default() };
        assert_eq!(plain::step(&mut stepped.lend(), RECORDS, &unknown), (nothing, Err(Refusal::UnknownCommand)));
        // The checks at the start come before the command is looked at.
        assert_eq!(plain::step(&mut stepped.lend(), b"bbc", &unknown), (nothing, Err(Refusal::WrongLength)));
    }
    assert_eq!(stepped, ran);
}

#[test]
fn packs_and_unpacks() {
    let digits = std::array::from_fn(|i| 0xa0 + i as u8);
    let reader = Reader { kind: 1, allowed: 2, finished: 3, choice: 4, steps: 0x0506_0708_090a_0b0c, digits };
    let readers = [Reader::default(), reader];
    let mut packed = [0xee; 2 * PACKED];
    assert_eq!(plain::pack(&readers, &mut packed), Ok(()));
    assert_eq!(packed[..28], [0; 28]);
    assert_eq!(packed[28..], bytes("01 02 03 04 05060708090a0b0c a0a1a2a3a4a5a6a7 a8a9aaabacadaeaf"));
    let mut back = [Reader::default(); 2];
    assert_eq!(plain::unpack(&mut back, &packed[..55]), Err(Refusal::WrongLength));
    assert_eq!(back, [Reader::default(); 2]);
    assert_eq!(plain::unpack(&mut back, &packed), Ok(()));
    assert_eq!(back, readers);
    let before = packed;
    assert_eq!(plain::pack(&readers[..1], &mut packed), Err(Refusal::WrongLength));
    assert_eq!(packed, before);
}

#[test]
fn a_reader_that_gives_up_leaves_zeros() {
    let mut lent = opened(&[10], 4);
    assert_eq!(run(&mut lent, "050001 0600 020000 03 0600 0600 0600").1, bytes("03 00 01"));
    assert_eq!(lent.buffer(0), [0, 0]);
    assert_eq!(lent.readers[0], Reader::default());
}

#[test]
fn cancel_leaves_the_buffer() {
    let mut lent = opened(&[10], 4);
    assert_eq!(run(&mut lent, "050101 0601 0601").2, 0);
    let cancel = |lent: &mut Owned, who| plain::cancel(&mut lent.lend(), RECORDS, who);
    assert_eq!(cancel(&mut lent, 2), Err(Refusal::NoSuch));
    assert_eq!(cancel(&mut lent, 0), Err(Refusal::NothingPending));
    assert_eq!(cancel(&mut lent, 1), Ok(()));
    assert_eq!(lent.readers[1], Reader::default());
    assert_eq!(lent.buffer(1), [b'a', 0]);
}
