//! The plain implementation against the recorded runs of the repository, and the recorded schedules of folded pages.
use std::fs;
use std::path::Path;

use lagumtay_bench::runlist::{folded, printed};

/// The bytes behind a length of four bytes; what is left stays in `bytes`.
fn part<'a>(bytes: &mut &'a [u8]) -> &'a [u8] {
    let (length, rest) = bytes.split_first_chunk().expect("a length");
    let (part, rest) = rest.split_at(u32::from_be_bytes(*length) as usize);
    *bytes = rest;
    part
}

/// The file's layout: reference/README.md.
#[test]
fn prints_the_recorded_runs() {
    let file = Path::new(env!("CARGO_MANIFEST_DIR")).join("../crates/cases/data/cases.bin");
    let all = fs::read(file).unwrap();
    let (cases, mut rest) = all.split_first_chunk().expect("how many cases");
    let cases = u32::from_be_bytes(*cases);
    assert!(cases >= 240, "only {cases} recorded runs found");
    for case in 0..cases {
        let input = part(&mut rest);
        let expected = String::from_utf8(part(&mut rest).to_vec()).unwrap();
        assert_eq!(printed(input), expected, "case {case}");
    }
    assert!(rest.is_empty(), "{} bytes after the last case", rest.len());
}

/// The file's layout: reference/README.md.
#[test]
fn replays_the_recorded_schedules_of_folded_pages() {
    let file = Path::new(env!("CARGO_MANIFEST_DIR")).join("../reference/data/folded.txt");
    let all = fs::read_to_string(file).unwrap();
    let mut schedules = 0;
    for block in all.trim_end().split("\n\n") {
        let (name, rest) = block.split_once('\n').expect("a name");
        let (input, expected) = rest.split_once('\n').expect("an input");
        let byte = |i| u8::from_str_radix(&input[i..i + 2], 16).expect("two hexadecimal digits");
        let input: Vec<u8> = (0..input.len()).step_by(2).map(byte).collect();
        assert_eq!(folded(&input).trim_end(), expected, "{name}");
        schedules += 1;
    }
    assert!(schedules >= 130, "only {schedules} recorded schedules found");
}
