//! The printed run on top of the plain implementation, so that it is held to the recorded runs. `runlist` has plain pages
//! alone; a schedule of folded ones is written with the same header, and what it leaves is told too.
use std::fmt::Write;

use lagumtay::raw::{Format, FOLDED, LONGEST_ENTRY, PLAIN};
use lagumtay::Refusal;

use crate::owned::Owned;
use crate::plain::{self, number};

const MOST_INPUT: usize = 65_536;

/// All that `runlist` prints for this standard input.
pub fn printed(input: &[u8]) -> String {
    match opened(input, PLAIN) {
        Ok(mut opened) => opened.run(),
        Err(why) => end(0, Err(why)),
    }
}

/// What it would print if its pages were folded, and then the page and the buffers, as `reference/folded.py` has them.
pub fn folded(input: &[u8]) -> String {
    match opened(input, FOLDED) {
        Ok(mut opened) => {
            let out = opened.run();
            out + "page " + &hex(&opened.lent.page) + "\nbuffers " + &hex(&opened.lent.buffers) + "\n"
        }
        Err(why) => end(0, Err(why)),
    }
}

/// The last line.
fn end(done: usize, ending: plain::Ending) -> String {
    format!("END {done} {}\n", number(ending))
}

fn hex(bytes: &[u8]) -> String {
    bytes.iter().fold(String::new(), |mut text, byte| {
        write!(text, "{byte:02x}").unwrap();
        text
    })
}

/// The first bytes of the input that is left, if there are so many.
fn take<'a>(input: &mut &'a [u8], length: usize) -> Result<&'a [u8], Refusal> {
    let (taken, rest) = input.split_at_checked(length).ok_or(Refusal::WrongLength)?;
    *input = rest;
    Ok(taken)
}

fn take_number(input: &mut &[u8], length: usize) -> Result<u64, Refusal> {
    Ok(number_in(take(input, length)?))
}

fn number_in(bytes: &[u8]) -> u64 {
    bytes.iter().fold(0, |x, &byte| x << 8 | u64::from(byte))
}

struct Opened<'a> {
    lent: Owned,
    records: &'a [u8],
    commands: &'a [u8],
}

fn opened(input: &[u8], layout: u16) -> Result<Opened<'_>, Refusal> {
    if input.len() > MOST_INPUT {
        return Err(Refusal::WrongLength);
    }
    let mut rest = input;
    let m = take_number(&mut rest, 1)? as usize;
    if !(1..=8).contains(&m) {
        return Err(Refusal::BadFormat);
    }
    // The form is whole before any other number of it is looked at.
    let mut form = take(&mut rest, 2 * m + 6)?;
    let bases: Vec<u16> =
        (0..m).map(|_| take_number(&mut form, 2).map(|base| base as u16)).collect::<Result<_, _>>()?;
    let format = Format {
        q: take_number(&mut form, 1)? as usize,
        base: take_number(&mut form, 2)? as u16,
        layout,
        n: take_number(&mut form, 2)? as usize,
        readers: take_number(&mut form, 1)? as usize,
    };
    plain::check_format(&format, &bases)?;
    let count = take_number(&mut rest, 8)?;
    let record = take(&mut rest, format.n)?;
    let lent_records = take_number(&mut rest, 2)? as usize;
    let records = take(&mut rest, lent_records * format.n)?;
    let mut lent = Owned::blank(format, &bases);
    plain::open(&mut lent.lend(), count, record)?;
    Ok(Opened { lent, records, commands: rest })
}

/// How many bytes a command has; an unknown kind is refused with any number.
pub fn command_length(kind: u8) -> usize {
    match kind {
        1 => 9,
        2 | 5 => 3,
        4 | 6 | 7 | 13 => 2,
        _ => 1,
    }
}

impl Opened<'_> {
    /// The lines of the run up to its first refused command.
    fn run(&mut self) -> String {
        let mut out = String::new();
        let mut done = 0;
        // One command a run, since a record is printed as the buffer held it right then.
        while let Some(&kind) = self.commands.first() {
            let (command, rest) = self.commands.split_at(command_length(kind).min(self.commands.len()));
            let mut log = [0; LONGEST_ENTRY];
            let (answer, ending) = plain::run(&mut self.lent.lend(), self.records, command, &mut log);
            if ending.is_err() {
                return out + &end(done, ending);
            }
            match &log[..answer.written] {
                [1, who, count @ ..] => writeln!(out, "C {who} {}", number_in(count)).unwrap(),
                [2, who, attempts, version @ ..] => {
                    let record = hex(self.lent.buffer(*who));
                    writeln!(out, "R {who} {attempts} {} {record}", number_in(version)).unwrap();
                }
                [3, who, attempts] => writeln!(out, "G {who} {attempts}").unwrap(),
                [4, who, ends @ ..] => {
                    let (low, high) = ends.split_at(8);
                    writeln!(out, "B {who} {} {}", number_in(low), number_in(high)).unwrap();
                }
                _ => {}
            }
            done += 1;
            self.commands = rest;
        }
        out + &end(done, Ok(()))
    }
}
