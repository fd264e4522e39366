//! A hall's page from Rust: one count and two records are written, read back by two readers, and printed.
//!
//!     cargo run --manifest-path bindings/rust/Cargo.toml --example hall
use lagumtay::Command::*;
use lagumtay::{Choice, Command, Count, Format, Layout, Outcome, Page, Refusal, Version};

/// A count in hours and minutes.
fn time(Count(count): Count) -> String {
    format!("{:02}:{:02}", count / 60, count % 60)
}

/// Print how a read ended.
fn print(outcome: &Outcome) {
    match outcome {
        Outcome::Nothing => {}
        Outcome::Shown { reader, count } => println!("reader {reader} shows {}", time(*count)),
        Outcome::Between {
            reader,
            low,
            high,
            choice,
        } => {
            let [shown, low, high] = [choice.end(*low, *high), *low, *high].map(time);
            println!("reader {reader} shows {shown} (between {low} and {high})")
        }
        Outcome::Accepted {
            reader,
            attempts,
            version: Version(version),
            record,
        } => {
            let record = String::from_utf8_lossy(record);
            println!(
                "reader {reader} accepts version {version} after {attempts} attempt(s): {record}"
            );
        }
        Outcome::GaveUp { reader, attempts } => {
            println!("reader {reader} gives up after {attempts} attempt(s)")
        }
    }
}

/// Run commands and print what was read, also before one that is refused.
fn run(page: &mut Page, commands: &[Command]) -> Result<(), Refusal> {
    match page.run(commands) {
        Ok(outcomes) => {
            outcomes.iter().for_each(print);
            Ok(())
        }
        Err(stopped) => {
            stopped.outcomes.iter().for_each(print);
            Err(stopped.refusal)
        }
    }
}

fn main() -> Result<(), Refusal> {
    let format = Format {
        bases: vec![24, 60],
        q: 1,
        base: 256,
        layout: Layout::Plain,
        n: 8,
        readers: 2,
    };
    let mut page = Page::open(format, Count(11 * 60 + 57), b"opening.")?;

    // Reader 0, a board, reads the first copy, 11:57; then 12:04 is written; then the reader goes on with the second
    // copy. The copies part, and it ends between 11:59 and 12:00, though nobody wrote these: it named the high end. It
    // reads again, and shows 12:04.
    let begin = BeginCountRead {
        reader: 0,
        choice: Choice::High,
    };
    let mut counting = vec![
        begin,
        ReaderStep(0),
        ReaderStep(0),
        WriteCount(Count(12 * 60 + 4)),
    ];
    counting.extend([WriterStep; 4]);
    counting.extend([ReaderStep(0); 2]);
    counting.push(begin);
    counting.extend([ReaderStep(0); 4]);
    run(&mut page, &counting)?;

    // Record 1 is written, in 2q + n steps; reader 1, a desk, reads it, with one attempt allowed.
    let mut tally = vec![WriteRecord(1)];
    tally.extend([WriterStep; 10]);
    tally.push(BeginRecordRead {
        reader: 1,
        attempts: 1,
    });
    tally.extend([ReaderStep(1); 10]);
    page.set_records(b"batch 17batch 18")?;
    run(&mut page, &tally)?;

    // New tallies have come. They are taken while no record write is pending; record 1 of them is written and read.
    page.set_records(b"batch 19batch 20")?;
    run(&mut page, &tally)
}
