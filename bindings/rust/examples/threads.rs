//! A hall of threads: one owns the page and takes commands from a channel; a scanner, a board and a desk send them and
//! get outcomes back. Their steps mix as the machine has it; what is printed is the same each time.
//!
//!     cargo run --manifest-path bindings/rust/Cargo.toml --example threads
use std::sync::mpsc::{channel, Receiver, Sender};
use std::thread;

use lagumtay::{Choice, Command, Count, Format, Layout, Outcome, Page, Refusal, Version};

const BATCHES: [&[u8]; 4] = [b"opening.", b"batch 17", b"batch 18", b"batch 19"];
const LAST: Count = Count(12 * 60 + 4);
const BOARD: u8 = 0;
const DESK: u8 = 1;

/// A command, and where its outcome goes.
type Asked = (Command, Sender<Result<Outcome, Refusal>>);

/// The thread that owns the page: it carries out commands one after another, until nobody can ask any more.
fn own(mut page: Page, asked: Receiver<Asked>) {
    for (command, answer) in asked {
        // Who asked may have gone meanwhile.
        let _ = answer.send(page.step(command));
    }
}

/// A way to the page for one thread.
#[derive(Clone)]
struct Hall(Sender<Asked>);

impl Hall {
    fn step(&self, command: Command) -> Result<Outcome, Refusal> {
        let (answer, answered) = channel();
        self.0.send((command, answer)).expect("the owner listens");
        answered.recv().expect("the owner answers")
    }

    /// A whole read: how it ended.
    fn read(&self, begin: Command, reader: u8) -> Result<Outcome, Refusal> {
        self.step(begin)?;
        loop {
            match self.step(Command::ReaderStep(reader))? {
                Outcome::Nothing => {}
                ended => return Ok(ended),
            }
        }
    }

    /// A whole write: its steps are taken until none is pending.
    fn write(&self, announce: Command) -> Result<(), Refusal> {
        self.step(announce)?;
        loop {
            match self.step(Command::WriterStep) {
                Ok(_) => {}
                Err(Refusal::NothingPending) => return Ok(()),
                Err(why) => return Err(why),
            }
        }
    }
}

/// Write all counts and all records.
fn scan(hall: Hall) -> Result<(), Refusal> {
    for minute in 11 * 60 + 58..=LAST.0 {
        hall.write(Command::WriteCount(Count(minute)))?;
    }
    (0..3).try_for_each(|index| hall.write(Command::WriteRecord(index)))
}

/// Read counts until the last one is shown.
fn show(hall: Hall) -> Result<Count, Refusal> {
    loop {
        let begin = Command::BeginCountRead {
            reader: BOARD,
            choice: Choice::Low,
        };
        match hall.read(begin, BOARD)?.shown() {
            Some(LAST) => return Ok(LAST),
            Some(count) => assert!(count < LAST, "a count that nobody wrote"),
            None => panic!("a count read shows a count"),
        }
    }
}

/// Take records until the last one is there. Each is whole: it is the one that its version says.
fn release(hall: Hall) -> Result<Vec<u8>, Refusal> {
    loop {
        let begin = Command::BeginRecordRead {
            reader: DESK,
            attempts: 3,
        };
        if let Outcome::Accepted {
            version: Version(version),
            record,
            ..
        } = hall.read(begin, DESK)?
        {
            assert_eq!(record, BATCHES[version as usize]);
            if version == 3 {
                return Ok(record);
            }
        }
    }
}

fn main() -> Result<(), Refusal> {
    let format = Format {
        bases: vec![24, 60],
        q: 1,
        base: 256,
        layout: Layout::Plain,
        n: 8,
        readers: 2,
    };
    let mut page = Page::open(format, Count(11 * 60 + 57), BATCHES[0])?;
    page.set_records(&BATCHES[1..].concat())?;
    let (sender, asked) = channel();
    let owner = thread::spawn(move || own(page, asked));
    let hall = Hall(sender);

    let [scanning, showing, releasing] = [hall.clone(), hall.clone(), hall];
    let scanning = thread::spawn(move || scan(scanning));
    let showing = thread::spawn(move || show(showing));
    let releasing = thread::spawn(move || release(releasing));

    scanning.join().expect("the scanner")?;
    println!("the scanner wrote all counts and records");
    let Count(shown) = showing.join().expect("the board")?;
    println!(
        "the board shows {:02}:{:02} at last",
        shown / 60,
        shown % 60
    );
    let record = releasing.join().expect("the desk")?;
    println!(
        "the desk accepts {} at last",
        String::from_utf8_lossy(&record)
    );
    owner.join().expect("the owner ends when nobody asks");
    Ok(())
}
