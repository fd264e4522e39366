//! A shared page of digits with one writer and up to 16 readers, after Lamport: a machine of single steps. Each
//! [`Command`] moves one digit, so that a schedule decides who moves when, and readers can tell whether they met the
//! writer. That a page is read without locks does not mean that calls may overlap: **calls on one page are made one
//! after another**, which `&mut self` sees to. Threads share a page [as below](#several-threads).
//!
//! The code behind these calls is proved: what each answers and leaves is an equation with the definitions under
//! `crates/protocol/specs` of the repository, and `README.md` there tells what is promised.
//!
//! A [`Page`] owns its memory, and its records too. [`Page::step`] carries out one command, [`Page::run`] a list; both
//! tell by an [`Outcome`] how a read ended.
//!
//! ```
//! use lagumtay::{Choice, Command, Count, Format, Layout, Outcome, Page, Version};
//!
//! // Hours and minutes; versions of one digit; records of 8 bytes; a board and a desk that read.
//! let format = Format { bases: vec![24, 60], q: 1, base: 256, layout: Layout::Plain, n: 8, readers: 2 };
//! let (board, desk) = (0, 1);
//! let mut page = Page::open(format, Count(11 * 60 + 57), b"opening.")?;
//! page.set_records(b"batch 17")?;
//!
//! // The board reads the first copy, 11:57; 12:04 is written meanwhile; then the board reads the second copy.
//! page.step(Command::BeginCountRead { reader: board, choice: Choice::High })?;
//! page.run(&[Command::ReaderStep(board); 2])?;
//! page.step(Command::WriteCount(Count(12 * 60 + 4)))?;
//! page.run(&[Command::WriterStep; 4])?;
//! let read = page.run(&[Command::ReaderStep(board); 2])?;
//! // The copies part: the board may show 11:59 or 12:00, and chose the high end.
//! assert_eq!(read[0].shown(), Some(Count(12 * 60)));
//!
//! // A record is written, and the desk takes it.
//! let steps = page.format().record_steps();
//! page.step(Command::WriteRecord(0))?;
//! page.run(&vec![Command::WriterStep; steps])?;
//! page.step(Command::BeginRecordRead { reader: desk, attempts: 3 })?;
//! loop {
//!     match page.step(Command::ReaderStep(desk))? {
//!         Outcome::Nothing => {}
//!         Outcome::Accepted { version, record, .. } => {
//!             assert_eq!((version, &record[..]), (Version(1), &b"batch 17"[..]));
//!             break;
//!         }
//!         Outcome::GaveUp { attempts, .. } => panic!("torn {attempts} times"),
//!         Outcome::Shown { .. } | Outcome::Between { .. } => unreachable!("the desk reads no counts"),
//!     }
//! }
//! # Ok::<(), Box<dyn std::error::Error>>(())
//! ```
//!
//! A count read that meets a write may end as [`Outcome::Between`] two counts. Then a read begun with [`Choice::Low`],
//! which names no end, shows the low one, and one begun with [`Choice::High`] the high one: [`Outcome::shown`] gives
//! it. Either lies in the span from the last count fully written before the read's first step to the last one begun
//! before its last step; the low end may be above every count fully written. A record that is accepted is whole.
//!
//! A page is laid out plain or folded, as its [`Layout`] says: a folded one has a count digit fewer, and a count write
//! or read a step fewer.
//!
//! # Several threads
//!
//! Either a `Mutex<Page>` is locked for each step, or one thread owns the page and takes commands from a channel:
//!
//! ```
//! use std::sync::mpsc::{channel, Sender};
//! use std::thread;
//!
//! use lagumtay::{Choice, Command, Count, Format, Layout, Outcome, Page, Refusal};
//!
//! type Asked = (Command, Sender<Result<Outcome, Refusal>>);
//!
//! /// Have the owner of the page carry out one command.
//! fn ask(owner: &Sender<Asked>, command: Command) -> Result<Outcome, Refusal> {
//!     let (answer, answered) = channel();
//!     owner.send((command, answer)).expect("the owner listens");
//!     answered.recv().expect("the owner answers")
//! }
//!
//! let format = Format { bases: vec![10, 10], q: 1, base: 10, layout: Layout::Plain, n: 1, readers: 1 };
//! let mut page = Page::open(format, Count(9), b"a")?;
//! let (owner, asked) = channel::<Asked>();
//! let owned = thread::spawn(move || {
//!     for (command, answer) in asked {
//!         answer.send(page.step(command)).expect("who asked waits");
//!     }
//!     page
//! });
//!
//! let writer = owner.clone();
//! let writing = thread::spawn(move || {
//!     ask(&writer, Command::WriteCount(Count(10)))?;
//!     (0..4).try_for_each(|_| ask(&writer, Command::WriterStep).map(|_| ()))
//! });
//! ask(&owner, Command::BeginCountRead { reader: 0, choice: Choice::Low })?;
//! let shown = loop {
//!     if let Some(count) = ask(&owner, Command::ReaderStep(0))?.shown() {
//!         break count;
//!     }
//! };
//! assert!(shown == Count(9) || shown == Count(10));
//!
//! writing.join().expect("no panic")?;
//! drop(owner);
//! assert!(owned.join().expect("no panic").writer().is_idle());
//! # Ok::<(), Refusal>(())
//! ```
//!
//! # Beside it
//!
//! [`queue`] hands parcels from one sender to one receiver. [`raw`] and [`queue::raw`] are for callers who own the
//! memory themselves. Without the feature `alloc`, which is on by default, these are left, and all that needs no
//! allocator: [`Command`], [`Refusal`], [`Entry`], [`Entries`] and the numbers. No feature needs `std`.
#![no_std]
#![deny(missing_docs)]
#![cfg_attr(not(feature = "alloc"), allow(rustdoc::broken_intra_doc_links))] // those to Page and Queue

#[cfg(feature = "alloc")]
extern crate alloc;

mod choice;
mod command;
mod entry;
#[cfg(feature = "alloc")]
mod format;
mod layout;
mod number;
#[cfg(feature = "alloc")]
mod outcome;
#[cfg(feature = "alloc")]
mod page;
pub mod queue;
pub mod raw;
mod refusal;
#[cfg(feature = "alloc")]
mod run;
#[cfg(feature = "alloc")]
mod saved;
#[cfg(feature = "alloc")]
mod state;

pub use choice::Choice;
#[cfg(feature = "alloc")]
pub use command::commands;
pub use command::Command;
pub use entry::{Entries, Entry};
#[cfg(feature = "alloc")]
pub use format::Format;
pub use layout::Layout;
pub use number::{Count, Version};
#[cfg(feature = "alloc")]
pub use outcome::Outcome;
#[cfg(feature = "alloc")]
pub use page::Page;
pub use refusal::Refusal;
#[cfg(feature = "alloc")]
pub use run::Stopped;
#[cfg(feature = "alloc")]
pub use state::{Reading, Writing};
