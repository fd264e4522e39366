//! `runlist` on top of the plain implementation: the run of standard input, printed. With `--folded` the pages are
//! folded, and what is left of them is told too.
use std::env;
use std::io::{self, Read, Write};

use lagumtay_bench::runlist;

fn main() -> io::Result<()> {
    let print = if env::args().any(|argument| argument == "--folded") { runlist::folded } else { runlist::printed };
    let mut input = Vec::new();
    io::stdin().lock().read_to_end(&mut input)?;
    io::stdout().lock().write_all(print(&input).as_bytes())
}
