//! Two who take turns, and how long each takes: what both benches print.
use std::fmt;
use std::hint::black_box;
use std::time::{Duration, Instant};

/// Turns go on for so long, and there are so many at least: neither a short disturbance nor the place of the stack must
/// decide.
const TURNS: usize = 64;
const TIME: Duration = Duration::from_millis(600);

/// Calls from so many frames further down the stack. A load waits for a store that lies a multiple of 4096 bytes from
/// it, so that with one place of the stack beside what is lent a side may have bad luck throughout.
#[inline(never)]
pub fn deeper(frames: usize, call: &mut dyn FnMut()) {
    match frames {
        0 => call(),
        _ => deeper(black_box(frames - 1), call),
    }
    black_box(frames);
}

/// The least times of two who take turns; a turn is told from how far down the stack it is to be made.
pub fn least(mut turn: impl FnMut(usize) -> [f64; 2]) -> [f64; 2] {
    let mut least = [f64::MAX; 2];
    let start = Instant::now();
    let mut turns = 0;
    while turns < TURNS || start.elapsed() < TIME {
        turns += 1;
        let times = turn(turns % TURNS);
        least = [least[0].min(times[0]), least[1].min(times[1])];
    }
    least
}

/// The least times, and between what the archive's time divided by plain's lay.
pub struct Cell {
    plain: f64,
    archive: f64,
    least: f64,
    greatest: f64,
}

impl Cell {
    /// Measured over turns that give nanoseconds of plain and of the archive.
    pub fn measured(turn: impl FnMut(usize) -> [f64; 2]) -> Cell {
        let [plain, archive] = least(turn);
        let ratio = archive / plain;
        Cell { plain, archive, least: ratio, greatest: ratio }
    }

    pub fn and(self, other: Cell) -> Cell {
        Cell {
            plain: self.plain.min(other.plain),
            archive: self.archive.min(other.archive),
            least: self.least.min(other.least),
            greatest: self.greatest.max(other.greatest),
        }
    }
}

impl fmt::Display for Cell {
    fn fmt(&self, f: &mut fmt::Formatter) -> fmt::Result {
        let Cell { plain, archive, least, greatest } = self;
        write!(f, "{plain:.1}, {archive:.1}, {least:.2}")?;
        if least < greatest {
            write!(f, " to {greatest:.2}")?;
        }
        Ok(())
    }
}

/// A table of cells, measured so many times.
pub fn table(repeat: usize, measured: impl Fn() -> Vec<Cell>) -> Vec<Cell> {
    let mut table = measured();
    for _ in 1..repeat {
        table = table.into_iter().zip(measured()).map(|(cell, again)| cell.and(again)).collect();
    }
    table
}

/// A row of a table as text.
pub fn row(name: &str, cells: &[Cell]) -> String {
    format!("| {name} | {} |", cells.iter().map(Cell::to_string).collect::<Vec<_>>().join(" | "))
}

/// How often all is to be measured, by the program's arguments; nothing if they are bad.
pub fn repeat() -> Option<usize> {
    let arguments: Vec<String> = std::env::args().skip(1).collect();
    let arguments: Vec<&str> = arguments.iter().map(String::as_str).collect();
    match arguments[..] {
        [] => Some(1),
        ["--repeat", times] => times.parse().ok().filter(|&times| times > 0),
        _ => None,
    }
}
