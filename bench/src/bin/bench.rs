//! Times the archive's run beside the plain one, on the same commands in one process, and prints nanoseconds a command.
//!
//!     cargo run --release --bin bench [-- --repeat N]
//!     cargo run --release --bin bench -- --once ROW RUNS plain|archive
//!
//! Both take turns; the least time of each counts, since whatever else the machine does only adds to it. With --repeat
//! all is measured N times: a cell has the least times of all, and the least and the greatest ratio. Exit status 1: the
//! two left different bytes, or the cost is not linear in the commands; 2: bad usage. With --once a row, from 0, is gone through
//! once by one of the two, in runs of so many commands, and nothing is printed: for programs that count instructions.
use std::process::exit;
use std::time::Instant;

use lagumtay::raw::{Answer, Format, FOLDED, LONGEST_ENTRY, PLAIN};
use lagumtay_bench::owned::Owned;
use lagumtay_bench::plain::{self, number};
use lagumtay_bench::random::Random;
use lagumtay_bench::timing::{self, deeper, least, Cell};

const COMMANDS: usize = 30_000;
/// How many commands a run has, column by column.
const RUNS: [usize; 3] = [1, 100, COMMANDS];
/// How much dearer a command of a four times longer run may be before the cost counts as not linear.
const MOST_GROWTH: f64 = 1.5;

/// The table, row by row: its name, the readers, and the commands.
const ROWS: &[(&str, usize, Schedule)] = &[
    ("count writes and reads, m = 2", 1, Counts { m: 2, layout: PLAIN }),
    ("count writes and reads, m = 8", 1, Counts { m: 8, layout: PLAIN }),
    ("count writes and reads, m = 2, folded", 1, Counts { m: 2, layout: FOLDED }),
    ("count writes and reads, m = 8, folded", 1, Counts { m: 8, layout: FOLDED }),
    ("count reads, m = 2", 1, Reads { m: 2, parted: false }),
    ("count reads, m = 8", 1, Reads { m: 8, parted: false }),
    ("count reads between two counts, m = 2", 1, Reads { m: 2, parted: true }),
    ("count reads between two counts, m = 8", 1, Reads { m: 8, parted: true }),
    ("record writes and reads, n = 2", 1, Records { n: 2 }),
    ("record writes and reads, n = 256", 1, Records { n: 256 }),
    ("counts and records, steps in random order", 1, Mixed { most: 1, layout: PLAIN }),
    ("16 readers, count writes and reads, m = 2", 16, Counts { m: 2, layout: PLAIN }),
    ("16 readers, count writes and reads, m = 8", 16, Counts { m: 8, layout: PLAIN }),
    ("16 readers, count writes and reads, m = 2, folded", 16, Counts { m: 2, layout: FOLDED }),
    ("16 readers, count writes and reads, m = 8, folded", 16, Counts { m: 8, layout: FOLDED }),
    ("16 readers, record writes and reads, n = 2", 16, Records { n: 2 }),
    ("16 readers, record writes and reads, n = 256", 16, Records { n: 256 }),
    ("16 readers, counts and records mixed", 16, Mixed { most: 6, layout: PLAIN }),
    ("16 readers, counts and records, steps in random order", 16, Mixed { most: 1, layout: PLAIN }),
    ("16 readers, counts and records, steps in random order, folded", 16, Mixed { most: 1, layout: FOLDED }),
];

enum Schedule {
    /// One count after the other, written and then read by the next reader.
    Counts { m: usize, layout: u16 },
    /// One count read after the other, on a plain page, of copies that are equal or that part.
    Reads { m: usize, parted: bool },
    /// One record after the other, on a plain page, written and then read by the next reader.
    Records { n: usize },
    /// Readers of counts and records in random turns with a writer of both; a turn has up to so many commands.
    Mixed { most: usize, layout: u16 },
}
use Schedule::*;

/// A page, the records that are lent for it, and one log for all runs.
#[derive(Clone, PartialEq)]
struct Hall {
    lent: Owned,
    records: Vec<u8>,
    log: Vec<u8>,
    written: usize,
}

impl Hall {
    /// Opened with the first of the records.
    fn open(bases: &[u16], format: Format, count: u64, records: Vec<u8>) -> Hall {
        let mut lent = Owned::blank(format, bases);
        assert_eq!(plain::open(&mut lent.lend(), count, &records[..format.n]), Ok(()));
        Hall { lent, records, log: Vec::new(), written: 0 }
    }

    /// Run commands; the log goes on where the run before ended.
    fn plain(&mut self, commands: &[u8]) -> (Answer, u8) {
        let log = &mut self.log[self.written..];
        let (answer, ending) = plain::run(&mut self.lent.lend(), &self.records, commands, log);
        self.written += answer.written;
        (answer, number(ending))
    }

    fn archive(&mut self, commands: &[u8]) -> (Answer, u8) {
        let log = &mut self.log[self.written..];
        let (answer, ending) = self.lent.lend().run(&self.records, commands, log);
        self.written += answer.written;
        (answer, ending)
    }
}

/// A schedule over an opened page: its commands' bytes, and where each of them begins and the last one ends.
struct Case {
    name: &'static str,
    opened: Hall,
    bytes: Vec<u8>,
    begins: Vec<usize>,
}

impl Case {
    /// A row's commands, so many, with a log that holds all entries.
    fn new(&(name, readers, ref schedule): &(&'static str, usize, Schedule), commands: usize) -> Case {
        let mut case = match *schedule {
            Counts { m, layout } => Case::counts(readers, m, layout, commands),
            Reads { m, parted } => Case::reads(readers, m, parted, commands),
            Records { n } => Case::records(readers, n, commands),
            Mixed { most, layout } => Case::mixed(readers, most, layout, commands),
        };
        case.name = name;
        case.begins.truncate(commands + 1);
        case.bytes.truncate(case.begins[commands]);
        case.opened.log = vec![0; LONGEST_ENTRY * commands];
        case
    }

    fn empty(opened: Hall) -> Case {
        Case { name: "", opened, bytes: Vec::new(), begins: vec![0] }
    }

    fn commands(&self) -> usize {
        self.begins.len() - 1
    }

    fn push(&mut self, command: &[u8]) {
        self.bytes.extend_from_slice(command);
        self.begins.push(self.bytes.len());
    }

    /// A page with a large count, so that each digit takes part.
    fn counting(readers: usize, m: usize, layout: u16) -> (Hall, u64) {
        let format = Format { q: 1, base: 2, layout, n: 1, readers };
        let first = (1u64 << (8 * m - 1)) + 1;
        (Hall::open(&vec![256; m], format, first, vec![0]), first)
    }

    fn counts(readers: usize, m: usize, layout: u16, commands: usize) -> Case {
        let (opened, first) = Case::counting(readers, m, layout);
        let write = |i| count_write(first + 1 + i as u64);
        Case::in_turn(opened, commands, 2 * m - usize::from(layout), write, |reader| vec![4, reader])
    }

    fn reads(readers: usize, m: usize, parted: bool, commands: usize) -> Case {
        let (mut opened, first) = Case::counting(readers, m, PLAIN);
        if parted {
            // The second copy is written whole, the first not yet; they part left of the middle. By the archive: plain
            // is compiled into its callers, and is slower where it has one more.
            let write = [count_write(first + (1 << (4 * m))), vec![3; m]].concat();
            assert_eq!(opened.archive(&write).1, 0);
        }
        let mut case = Case::empty(opened);
        for i in 0..commands.div_ceil(2 * m + 1) {
            let reader = (i % readers) as u8;
            case.push_read(reader, &[4, reader], 2 * m);
        }
        let mut once = case.opened.clone();
        once.log = vec![0; LONGEST_ENTRY];
        once.archive(&case.bytes[..case.begins[2 * m + 1]]);
        assert_eq!(once.log[0], if parted { 4 } else { 1 });
        case
    }

    fn push_read(&mut self, reader: u8, begin: &[u8], steps: usize) {
        self.push(begin);
        (0..steps).for_each(|_| self.push(&[6, reader]));
    }

    fn records(readers: usize, n: usize, commands: usize) -> Case {
        let format = Format { q: 2, base: 256, layout: PLAIN, n, readers };
        let opened = Hall::open(&[10], format, 0, Random::new(n as u64).bytes(16 * n));
        let write = |i| vec![2, 0, (i % 16) as u8];
        Case::in_turn(opened, commands, 2 * 2 + n, write, |reader| vec![5, reader, 2])
    }

    /// Writes of so many steps, each of them then read by the next reader, which takes as many.
    fn in_turn(
        opened: Hall,
        commands: usize,
        steps: usize,
        write: impl Fn(usize) -> Vec<u8>,
        read: impl Fn(u8) -> Vec<u8>,
    ) -> Case {
        let readers = opened.lent.format.readers;
        let mut case = Case::empty(opened);
        for i in 0..commands.div_ceil(2 * steps + 2) {
            let reader = (i % readers) as u8;
            case.push(&write(i));
            (0..steps).for_each(|_| case.push(&[3]));
            case.push_read(reader, &read(reader), steps);
        }
        case
    }

    fn mixed(readers: usize, most: usize, layout: u16, commands: usize) -> Case {
        let mut random = Random::new(readers as u64);
        let format = Format { q: 2, base: 256, layout, n: 16, readers };
        let lent = random.bytes(16 * 16);
        let mut case = Case::empty(Hall::open(&[10, 24, 60, 60], format, 0, lent));
        // A page that follows, to know who is idle: nothing is refused.
        let mut follower = case.opened.clone();
        follower.log = vec![0; LONGEST_ENTRY];
        let mut count = 0;
        while case.commands() < commands {
            // The writer has one turn in five, or in two beside a single reader.
            let who = random.below(readers + readers.div_ceil(4));
            for _ in 0..random.between(1, most) {
                let command = match follower.lent.readers.get(who).map(|reader| reader.kind) {
                    None if follower.lent.writer.kind != 0 => vec![3],
                    None if random.one_in(2) => vec![2, 0, random.below(16) as u8],
                    None => {
                        count += 1;
                        count_write(count)
                    }
                    Some(0) if random.one_in(2) => vec![4, who as u8],
                    Some(0) => vec![5, who as u8, 3],
                    Some(_) => vec![6, who as u8],
                };
                follower.written = 0;
                assert_eq!(follower.plain(&command).1, 0);
                case.push(&command);
            }
        }
        case
    }

    /// The schedule in runs of so many commands, from the opened page: nanoseconds a command, and what it leaves.
    fn timed(&self, each: usize, depth: usize, run: impl Fn(&mut Hall, &[u8]) -> (Answer, u8)) -> (f64, Hall) {
        let mut hall = self.opened.clone();
        let run_at = |at: usize| &self.bytes[self.begins[at]..self.begins[(at + each).min(self.commands())]];
        let runs: Vec<&[u8]> = (0..self.commands()).step_by(each).map(run_at).collect();
        let mut done = 0;
        let start = Instant::now();
        deeper(depth, &mut || {
            for commands in &runs {
                let (answer, ending) = run(&mut hall, commands);
                done += answer.done;
                assert_eq!(ending, 0, "{}: refused", self.name);
            }
        });
        let time = start.elapsed().as_nanos() as f64 / self.commands() as f64;
        assert_eq!(done, self.commands());
        (time, hall)
    }

    /// One turn of both in runs of so many commands: nanoseconds a command of plain and of the archive.
    fn turn(&self, each: usize, depth: usize) -> [f64; 2] {
        let (plain, left) = self.timed(each, depth, Hall::plain);
        let (archive, left_by_archive) = self.timed(each, depth, Hall::archive);
        if left != left_by_archive {
            println!("{}, runs of {each}: different bytes are left", self.name);
            exit(1);
        }
        [plain, archive]
    }
}

fn count_write(count: u64) -> Vec<u8> {
    [&[1][..], &count.to_be_bytes()].concat()
}

fn cases(commands: usize) -> Vec<Case> {
    ROWS.iter().map(|row| Case::new(row, commands)).collect()
}

fn print_table(repeat: usize) {
    let cases = cases(COMMANDS);
    let cell = |case: &Case, each| Cell::measured(|depth| case.turn(each, depth));
    let table = timing::table(repeat, || cases.iter().flat_map(|case| RUNS.map(|each| cell(case, each))).collect());
    println!("Nanoseconds a command: plain, the archive, and its time divided by plain's.\n");
    println!("| commands | runs of 1 | of 100 | of {COMMANDS} |");
    println!("|---|---|---|---|");
    for (case, row) in cases.iter().zip(table.chunks(RUNS.len())) {
        println!("{}", timing::row(case.name, row));
    }
    println!("\nBoth left the same page, states, buffers and log, byte for byte, after every turn.\n");
}

/// Tells whether the cost is linear in the commands.
fn print_growth() -> bool {
    println!("One run of so many commands, nanoseconds a command of the archive:\n");
    println!("| commands | {} | {} | growth |", COMMANDS, 4 * COMMANDS);
    println!("|---|---|---|---|");
    let mut linear = true;
    for (short, long) in cases(COMMANDS).iter().zip(cases(4 * COMMANDS)) {
        let [short_time, long_time] =
            least(|depth| [short.turn(COMMANDS, depth)[1], long.turn(4 * COMMANDS, depth)[1]]);
        let growth = long_time / short_time;
        linear &= growth < MOST_GROWTH;
        println!("| {} | {short_time:.1} | {long_time:.1} | {growth:.2} |", short.name);
    }
    println!("\nThe cost is {} in the commands.", if linear { "linear" } else { "NOT linear" });
    linear
}

/// The arguments of --once: a row, the commands of a run, and whether it is the archive's.
fn once() -> Option<(usize, usize, bool)> {
    let arguments: Vec<String> = std::env::args().skip(1).collect();
    let [once, row, each, who] = &arguments[..] else { return None };
    let (row, each) = (row.parse().ok()?, each.parse().ok()?);
    let archive = ["plain", "archive"].iter().position(|name| name == who)? == 1;
    (once == "--once" && row < ROWS.len() && each > 0).then_some((row, each, archive))
}

fn main() {
    if let Some((row, each, archive)) = once() {
        let case = Case::new(&ROWS[row], COMMANDS);
        case.timed(each, 0, if archive { Hall::archive } else { Hall::plain });
        return;
    }
    let Some(repeat) = timing::repeat() else {
        eprintln!("usage: bench [--repeat N | --once ROW RUNS plain|archive]");
        exit(2)
    };
    print_table(repeat);
    exit(if print_growth() { 0 } else { 1 });
}
