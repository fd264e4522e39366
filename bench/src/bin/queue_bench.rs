//! Times the archive's hand-over queue beside the plain one, on the same calls in one process, and prints nanoseconds a
//! call.
//!
//!     cargo run --release --bin queue_bench [-- --repeat N]
//!
//! Both take turns; the least time of each counts, since whatever else the machine does only adds to it. With --repeat
//! all is measured N times: a cell has the least times of all, and the least and the greatest ratio. Exit status 1: the
//! two left different bytes; 2: bad usage.
use std::process::exit;
use std::time::Instant;

use lagumtay_bench::queue::{Call, Memory};
use lagumtay_bench::queue_random::top;
use lagumtay_bench::random::Random;
use lagumtay_bench::timing::{self, deeper, Cell};
use Call::*;

/// How many calls a turn has at least.
const CALLS: usize = 20_000;

/// The table, row by row: its name, the bases, n, and the places.
const ROWS: &[(&str, &[u16], usize, usize)] = &[
    ("m = 1, n = 1, P = 1", &[256], 1, 1),
    ("m = 2 of 60, n = 8, P = 4", &[60; 2], 8, 4),
    ("m = 4 of 256, n = 32, P = 16", &[256; 4], 32, 16),
    ("m = 8 of 10, n = 8, P = 7", &[10; 8], 8, 7),
    ("m = 8 of 256, n = 256, P = 64", &[256; 8], 256, 64),
];

/// A schedule over a queue, in which nothing is refused.
struct Case {
    name: &'static str,
    memory: Memory,
    calls: Vec<Call>,
}

impl Case {
    /// One whole act after the other: a sending, then a receiving.
    fn in_turn(row: &(&'static str, &[u16], usize, usize)) -> Case {
        let [sending, receiving] = acts(row);
        Case::new(row, &[], &[sending, receiving].concat())
    }

    /// A step of the sender, a step of the receiver, and so on. With more than one place the receiver is a parcel behind
    /// the sender; with one it begins when the parcel is in, and so both are as above.
    fn alternating(row: &(&'static str, &[u16], usize, usize)) -> Case {
        let [sending, receiving] = acts(row);
        if row.3 == 1 {
            return Case::in_turn(row);
        }
        let both: Vec<Call> = sending.iter().zip(&receiving).flat_map(|(&send, &receive)| [send, receive]).collect();
        Case::new(row, &sending, &both)
    }

    /// An opening and the first calls, then the others again and again; all of it anew where the numbers give out.
    fn new(&(name, bases, n, places): &(&'static str, &[u16], usize, usize), first: &[Call], again: &[Call]) -> Case {
        let memory = Memory::blank(bases, n, places, Random::new(n as u64).bytes(2 * n));
        let acts = top(bases) - u64::from(!first.is_empty());
        let mut calls = Vec::new();
        while calls.len() < CALLS {
            calls.push(Open);
            calls.extend_from_slice(first);
            for _ in 0..acts {
                calls.extend_from_slice(again);
                if calls.len() >= CALLS {
                    break;
                }
            }
        }
        Case { name, memory, calls }
    }

    /// The calls from down the stack: nanoseconds a call, and what is left.
    fn timed(&self, depth: usize, answer: impl Fn(&mut Memory, Call) -> u8) -> (f64, Memory) {
        let mut memory = self.memory.clone();
        let start = Instant::now();
        deeper(depth, &mut || {
            for &call in &self.calls {
                assert_eq!(answer(&mut memory, call), 0, "{}: {call:?} is refused", self.name);
            }
        });
        (start.elapsed().as_nanos() as f64 / self.calls.len() as f64, memory)
    }

    /// One turn of both.
    fn turn(&self, depth: usize) -> [f64; 2] {
        let (plain, left) = self.timed(depth, Memory::plain);
        let (archive, left_by_archive) = self.timed(depth, Memory::archive);
        if left != left_by_archive {
            println!("{}: different bytes are left", self.name);
            exit(1);
        }
        [plain, archive]
    }
}

/// The calls of a sending and of a receiving.
fn acts(&(_, bases, n, _): &(&'static str, &[u16], usize, usize)) -> [Vec<Call>; 2] {
    let steps = 2 * bases.len() + n;
    [[vec![SendBegin(1)], vec![SendStep; steps]].concat(), [vec![ReceiveBegin], vec![ReceiveStep; steps]].concat()]
}

fn main() {
    let Some(repeat) = timing::repeat() else {
        eprintln!("usage: queue_bench [--repeat N]");
        exit(2)
    };
    let cases: Vec<[Case; 2]> = ROWS.iter().map(|row| [Case::in_turn(row), Case::alternating(row)]).collect();
    let measured = || cases.iter().flatten().map(|case| Cell::measured(|depth| case.turn(depth))).collect();
    let table = timing::table(repeat, measured);
    println!("Nanoseconds a call: plain, the archive, and its time divided by plain's.\n");
    println!("| hand-overs | one act after the other | steps of both in turns |");
    println!("|---|---|---|");
    for ([case, _], cells) in cases.iter().zip(table.chunks(2)) {
        println!("{}", timing::row(case.name, cells));
    }
    println!("\nBoth left the same queue, states and buffer, byte for byte, after every turn.");
}
