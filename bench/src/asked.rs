//! What both fuzz programs are asked: how many calls of which seed, or one case alone.
use std::process::exit;

/// Compares what the arguments ask for. Exit status 1: something differs; 2: bad usage.
pub fn compare(program: &str, compared: impl FnOnce(u64, u64, Option<u64>) -> bool) -> ! {
    let mut numbers = std::env::args().skip(1).map(|argument| {
        argument.parse::<u64>().unwrap_or_else(|_| {
            eprintln!("usage: {program} CALLS [SEED [CASE]]");
            exit(2)
        })
    });
    let calls = numbers.next().unwrap_or(1_000_000);
    let seed = numbers.next().unwrap_or(1);
    let case = numbers.next();
    exit(if compared(calls, seed, case) { 0 } else { 1 })
}
