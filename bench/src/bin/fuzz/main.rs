//! The archive against the plain implementation, on random and damaged calls.
//!
//!     cargo run --release --bin fuzz -- CALLS [SEED [CASE]]
//!
//! A case is a page, plain or folded, with a row of calls, each from what the one before left: mostly schedules that
//! go on, with damage to a byte, a field or a length now and then, some cases of nothing but garbage, and some that
//! begin in a corner. Every call goes to both, and all that was lent is compared: format, bases, page, writer, readers,
//! buffers, records, commands, log, packed bytes, and the answer or the outcome. What the archive is lent begins right
//! after a page that may not be touched, and in every other case ends right before one; what it may only read cannot be
//! written. CASE replays that one alone. Exit status 1: some call differed, or many calls did not meet all that there
//! is of the choice between two ends and of the corners. A touch outside of what was lent ends the program by its
//! signal, and tells the case.
mod call;
mod case;
mod choices;
mod corners;
mod damage;
mod lending;
mod reached;
mod schedule;
mod totals;
mod wild;

use lagumtay_bench::asked;
use lagumtay_bench::guarded::{named, Side};
use lagumtay_bench::random::Random;

use crate::call::Call;
use crate::case::Case;
use crate::lending::Lending;
use crate::totals::Totals;

/// So many calls must meet all of the choices and of what is to be reached.
const MANY: u64 = 10_000;

/// Whether no call differed, and where there were many all was met.
fn compared(calls: u64, seed: u64, only: Option<u64>) -> bool {
    let mut totals = Totals::default();
    let mut lending = Lending::default();
    let mut at = only.unwrap_or(0);
    while totals.calls < calls {
        let name = &format!("seed {seed}, case {at}");
        let mut case = Case {
            random: Random::new(seed.wrapping_mul(0x0100_0000_01b3) ^ at),
            call: Call::default(),
            count: 0,
            name,
            verbose: only.is_some(),
            side: Side::of_case(at),
            lending: &mut lending,
            totals: &mut totals,
        };
        named(name, || case.play());
        totals.cases += 1;
        if only.is_some() {
            break;
        }
        at += 1;
    }
    println!("{totals}");
    let many = totals.calls >= MANY;
    if many && !totals.choices.all() {
        println!("not all of the choice was met");
    }
    if many && !totals.reached.all() {
        println!("not all of the corners were met");
    }
    totals.differed == 0 && (!many || totals.choices.all() && totals.reached.all())
}

fn main() {
    asked::compare("fuzz", compared)
}
