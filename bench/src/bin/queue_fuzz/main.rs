//! The archive's hand-over queue against the plain one, on random and damaged calls.
//!
//!     cargo run --release --bin queue_fuzz -- CALLS [SEED [CASE]]
//!
//! A case is a queue that both sides use in turns of random length. About every other call goes on with it; the others
//! take a copy in which something is damaged, or numbers and states are made up, and the copy is dropped after a few
//! calls. Every call goes to both, and all that was lent is compared. What the archive is lent begins right after a
//! page that may not be touched, and in every other case ends right before one; what it may only read cannot be
//! written. CASE replays that one alone. Exit status 1: some call differed, or many calls did not meet each answer and
//! a parcel from beyond record 65,535. A touch outside of what was lent ends the program by its signal, and tells the
//! case.
mod lending;

use lagumtay_bench::asked;
use lagumtay_bench::guarded::{named, Side};
use lagumtay_bench::queue::{Call, Memory};
use lagumtay_bench::queue_random::{damage, make_up, some_call, some_index, some_queue, stand, FAR};
use lagumtay_bench::random::Random;

use crate::lending::Lending;

const MOST_SHOWN: u64 = 10;
const ANSWERS: [u8; 10] = [0, 1, 2, 3, 6, 7, 8, 9, 13, 14];
/// So many calls must meet every answer, and a parcel from a far record.
const MANY: u64 = 100_000;

#[derive(Default)]
struct Totals {
    calls: u64,
    /// those that went on with a queue
    live: u64,
    /// by what was called
    functions: [u64; 7],
    /// by the number that plain answered
    answers: [u64; 15],
    /// on live queues: parcels put in and copied out
    put: u64,
    out: u64,
    /// those put in from a far record
    far: u64,
    /// gatherings refused though there was room, or a parcel
    met: u64,
    /// last digits of a gathering that were refused, and then accepted
    again: u64,
    differed: u64,
}

fn function(call: Call) -> usize {
    match call {
        Call::Open => 0,
        Call::SendBegin(_) => 1,
        Call::SendStep => 2,
        Call::SendCancel => 3,
        Call::ReceiveBegin => 4,
        Call::ReceiveStep => 5,
        Call::ReceiveCancel => 6,
    }
}

/// Where a case stands.
struct Case<'a> {
    random: Random,
    memory: Memory,
    /// parcels put in and not copied out
    held: usize,
    /// whether the last step of a side was refused by 13 or 14
    refused: [bool; 2],
    name: &'a str,
    verbose: bool,
    /// of a guard, for all that is lent
    side: Side,
    lending: &'a mut Lending,
    totals: &'a mut Totals,
}

impl Case<'_> {
    /// Hand the call to both and compare. Gives the answer, or nothing if they differ.
    fn compare(&mut self, memory: &mut Memory, call: Call) -> Option<u8> {
        let before = memory.clone();
        if self.verbose {
            println!("{call:?} {before:02x?}");
        }
        let answer = memory.plain(call);
        let (their_answer, theirs) = self.lending.archive(&before, call, self.side);
        self.totals.calls += 1;
        self.totals.functions[function(call)] += 1;
        self.totals.answers[usize::from(answer)] += 1;
        if self.verbose {
            println!("  answers {answer}\n");
        }
        if answer == their_answer && *memory == theirs {
            return Some(answer);
        }
        self.totals.differed += 1;
        if self.totals.differed <= MOST_SHOWN {
            println!("{}, call {}: {call:?}, plain {answer}, archive {their_answer}", self.name, self.totals.calls);
            println!("before {before:02x?}\nplain leaves {memory:02x?}\narchive leaves {theirs:02x?}");
        }
        None
    }

    /// A queue that is used until a call differs; nothing: one did.
    fn queue(&mut self) -> Option<()> {
        self.memory = some_queue(&mut self.random);
        if self.random.one_in(2) {
            self.live(Call::Open)?;
        } else {
            self.held = stand(&mut self.random, &mut self.memory);
        }
        let short = self.random.one_in(2);
        for _ in 0..self.random.between(1, if short { 200 } else { 30 }) {
            let sends = self.random.one_in(2);
            let whole = 2 * self.memory.bases.len() + self.memory.format.n;
            let calls = if short { self.random.between(1, 3) } else { self.random.of(&[1, 2, whole, whole + 1]) };
            for _ in 0..calls {
                let call = self.next_call(sends);
                let answer = self.live(call)?;
                self.copy()?;
                // The other side must go on first.
                if matches!(answer, 9 | 13 | 14) && !self.random.one_in(4) {
                    break;
                }
            }
        }
        Some(())
    }

    /// A call of this side that mostly can be carried out.
    fn next_call(&mut self, sends: bool) -> Call {
        let kind = if sends { self.memory.sender.kind } else { self.memory.receiver.kind };
        let begins = (kind == 0) != self.random.one_in(30);
        let cancels = self.random.one_in(25);
        match (sends, begins, cancels) {
            (true, true, _) => Call::SendBegin(some_index(&mut self.random, &self.memory)),
            (true, false, true) => Call::SendCancel,
            (true, false, false) => Call::SendStep,
            (false, true, _) => Call::ReceiveBegin,
            (false, false, true) => Call::ReceiveCancel,
            (false, false, false) => Call::ReceiveStep,
        }
    }

    /// A call that goes on with the queue.
    fn live(&mut self, call: Call) -> Option<u8> {
        let mut memory = std::mem::take(&mut self.memory);
        let steps = [memory.sender.steps, memory.receiver.steps];
        let answer = self.compare(&mut memory, call)?;
        self.memory = memory;
        self.count(call, steps, answer);
        Some(answer)
    }

    /// What a live call did with parcels and gatherings, of sides that had taken so many steps.
    fn count(&mut self, call: Call, steps: [usize; 2], answer: u8) {
        let Case { memory, totals, held, .. } = self;
        totals.live += 1;
        let (side, possible) = match call {
            Call::SendStep => (0, *held < memory.format.places),
            Call::ReceiveStep => (1, *held > 0),
            _ => return,
        };
        let refused = matches!(answer, 13 | 14);
        totals.met += u64::from(refused && possible);
        totals.again += u64::from(self.refused[side] && answer == 0);
        self.refused[side] = refused;
        if answer == 0 && steps[side] + 1 == memory.bases.len() + memory.format.n {
            let [put, out] = if side == 0 { [1, 0] } else { [0, 1] };
            *held = *held + put - out;
            totals.put += put as u64;
            totals.out += out as u64;
            totals.far += u64::from(side == 0 && memory.sender.index >= FAR);
        }
    }

    /// Every other time calls on a copy that is damaged or made up.
    fn copy(&mut self) -> Option<()> {
        if self.random.one_in(2) {
            return Some(());
        }
        let mut copy = self.memory.clone();
        if self.random.one_in(2) {
            make_up(&mut self.random, &mut copy);
        }
        for _ in 0..self.random.below(3) {
            damage(&mut self.random, &mut copy);
        }
        for _ in 0..self.random.between(1, 3) {
            let call = some_call(&mut self.random, &copy);
            self.compare(&mut copy, call)?;
        }
        Some(())
    }
}

fn print_totals(totals: &Totals, cases: u64) {
    let Totals { calls, live, functions, put, out, far, met, again, .. } = totals;
    let [open, send_begin, send_step, send_cancel, receive_begin, receive_step, receive_cancel] = functions;
    println!("{calls} calls of {cases} cases, {live} of them went on with a queue; {open} of open,");
    println!("sender: {send_begin} of begin, {send_step} of step, {send_cancel} of cancel;");
    println!("receiver: {receive_begin} of begin, {receive_step} of step, {receive_cancel} of cancel");
    println!("queues that went on: {put} parcels put in, {far} of them from beyond record 65,535, {out} copied out;");
    println!("{met} gatherings were refused though there was room or a parcel, and {again} refused last digits were");
    println!("stepped again with success");
    for (number, count) in totals.answers.iter().enumerate().filter(|(_, &count)| count > 0) {
        println!("answered {number}: {count}");
    }
    println!("{} differed", totals.differed);
}

/// Whether no call differed, and all answers were met where there were many.
fn compared(calls: u64, seed: u64, only: Option<u64>) -> bool {
    let mut totals = Totals::default();
    let mut lending = Lending::default();
    let mut at = only.unwrap_or(0);
    while totals.calls < calls {
        let name = &format!("seed {seed}, case {at}");
        let mut case = Case {
            random: Random::new(seed.wrapping_mul(0x0100_0000_01b3) ^ at),
            memory: Memory::default(),
            held: 0,
            refused: [false; 2],
            name,
            verbose: only.is_some(),
            side: Side::of_case(at),
            lending: &mut lending,
            totals: &mut totals,
        };
        named(name, || case.queue());
        at += 1;
        if only.is_some() {
            break;
        }
    }
    print_totals(&totals, if only.is_some() { 1 } else { at });
    let missed = ANSWERS.iter().filter(|&&answer| totals.answers[usize::from(answer)] == 0).count();
    if totals.calls >= MANY && (missed > 0 || totals.far == 0) {
        println!("{missed} answers were not met, and {} parcels were sent from far records", totals.far);
        return false;
    }
    totals.differed == 0
}

fn main() {
    asked::compare("queue_fuzz", compared)
}
