//! The recorded schedules of the hand-over queue, replayed through the plain implementation and through the archive:
//! every answer, and all that is left. The file's layout: reference/README.md.
use std::fs;
use std::path::Path;

use lagumtay::queue::raw::{Receiver, Sender};
use lagumtay_bench::queue::{Call, Memory};

/// A schedule: what is lent, the calls with their answers, and what is left.
struct Schedule {
    name: String,
    lent: Memory,
    calls: Vec<(Call, u8)>,
    left: Memory,
}

/// A token, and how often it stands there.
fn times(token: &str) -> (&str, usize) {
    match token.split_once('*') {
        Some((one, times)) => (one, times.parse().expect("how often")),
        None => (token, 1),
    }
}

fn hexadecimal(text: &str) -> Vec<u8> {
    let byte = |i| u8::from_str_radix(&text[i..i + 2], 16).expect("two hexadecimal digits");
    (0..text.len()).step_by(2).map(byte).collect()
}

/// Bytes, of which a run of equal ones may be one of them and its length.
fn bytes(text: &str) -> Vec<u8> {
    let part = |token| {
        let (one, times) = times(token);
        hexadecimal(one).repeat(times)
    };
    text.split(' ').filter(|&token| token != "-").flat_map(part).collect()
}

fn numbers<T: std::str::FromStr<Err: std::fmt::Debug>>(text: &str, between: char) -> Vec<T> {
    text.split(between).filter(|&number| number != "-").map(|number| number.parse().expect("a number")).collect()
}

/// Serial, steps, kind and digits of a state, and an index behind them, if there is one.
fn state(text: &str) -> (u64, usize, usize, [u8; 8], Option<usize>) {
    let fields: Vec<&str> = text.split(' ').collect();
    let number = |field: &str| field.parse().expect("a number");
    let digits = hexadecimal(fields[3]).try_into().expect("eight digits");
    let index = fields.get(4).map(|&field| number(field));
    (fields[0].parse().expect("a serial"), number(fields[1]), number(fields[2]), digits, index)
}

/// One line of what is lent or left.
fn put(memory: &mut Memory, line: &str) {
    let (name, rest) = line.split_once(' ').expect("a name");
    match name {
        "format" => {
            let [bases, n, places] = rest.split(' ').collect::<Vec<_>>()[..] else { panic!("a format: {line}") };
            memory.bases = numbers(bases, ',');
            memory.format.n = n.parse().expect("a number");
            memory.format.places = places.parse().expect("a number");
        }
        "records" => memory.records = bytes(rest),
        "queue" => memory.queue = bytes(rest),
        "buffer" => memory.buffer = bytes(rest),
        "sender" => {
            let (serial, steps, kind, digits, index) = state(rest);
            memory.sender = Sender { serial, steps, kind, digits, index: index.expect("an index") };
        }
        "receiver" => {
            let (serial, steps, kind, digits, _) = state(rest);
            memory.receiver = Receiver { serial, steps, kind, digits };
        }
        _ => panic!("an unknown line: {line}"),
    }
}

/// A call with its answer, and how often it is made.
fn call(token: &str) -> Vec<(Call, u8)> {
    let (one, times) = times(token);
    let (letters, answer) = one.split_once(':').unwrap_or((one, "0"));
    let call = match letters {
        "O" => Call::Open,
        "s" => Call::SendStep,
        "s-" => Call::SendCancel,
        "R" => Call::ReceiveBegin,
        "r" => Call::ReceiveStep,
        "r-" => Call::ReceiveCancel,
        _ => Call::SendBegin(letters.strip_prefix('S').expect("a call").parse().expect("an index")),
    };
    vec![(call, answer.parse().expect("an answer")); times]
}

fn schedule(block: &str) -> Schedule {
    let mut lines = block.lines();
    let name = lines.next().expect("a name").to_string();
    let mut lent = Memory::default();
    let calls = loop {
        let line = lines.next().expect("calls");
        match line.strip_prefix("calls ") {
            Some(calls) => break calls.split(' ').flat_map(call).collect(),
            None => put(&mut lent, line),
        }
    };
    let mut left = lent.clone();
    // Of all that calls may change there must be a line, so that nothing stays unlooked at.
    let mut seen = 0;
    for line in lines {
        put(&mut left, line);
        seen += 1;
    }
    assert_eq!(seen, 4, "{name}: queue, sender, receiver and buffer are left");
    Schedule { name, lent, calls, left }
}

fn recorded() -> Vec<Schedule> {
    let file = Path::new(env!("CARGO_MANIFEST_DIR")).join("../reference/data/queue.txt");
    let schedules: Vec<_> = fs::read_to_string(file).unwrap().trim_end().split("\n\n").map(schedule).collect();
    assert!(schedules.len() >= 350, "only {} recorded schedules found", schedules.len());
    schedules
}

fn replay(answer: fn(&mut Memory, Call) -> u8) {
    for Schedule { name, lent, calls, left } in recorded() {
        let mut memory = lent;
        for (at, &(call, expected)) in calls.iter().enumerate() {
            assert_eq!(answer(&mut memory, call), expected, "{name}: call {at}, {call:?}");
        }
        assert_eq!(memory, left, "{name}");
    }
}

#[test]
fn plain_replays_the_recorded_schedules() {
    replay(Memory::plain);
}

#[test]
fn the_archive_replays_the_recorded_schedules() {
    replay(Memory::archive);
}

/// Each answer is there, and each call is answered by 0 and by a refusal.
#[test]
fn the_schedules_have_every_answer() {
    let calls: Vec<(Call, u8)> = recorded().into_iter().flat_map(|schedule| schedule.calls).collect();
    for answer in [0, 1, 2, 3, 6, 7, 8, 9, 13, 14] {
        assert!(calls.iter().any(|&(_, found)| found == answer), "no call is answered by {answer}");
    }
    for call in ["O", "S0", "s", "s-", "R", "r", "r-"].map(|token| self::call(token)[0].0) {
        for refused in [false, true] {
            assert!(calls.iter().any(|&(found, answer)| found == call && (answer != 0) == refused), "{call:?}");
        }
    }
}
