//! Random queues, and damage to them: what `queue_fuzz` hands to both implementations.
use lagumtay::queue::raw::{Receiver, Sender};

use crate::queue::{Call, Memory};
use crate::random::Random;

/// The first record that 16 bits cannot name.
pub const FAR: usize = 65_536;

/// The last number of good bases; of others any.
pub fn top(bases: &[u16]) -> u64 {
    bases.iter().fold(1u64, |x, &base| x.wrapping_mul(base.into())).wrapping_sub(1)
}

/// The digits of a number, at the front of these bytes.
pub fn put_number(bases: &[u16], bytes: &mut [u8], mut number: u64) {
    for (place, &base) in bases.iter().enumerate().rev() {
        bytes[place] = (number % u64::from(base)) as u8;
        number /= u64::from(base);
    }
}

/// A good format, mostly with small numbers, so that all its corners are reached; all else is anything.
pub fn some_queue(random: &mut Random) -> Memory {
    let m = random.between(1, 8);
    let mut bases: Vec<u16> = (0..m).map(|_| random.of(&[2, 2, 3, 7, 10, 24, 60, 255, 256])).collect();
    if random.one_in(8) {
        bases = vec![256; 8];
    }
    // Seldom very many records are lent; then they are short.
    let far = random.one_in(30);
    let n = if far { random.between(1, 2) } else { random.of(&[1, 1, 1, 2, 2, 3, 5, 8, 17, 256]) };
    let places = random.of(&[1, 1, 1, 2, 2, 3, 5, 63, 64]);
    let records = if far { FAR + random.between(1, 100) } else { random.of(&[0, 1, 2, 2, 3, 5]) };
    let mut memory = Memory::blank(&bases, n, places, random.bytes(records * n));
    memory.queue = random.bytes(memory.queue.len());
    memory.buffer = random.bytes(n);
    memory.sender = Sender { serial: random.next_u64(), steps: 9, kind: 9, digits: [9; 8], index: 9 };
    memory.receiver = Receiver { serial: random.next_u64(), steps: 9, kind: 9, digits: [9; 8] };
    memory
}

/// Both sides idle, with so many parcels in the queue, at numbers near a carry or near the top; gives how many these are.
pub fn stand(random: &mut Random, memory: &mut Memory) -> usize {
    let Memory { bases, queue, .. } = memory;
    let from = random.below(bases.len());
    let held = random.below(memory.format.places + 1) as u64;
    let sent = top(&bases[from..]).saturating_sub(random.below(4) as u64).saturating_add(held).min(top(bases));
    let held = held.min(sent);
    put_number(bases, queue, sent);
    put_number(bases, &mut queue[bases.len()..], sent - held);
    (memory.sender, memory.receiver) = (Sender::default(), Receiver::default());
    held as usize
}

/// Mostly a record that is lent.
pub fn some_index(random: &mut Random, memory: &Memory) -> usize {
    let records = memory.records.len() / memory.format.n.max(1);
    match random.below(40) {
        0 => usize::MAX - random.below(2),
        1 => records,
        2..=20 if records > FAR => random.between(FAR, records - 1),
        _ => random.below(records.max(1)),
    }
}

/// Any call; mostly a step.
pub fn some_call(random: &mut Random, memory: &Memory) -> Call {
    match random.below(25) {
        0 => Call::Open,
        1..=3 => Call::SendBegin(some_index(random, memory)),
        4..=9 => Call::SendStep,
        10..=12 => Call::SendCancel,
        13..=15 => Call::ReceiveBegin,
        16..=21 => Call::ReceiveStep,
        _ => Call::ReceiveCancel,
    }
}

/// Numbers and states such as some steps could have left, though none did. The format is good.
pub fn make_up(random: &mut Random, memory: &mut Memory) {
    let Memory { format, bases, queue, .. } = memory;
    let (m, last) = (bases.len(), top(bases));
    let serial = if random.one_in(2) { near(random, last) } else { random.next_u64() } % last;
    let behind = random.of(&[0, 1, format.places, format.places + 1, 70]) as u64;
    let received = serial.saturating_sub(behind);
    put_number(bases, queue, serial.saturating_add(random.below(3) as u64).min(last));
    put_number(bases, &mut queue[m..], received.saturating_add(random.below(3) as u64).min(last));
    let (steps, digits) = some_act(random, bases, format.n, &queue[m..]);
    let index = some_index(random, memory);
    memory.sender = Sender { serial, steps, kind: 1, digits, index };
    let Memory { format, bases, queue, .. } = memory;
    let (steps, digits) = some_act(random, bases, format.n, queue);
    memory.receiver = Receiver { serial: received, steps, kind: 1, digits };
    match random.below(6) {
        0 => memory.sender = Sender::default(),
        1 => memory.receiver = Receiver::default(),
        _ => {}
    }
}

/// The steps that an act has taken, and what it has gathered of the other's number.
fn some_act(random: &mut Random, bases: &[u16], n: usize, other: &[u8]) -> (usize, [u8; 8]) {
    let steps = some_steps(random, bases.len(), n);
    let mut digits = [0; 8];
    if steps < bases.len() {
        digits[..steps].copy_from_slice(&other[..steps]);
        if steps > 0 && random.one_in(4) {
            let at = random.below(steps);
            digits[at] = random.below(bases[at].into()) as u8;
        }
    }
    (steps, digits)
}

/// Steps of an act, mostly at an edge; the gathering's last digit is to come most often.
fn some_steps(random: &mut Random, m: usize, n: usize) -> usize {
    let any = random.below(2 * m + n);
    random.of(&[0, m - 1, m - 1, m, m + n - 1, m + n, 2 * m + n - 1, any])
}

/// A number near another, near 0, or the last of all.
fn near(random: &mut Random, number: u64) -> u64 {
    random.of(&[0, 1, number.wrapping_sub(2), number.wrapping_sub(1), number, number.wrapping_add(1), u64::MAX])
}

/// One thing that is lent is changed.
pub fn damage(random: &mut Random, memory: &mut Memory) {
    match random.below(16) {
        0..=2 => damage_digit(random, memory),
        3..=6 => damage_sender(random, memory),
        7..=10 => damage_receiver(random, memory),
        11 => match random.below(4) {
            0 => change_length(random, &mut memory.queue, 0),
            1 => change_length(random, &mut memory.records, 0),
            2 => change_length(random, &mut memory.buffer, 0),
            // A good base, so that only their number may be wrong.
            _ => change_length(random, &mut memory.bases, 2),
        },
        12 => {
            let number = if random.one_in(2) { &mut memory.format.n } else { &mut memory.format.places };
            *number = random.of(&[0, 1, 2, 63, 64, 65, 256, 257, 1 << 16, 1 << 32, usize::MAX / 2 + 1, usize::MAX]);
        }
        13 => {
            let at = random.below(memory.bases.len().max(1));
            if let Some(base) = memory.bases.get_mut(at) {
                *base = random.of(&[0, 1, 2, 3, 10, 255, 256, 257, 0x100a, u16::MAX]);
            }
        }
        14 => memory.records.truncate(random.below(3) * memory.format.n.min(256)),
        _ => (memory.sender, memory.receiver) = (Sender::default(), Receiver::default()),
    }
}

/// A digit of sent or of received is at an edge of its base.
fn damage_digit(random: &mut Random, memory: &mut Memory) {
    let m = memory.bases.len();
    let at = random.below((2 * m).max(1));
    if let (Some(digit), Some(&base)) = (memory.queue.get_mut(at), memory.bases.get(at % m.max(1))) {
        *digit = random.of(&[0, base.wrapping_sub(1) as u8, base as u8, base.wrapping_add(1) as u8, 255]);
    }
}

fn damage_sender(random: &mut Random, memory: &mut Memory) {
    let wild = wild(random, memory);
    let index = some_index(random, memory);
    let sender = &mut memory.sender;
    match random.below(5) {
        0 => sender.serial = wild.serial,
        1 => sender.steps = wild.steps,
        2 => sender.kind = wild.kind,
        3 => sender.digits[random.below(8)] = wild.digits[0],
        _ => sender.index = index,
    }
}

fn damage_receiver(random: &mut Random, memory: &mut Memory) {
    let wild = wild(random, memory);
    let receiver = &mut memory.receiver;
    match random.below(4) {
        0 => receiver.serial = wild.serial,
        1 => receiver.steps = wild.steps,
        2 => receiver.kind = wild.kind,
        _ => receiver.digits[random.below(8)] = wild.digits[0],
    }
}

/// Fields of a state, each at an edge or beyond all measure.
fn wild(random: &mut Random, memory: &Memory) -> Receiver {
    let (m, n) = (memory.bases.len().max(1), memory.format.n.clamp(1, 256));
    let any = random.byte();
    let digit = random.of(&[0, 1, memory.bases.first().map_or(9, |&base| base as u8), any]);
    Receiver {
        serial: near(random, top(&memory.bases)),
        steps: match random.below(6) {
            0 => random.of(&[usize::MAX, usize::MAX / 2, 1 << 32, 2 * m + n + 1]),
            1 => 2 * m + n,
            _ => some_steps(random, m, n),
        },
        kind: random.of(&[0, 1, 1, 2, 3, 256, 257, 1 << 32, 1 << 32 | 1, usize::MAX]),
        digits: [digit; 8],
    }
}

/// Another length; what is new is so filled.
fn change_length<T: Clone>(random: &mut Random, list: &mut Vec<T>, fill: T) {
    let length = match random.below(4) {
        0 => list.len() + 1,
        1 => list.len().saturating_sub(1),
        2 => 0,
        _ => random.below(600),
    };
    list.resize(length, fill);
}
