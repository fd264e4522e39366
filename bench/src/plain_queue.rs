//! The hand-over queue in plain Rust, over the same lent memory as the proved archive: the baseline of the bench, and the
//! other side of the fuzz program. It is written from document 02 to be fast: digits are checked eight at a time, and a
//! call costs these checks and one byte moved.
use lagumtay::queue::raw::{Format, Lent, Receiver, Sender};
use lagumtay::queue::QueueRefusal::{self, *};

use crate::plain::{high, within, Radix};

// Kinds of a state, the sender's and the receiver's.
const IDLE: usize = 0;
const PENDING: usize = 1;

pub type Ending = Result<(), QueueRefusal>;

/// The number of an ending: 0 if nothing was refused.
#[inline]
pub fn number(ending: Ending) -> u8 {
    ending.map_or_else(|why| why as u8, |()| 0)
}

fn ensure(condition: bool, otherwise: QueueRefusal) -> Ending {
    if condition {
        Ok(())
    } else {
        Err(otherwise)
    }
}

/// The opening. A refused one changes nothing.
pub fn open(lent: &mut Lent, sender: &mut Sender, receiver: &mut Receiver) -> Ending {
    check_format(lent)?;
    lent.queue.fill(0);
    *sender = Sender::default();
    *receiver = Receiver::default();
    Ok(())
}

// THE SENDER. No call is inlined: the archive's cannot be either.

#[inline(never)]
pub fn send_begin(lent: &Lent, sender: &mut Sender, records: &[u8], index: usize) -> Ending {
    let numbers = check_sender(lent, sender, records)?;
    ensure(index < records.len() / lent.format.n, NoSuch)?;
    ensure(sender.kind == IDLE, Busy)?;
    let sent = digits(lent, 0);
    ensure(sent != numbers.most, SerialsExhausted)?;
    *sender = Sender { serial: numbers.value(sent), kind: PENDING, index, ..Sender::default() };
    Ok(())
}

#[inline(never)]
pub fn send_step(lent: &mut Lent, sender: &mut Sender, records: &[u8]) -> Ending {
    let numbers = check_sender(lent, sender, records)?;
    ensure(sender.kind == PENDING, NothingPending)?;
    let (m, Format { n, places }, k) = (lent.bases.len(), *lent.format, sender.steps);
    if k < m {
        let digit = lent.queue[m + k];
        if k + 1 == m {
            let received = numbers.value(gathered(sender.digits, k, digit));
            ensure(received <= sender.serial, InvalidState)?;
            ensure(sender.serial - received < places as u64, QueueFull)?;
            sender.digits = [0; 8];
        } else {
            sender.digits[k] = digit;
        }
    } else if k < m + n {
        let byte = k - m;
        lent.queue[place(lent, sender.serial) + byte] = records[sender.index * n + byte];
    } else {
        let at = 2 * m + n - 1 - k;
        lent.queue[at] = digit(numbers, sender.serial + 1, at);
        if at == 0 {
            *sender = Sender::default();
            return Ok(());
        }
    }
    sender.steps = k + 1;
    Ok(())
}

#[inline(never)]
pub fn send_cancel(lent: &Lent, sender: &mut Sender, records: &[u8]) -> Ending {
    check_sender(lent, sender, records)?;
    ensure(sender.kind == PENDING && sender.steps <= lent.bases.len(), NothingPending)?;
    *sender = Sender::default();
    Ok(())
}

// THE RECEIVER

#[inline(never)]
pub fn receive_begin(lent: &Lent, receiver: &mut Receiver, buffer: &[u8]) -> Ending {
    let numbers = check_receiver(lent, receiver, buffer)?;
    ensure(receiver.kind == IDLE, Busy)?;
    let serial = numbers.value(digits(lent, lent.bases.len()));
    *receiver = Receiver { serial, kind: PENDING, ..Receiver::default() };
    Ok(())
}

#[inline(never)]
pub fn receive_step(lent: &mut Lent, receiver: &mut Receiver, buffer: &mut [u8]) -> Ending {
    let numbers = check_receiver(lent, receiver, buffer)?;
    ensure(receiver.kind == PENDING, NothingPending)?;
    let (m, n, k) = (lent.bases.len(), lent.format.n, receiver.steps);
    if k < m {
        let digit = lent.queue[k];
        if k + 1 == m {
            let sent = numbers.value(gathered(receiver.digits, k, digit));
            ensure(sent > receiver.serial, QueueEmpty)?;
            receiver.digits = [0; 8];
        } else {
            receiver.digits[k] = digit;
        }
    } else if k < m + n {
        let byte = k - m;
        buffer[byte] = lent.queue[place(lent, receiver.serial) + byte];
    } else {
        let at = 2 * m + n - 1 - k;
        lent.queue[m + at] = digit(numbers, receiver.serial + 1, at);
        if at == 0 {
            *receiver = Receiver::default();
            return Ok(());
        }
    }
    receiver.steps = k + 1;
    Ok(())
}

#[inline(never)]
pub fn receive_cancel(lent: &Lent, receiver: &mut Receiver, buffer: &[u8]) -> Ending {
    check_receiver(lent, receiver, buffer)?;
    ensure(receiver.kind == PENDING && receiver.steps <= lent.bases.len(), NothingPending)?;
    *receiver = Receiver::default();
    Ok(())
}

// NUMBERS AND PLACES

/// The m digits from here on, as a radix packs them.
#[inline(always)]
fn digits(lent: &Lent, from: usize) -> u64 {
    let m = lent.bases.len();
    match lent.queue[from..].first_chunk() {
        Some(&eight) => u64::from_be_bytes(eight) & high(m),
        None => lent.queue[from..from + m].iter().rev().fold(0, |x, &digit| x >> 8 | u64::from(digit) << 56),
    }
}

/// The digits gathered with one more, packed.
#[inline(always)]
fn gathered(mut digits: [u8; 8], place: usize, digit: u8) -> u64 {
    digits[place] = digit;
    u64::from_be_bytes(digits)
}

/// Where the parcel of this number begins.
#[inline(always)]
fn place(lent: &Lent, serial: u64) -> usize {
    2 * lent.bases.len() + (serial % lent.format.places as u64) as usize * lent.format.n
}

/// One digit of a number.
#[inline(always)]
fn digit(numbers: Radix, number: u64, at: usize) -> u8 {
    let after = &numbers.bases[at + 1..];
    if numbers.bytewise() {
        return (number >> (8 * after.len())) as u8;
    }
    let weight: u64 = after.iter().map(|&base| u64::from(base)).product();
    (number / weight % u64::from(numbers.bases[at])) as u8
}

// THE CHECKS AT THE START OF A CALL

/// Refusal 1, and 2 of the queue's bytes; gives the places of a number.
#[inline(always)]
fn check_format<'a>(lent: &Lent<'a>) -> Result<Radix<'a>, QueueRefusal> {
    let Format { n, places } = *lent.format;
    let good = (1..=8).contains(&lent.bases.len()) && (1..=256).contains(&n) && (1..=64).contains(&places);
    ensure(good, BadFormat)?;
    let numbers = Radix::new(lent.bases).ok_or(BadFormat)?;
    ensure(lent.queue.len() == 2 * lent.bases.len() + places * n, WrongLength)?;
    Ok(numbers)
}

#[inline(always)]
fn check_sender<'a>(lent: &Lent<'a>, sender: &Sender, records: &[u8]) -> Result<Radix<'a>, QueueRefusal> {
    let (numbers, n) = (check_format(lent)?, lent.format.n);
    ensure(records.len().is_multiple_of(n), WrongLength)?;
    let Sender { serial, steps, kind, digits, index } = *sender;
    let valid = match kind {
        IDLE => *sender == Sender::default(),
        PENDING => {
            serial < numbers.value(numbers.most) && valid_act(numbers, steps, digits, n) && index < records.len() / n
        }
        _ => false,
    };
    ensure(valid_numbers(lent, numbers) && valid, InvalidState)?;
    Ok(numbers)
}

#[inline(always)]
fn check_receiver<'a>(lent: &Lent<'a>, receiver: &Receiver, buffer: &[u8]) -> Result<Radix<'a>, QueueRefusal> {
    let (numbers, n) = (check_format(lent)?, lent.format.n);
    ensure(buffer.len() == n, WrongLength)?;
    let Receiver { serial, steps, kind, digits } = *receiver;
    let valid = match kind {
        IDLE => *receiver == Receiver::default(),
        PENDING => {
            // Once a parcel was found, the number will be raised.
            let last = numbers.value(numbers.most) - u64::from(steps >= lent.bases.len());
            serial <= last && valid_act(numbers, steps, digits, n)
        }
        _ => false,
    };
    ensure(valid_numbers(lent, numbers) && valid, InvalidState)?;
    Ok(numbers)
}

/// Is each digit of sent and received below its base?
#[inline(always)]
fn valid_numbers(lent: &Lent, numbers: Radix) -> bool {
    numbers.valid(lent.queue, 0) && numbers.valid(&lent.queue[lent.bases.len()..], 0)
}

/// Could an act have taken so many steps, and have gathered these digits?
#[inline(always)]
fn valid_act(numbers: Radix, steps: usize, digits: [u8; 8], n: usize) -> bool {
    let m = numbers.bases.len();
    let kept = if steps < m { numbers.most & high(steps) } else { 0 };
    steps < 2 * m + n && within(u64::from_be_bytes(digits), kept)
}
