//! Calls that are damaged in one place, and calls of nothing but garbage.
use lagumtay::raw::{Reader, PACKED, PLAIN};
use lagumtay_bench::owned::Owned;
use lagumtay_bench::random::Random;

use crate::call::Function;
use crate::case::Case;
use crate::wild::*;

impl Case<'_> {
    /// One thing that is lent is changed.
    pub fn damage(&mut self) {
        let Case { random, call, .. } = self;
        let lent = &mut call.lent;
        match random.below(22) {
            0..=2 => change_byte(random, &mut lent.page),
            3 => change_byte(random, &mut lent.buffers),
            4 | 5 => change_byte(random, &mut call.commands),
            6 => call.commands.truncate(random.below(call.commands.len() + 1)),
            7 | 8 => damage_writer(random, lent, call.records.len()),
            9 | 10 => {
                let at = random.below(lent.readers.len());
                damage_reader(random, lent, at);
            }
            11 => match random.below(6) {
                0 => change_length(random, &mut lent.page),
                1 => change_length(random, &mut lent.readers),
                2 => change_length(random, &mut lent.buffers),
                3 => change_length(random, &mut call.records),
                4 => change_length(random, &mut call.record),
                _ => change_length(random, &mut lent.bases),
            },
            12 => wild_number(random, &mut lent.format),
            13 => {
                let at = random.below(lent.bases.len());
                lent.bases[at] = random.of(&[0, 1, 2, 3, 10, 255, 256, 257, 0x100a, u16::MAX]);
            }
            14 => call.records.truncate(random.below(call.records.len() + 1)),
            15 | 16 => {
                let wild = wild_command(random);
                match random.below(5) {
                    0 => call.command.kind = wild.kind,
                    1 => call.command.reader = wild.reader,
                    2 => call.command.attempts = wild.attempts,
                    3 => call.command.index = wild.index,
                    _ => call.command.count = wild.count,
                }
            }
            17 => change_length(random, &mut call.packed),
            // Two steps, one or none before the end of a count on a plain page.
            18 => {
                let steps = 2 * lent.bases.len() - random.below(3);
                let at = random.below(2 * lent.readers.len());
                match lent.readers.get_mut(at) {
                    Some(reader) => reader.steps = steps,
                    None => lent.writer.steps = steps,
                }
            }
            19 => lent.format.layout = wild_layout(random),
            // One of the two choices or another, in a state of any kind.
            20 => {
                let at = random.below(lent.readers.len());
                lent.readers[at].choice = wild_choice(random);
            }
            // What stood on a page of the other layout, with the last byte gone or a byte more.
            _ => {
                lent.format.layout ^= 1;
                let length = match lent.format.layout {
                    PLAIN => lent.page.len() + 1,
                    _ => lent.page.len().saturating_sub(1),
                };
                lent.page.resize(length, 0);
            }
        }
    }

    /// Calls with the state of the writer or of a reader damaged, and put back after each. No: one differs.
    pub fn damaged_states(&mut self) -> bool {
        (0..4).all(|_| {
            let at = self.random.below(2 * self.call.lent.readers.len());
            self.damaged_state(at)
        })
    }

    /// A step of this reader, or beyond the last of the writer, with its state damaged. No: it differs.
    pub fn damaged_state(&mut self, at: usize) -> bool {
        let whole = self.call.clone();
        let Case { random, call, .. } = self;
        if at < call.lent.readers.len() {
            damage_reader(random, &mut call.lent, at);
            self.step_of(&[6, at as u8]);
        } else {
            damage_writer(random, &mut call.lent, call.records.len());
            self.step_of(&[3]);
        }
        let same = self.compare().is_some();
        self.call = whole;
        same
    }

    /// A call of nothing but garbage, of which the form is good every other time.
    pub fn garbage(&mut self) {
        let Case { random, call, .. } = self;
        call.lent = some_form(random);
        if random.one_in(2) {
            wild_number(random, &mut call.lent.format);
        }
        if random.one_in(2) {
            call.lent.page = random.bytes(call.lent.page.len());
        } else {
            call.lent.page = random_bytes(random, 40);
            call.lent.buffers = random_bytes(random, 600);
            call.lent.readers = vec![Reader::default(); random.of(&[0, 1, 2, 16, 17])];
        }
        call.lent.writer = wild_writer(random, &call.lent);
        for i in 0..call.lent.readers.len() {
            if random.one_in(2) {
                call.lent.readers[i] = wild_reader(random, &call.lent);
            }
        }
        call.records = random_bytes(random, 40);
        call.commands = random_bytes(random, 40);
        for byte in &mut call.commands {
            if random.one_in(2) {
                *byte %= 15;
            }
        }
        call.log = random_bytes(random, 40);
        call.record = random_bytes(random, 8);
        call.count = random.next_u64();
        call.who = random.byte();
        call.command = wild_command(random);
        let readers = call.lent.readers.len();
        call.packed = if random.one_in(2) { random.bytes(PACKED * readers) } else { random_bytes(random, 600) };
        call.function = random.of(&[
            Function::Open,
            Function::Run,
            Function::Run,
            Function::Step,
            Function::Cancel,
            Function::Pack,
            Function::Unpack,
        ]);
        self.compare();
    }
}

/// One field of the writer's state becomes another, or the whole of it, with so many bytes of records lent.
fn damage_writer(random: &mut Random, lent: &mut Owned, records: usize) {
    let wild = wild_writer(random, lent);
    let last = records / lent.format.n.max(1);
    let (edge_count, edge_version) = (edge_count(random, lent), edge_version(random, lent));
    match random.below(6) {
        0 => lent.writer.count = random.of(&[1, wild.count, edge_count]),
        1 => lent.writer.index = random.of(&[1, last.wrapping_sub(1), last, wild.index, 1 << 16, usize::MAX / 2 + 1]),
        2 => lent.writer.steps = wild.steps,
        3 => lent.writer.version = random.of(&[0, 1, wild.version, edge_version]),
        4 => lent.writer.kind = wild.kind,
        _ => lent.writer = wild,
    }
}

/// One field of a reader's state becomes another, or the whole of it.
fn damage_reader(random: &mut Random, lent: &mut Owned, at: usize) {
    let wild = wild_reader(random, lent);
    let reader = &mut lent.readers[at];
    // The last place of b, which no reader of a folded page gathers.
    let last = 8 + lent.bases.len().clamp(1, 8) - 1;
    match random.below(8) {
        0 => reader.kind = wild.kind,
        1 => reader.allowed = wild.allowed,
        2 => reader.finished = wild.finished,
        3 => reader.choice = wild.choice,
        4 => reader.steps = wild.steps,
        5 => *reader = wild,
        6 => reader.digits[last] = random.between(1, 3) as u8,
        _ => change_byte(random, &mut reader.digits),
    }
}
