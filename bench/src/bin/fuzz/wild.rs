//! Random forms, and values at an edge or beyond all measure.
use lagumtay::raw::{Command, Format, Reader, Writer, FOLDED, HIGH, LOW, PLAIN};
use lagumtay_bench::owned::Owned;
use lagumtay_bench::random::Random;

/// A good format, mostly with small numbers, so that all its corners are reached.
pub fn some_form(random: &mut Random) -> Owned {
    let m = random.between(1, 8);
    let base = |random: &mut Random| random.of(&[2, 2, 3, 7, 10, 24, 60, 255, 256]);
    let mut bases: Vec<u16> = (0..m).map(|_| base(random)).collect();
    if random.one_in(8) {
        bases = vec![256; 8];
    }
    let format = Format {
        q: random.between(1, 4),
        base: base(random),
        layout: random.of(&[PLAIN, FOLDED]),
        n: random.of(&[1, 1, 2, 2, 3, 5, 8, 17, 64, 255, 256]),
        readers: random.of(&[1, 1, 2, 2, 3, 5, 15, 16]),
    };
    Owned::blank(format, &bases)
}

/// One number of the format becomes another, mostly out of its range.
pub fn wild_number(random: &mut Random, format: &mut Format) {
    let wild = random.of(&[0, 1, 2, 4, 5, 16, 17, 256, 257, 1 << 16, 1 << 32, usize::MAX / 2 + 1, usize::MAX]);
    match random.below(5) {
        0 => format.q = wild,
        1 => format.base = random.of(&[0, 1, 2, 3, 256, 257, 0x102, u16::MAX]),
        2 => format.layout = wild_layout(random),
        3 => format.n = wild,
        _ => format.readers = wild,
    }
}

/// Mostly no layout.
pub fn wild_layout(random: &mut Random) -> u16 {
    random.of(&[PLAIN, FOLDED, 2, 2, 3, 256, 257, u16::MAX])
}

/// A number of steps or of places: at an edge of the format, small, or beyond all measure.
pub fn wild_size(random: &mut Random, lent: &Owned) -> usize {
    let Format { q, n, .. } = lent.format;
    match random.below(4) {
        0 => (2 * lent.bases.len()).wrapping_sub(random.below(3)),
        1 => q.wrapping_mul(2).wrapping_add(n).wrapping_sub(random.below(2)),
        2 => random.below(20),
        _ => random.of(&[usize::MAX, usize::MAX / 2, 1 << 32, 256, 1 << 16]),
    }
}

/// The least count that is too large, or the one before it.
pub fn edge_count(random: &mut Random, lent: &Owned) -> u64 {
    let product = lent.bases.iter().fold(1u64, |x, &base| x.wrapping_mul(base.into()));
    product.wrapping_sub(random.below(2) as u64)
}

pub fn edge_version(random: &mut Random, lent: &Owned) -> u32 {
    let product = (0..lent.format.q.min(4)).fold(1u32, |x, _| x.wrapping_mul(lent.format.base.into()));
    product.wrapping_sub(random.below(2) as u32)
}

pub fn wild_writer(random: &mut Random, lent: &Owned) -> Writer {
    Writer {
        // A good kind may stand in the low byte alone.
        kind: random.below(4) as u32 | random.of(&[0, 0, 0, 1 << 8, 1 << 31]),
        count: match random.below(4) {
            0 | 1 => 0,
            2 => edge_count(random, lent),
            _ => random.next_u64() >> random.below(64),
        },
        index: if random.one_in(2) { 0 } else { wild_size(random, lent) },
        steps: wild_size(random, lent),
        version: match random.below(4) {
            0 | 1 => 0,
            2 => edge_version(random, lent),
            _ => random.next_u64() as u32 >> random.below(32),
        },
    }
}

pub fn wild_reader(random: &mut Random, lent: &Owned) -> Reader {
    let mut reader = Reader {
        kind: if random.one_in(10) { random.byte() } else { random.below(4) as u8 },
        allowed: if random.one_in(2) { 0 } else { random.byte() },
        finished: if random.one_in(2) { 0 } else { random.byte() },
        choice: if random.one_in(2) { LOW } else { wild_choice(random) },
        steps: wild_size(random, lent),
        digits: [0; 16],
    };
    for _ in 0..random.below(4) {
        change_byte(random, &mut reader.digits);
    }
    reader
}

pub fn wild_choice(random: &mut Random) -> u8 {
    random.of(&[LOW, HIGH, HIGH, 2, 3, 128, 255])
}

pub fn wild_command(random: &mut Random) -> Command {
    Command {
        kind: match random.below(6) {
            0 => random.byte(),
            1 => random.between(8, 14) as u8,
            _ => random.of(&[0, 1, 2, 3, 4, 5, 6, 7, 13]),
        },
        reader: if random.one_in(4) { random.byte() } else { random.below(17) as u8 },
        attempts: if random.one_in(2) { random.byte() } else { random.below(3) as u8 },
        index: if random.one_in(4) { random.next_u64() as u16 } else { random.below(6) as u16 },
        count: random.next_u64() >> random.below(64),
    }
}

/// One byte becomes another: any, a small one, or one next to it.
pub fn change_byte(random: &mut Random, bytes: &mut [u8]) {
    if bytes.is_empty() {
        return;
    }
    let at = random.below(bytes.len());
    bytes[at] = match random.below(4) {
        0 => random.byte(),
        1 => random.below(15) as u8,
        2 => bytes[at].wrapping_add(1),
        _ => bytes[at].wrapping_sub(1),
    };
}

pub fn change_length<T: Clone + Default>(random: &mut Random, list: &mut Vec<T>) {
    let length = match random.below(4) {
        0 => list.len() + 1,
        1 => list.len().saturating_sub(1),
        2 => 0,
        _ => random.below(600),
    };
    list.resize(length, T::default());
}

pub fn random_bytes(random: &mut Random, most: usize) -> Vec<u8> {
    let length = random.below(most + 1);
    random.bytes(length)
}
