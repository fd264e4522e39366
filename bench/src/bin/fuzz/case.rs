//! A case: a page with a row of calls, each from what the one before left.
use lagumtay::raw::{Command, PACKED};
use lagumtay_bench::guarded::{Manner, Side};
use lagumtay_bench::owned::Owned;
use lagumtay_bench::plain::{self, command_of};
use lagumtay_bench::random::Random;

use crate::call::{Call, Function};
use crate::lending::Lending;
use crate::totals::Totals;
use crate::wild::{change_byte, edge_count, some_form, wild_command, wild_reader, wild_writer};

const MOST_SHOWN: u64 = 10;

/// Where a case stands.
pub struct Case<'a> {
    pub random: Random,
    pub call: Call,
    /// the last count that was announced, to choose the next by
    pub count: u64,
    pub name: &'a str,
    pub verbose: bool,
    /// of a guard, for all that is lent
    pub side: Side,
    pub lending: &'a mut Lending,
    pub totals: &'a mut Totals,
}

impl Case<'_> {
    pub fn play(&mut self) {
        match self.random.below(20) {
            0..=4 => self.garbage(),
            5 | 6 => self.long_runs(),
            7 => self.far_record(),
            8 => self.last_attempts(),
            9 => self.crowd(),
            _ => self.page(),
        }
    }

    /// Hand the call to both and compare. Gives the ending, or nothing if they differ.
    pub fn compare(&mut self) -> Option<u8> {
        let before = self.call.clone();
        if self.verbose {
            println!("{before}");
        }
        let manner = Manner { side: self.side, padding: self.random.byte() };
        let told = self.call.plain();
        let their_told = self.lending.archive(&before, manner);
        let theirs = self.lending.left(before.clone());
        if self.verbose {
            println!("  told {told:?}\n");
        }
        self.totals.calls += 1;
        if told == their_told && self.call == theirs {
            let padding = self.lending.padding(&before, told);
            self.totals.add(&before, &self.call, told, &padding);
            self.totals.reached.add_side(self.side);
            if padding.wrong.is_none() {
                return Some(told.ending);
            }
            println!("{}: the padding of a state that is not written is altered: {:?}", self.name, padding.wrong);
        }
        self.totals.differed += 1;
        if self.totals.differed <= MOST_SHOWN {
            println!("{}, call {}: plain {told:?}, archive {their_told:?}", self.name, self.totals.calls);
            println!("before\n{before}plain leaves\n{}archive leaves\n{theirs}", self.call);
        }
        None
    }

    /// A page that is opened and used; the calls go on until one differs.
    fn page(&mut self) {
        let form = some_form(&mut self.random);
        let records = self.random.of(&[0, 1, 3, 3, 5, 300]);
        if self.opened(form, records) {
            let calls = self.random.between(1, 60);
            self.calls(calls);
        }
    }

    /// A page of this form, opened, with so many records lent. No: an opening differs.
    pub fn opened(&mut self, form: Owned, records: usize) -> bool {
        let Case { random, call, .. } = self;
        call.lent = form;
        // An opening does not care what was there.
        call.lent.page = random.bytes(call.lent.page.len());
        call.lent.buffers = random.bytes(call.lent.buffers.len());
        call.lent.writer = wild_writer(random, &call.lent);
        let wild = wild_reader(random, &call.lent);
        call.lent.readers.fill(wild);
        call.records = random.bytes(records * call.lent.format.n);
        loop {
            self.opening();
            match self.compare() {
                None => return false,
                Some(0) => return true,
                Some(_) => {}
            }
        }
    }

    /// So many turns of calls of any kind, or until one differs.
    pub fn calls(&mut self, turns: usize) {
        for _ in 0..turns {
            match self.random.below(40) {
                0 => self.opening(),
                1..=4 => {
                    self.call.function = Function::Cancel;
                    self.call.who = self.some_reader();
                }
                5 | 6 => self.packing(),
                7 | 8 => self.unpacking(),
                9..=15 => {
                    if !self.steps() {
                        return;
                    }
                }
                16 | 17 => {
                    if !self.damaged_states() {
                        return;
                    }
                    continue;
                }
                _ => self.schedule(),
            }
            if !self.go_on() {
                return;
            }
        }
    }

    /// Compare the call that is chosen, now and then damaged. No: they differ.
    pub fn go_on(&mut self) -> bool {
        let whole = self.call.clone();
        if self.random.one_in(6) {
            self.damage();
        }
        match self.compare() {
            None => return false,
            // What was damaged too much is put back; other damage stays and is worked on.
            Some(1..=3) => self.call = whole,
            // Of records no opening tells whether they are, and of nothing do packing and unpacking.
            Some(_) => match self.call.function {
                Function::Open => self.call.records = whole.records,
                Function::Pack | Function::Unpack if self.call.damaged() => self.call = whole,
                _ => {}
            },
        }
        true
    }

    fn opening(&mut self) {
        self.call.function = Function::Open;
        self.call.count = match self.random.below(7) {
            0 => self.random.next_u64(),
            1 => self.random.below(300) as u64,
            2 => edge_count(&mut self.random, &self.call.lent),
            _ => self.random.below(2) as u64,
        };
        self.count = self.call.count;
        self.call.record = self.random.bytes(self.call.lent.format.n);
    }

    /// A reader that is there; now and then one that is not.
    pub fn some_reader(&mut self) -> u8 {
        match self.random.below(60) {
            0 => self.random.byte(),
            1 => self.call.lent.format.readers as u8,
            _ => self.random.below(self.call.lent.format.readers) as u8,
        }
    }

    /// The reader whose count read has taken the most steps.
    fn furthest_count_read(&self) -> Option<u8> {
        let count_reads = self.call.lent.readers.iter().zip(0..).filter(|(reader, _)| reader.kind == 1);
        count_reads.max_by_key(|(reader, _)| reader.steps).map(|(_, who)| who)
    }

    /// Steps of the writer, of one reader or of both in turns; the last is left to be compared. No: one differs.
    fn steps(&mut self) -> bool {
        let mut writes = self.random.one_in(3);
        // A read that schedules have brought far has often met a write.
        let who = match self.furthest_count_read() {
            Some(who) if self.random.one_in(2) => who,
            _ => self.some_reader(),
        };
        let in_turns = self.random.one_in(2);
        for _ in 0..self.random.of(&[0, 1, 4, 20]) {
            self.step(writes, who);
            if !self.go_on() {
                return false;
            }
            writes ^= in_turns;
        }
        self.step(writes, who);
        true
    }

    /// A step of the writer or of this reader that mostly can be carried out.
    fn step(&mut self, writes: bool, who: u8) {
        let bytes = if writes {
            let writer = self.call.lent.writer;
            self.writer_command(&writer)
        } else {
            let reader = self.call.lent.readers.get(usize::from(who)).copied();
            self.reader_command(who, reader.as_ref())
        };
        self.step_of(&bytes);
        if self.random.one_in(50) {
            self.call.command.kind = self.random.between(0, 14) as u8;
        }
    }

    /// The step of these bytes, with anything in fields that its kind does not ask for.
    pub fn step_of(&mut self, bytes: &[u8]) {
        self.call.function = Function::Step;
        let Command { kind, reader, attempts, index, count } = command_of(bytes);
        let other = wild_command(&mut self.random);
        self.call.command = Command {
            kind,
            reader: if kind >= 4 { reader } else { other.reader },
            attempts: if kind == 5 { attempts } else { other.attempts },
            index: if kind == 2 { index } else { other.index },
            count: if kind == 1 { count } else { other.count },
        };
    }

    fn packing(&mut self) {
        self.call.function = Function::Pack;
        self.call.packed = self.random.bytes(PACKED * self.call.lent.readers.len());
    }

    /// The states as they are, some bytes of them changed, or anything.
    fn unpacking(&mut self) {
        self.packing();
        self.call.function = Function::Unpack;
        if self.random.one_in(4) {
            return;
        }
        let packed = plain::pack(&self.call.lent.readers, &mut self.call.packed);
        assert_eq!(packed, Ok(()));
        for _ in 0..self.random.below(4) {
            change_byte(&mut self.random, &mut self.call.packed);
        }
    }
}
