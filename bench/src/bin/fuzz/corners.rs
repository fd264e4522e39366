//! Cases that begin where random calls hardly ever get: in long runs and large logs, at a record that no command can
//! name, at the last of 255 attempts, and with sixteen readers busy on the largest page.
use lagumtay::raw::{Format, Writer, FOLDED, LONGEST_ENTRY, PLAIN};
use lagumtay_bench::owned::Owned;
use lagumtay_bench::plain::{self, command_of};

use crate::call::Function;
use crate::case::Case;
use crate::reached::FAR;
use crate::wild::some_form;

/// The most attempts that a record read can be allowed.
const MOST_ATTEMPTS: usize = 255;

impl Case<'_> {
    /// Runs of many commands, on a page where acts are short, so that many reads end; half of them where no acts are
    /// shorter.
    pub fn long_runs(&mut self) {
        let n = self.random.of(&[1, 1, 2, 5]);
        let mut form = self.form_with(n);
        let longest = self.random.one_in(2);
        if longest {
            form.format = Format { q: 1, n: 1, ..form.format };
        }
        form.bases.truncate(if longest { 1 } else { 2 });
        if !self.opened(Owned::blank(form.format, &form.bases), 3) {
            return;
        }
        for _ in 0..if longest { 1 } else { self.random.between(1, 3) } {
            let turns = if longest { 70_000 } else { self.random.of(&[3_200, 4_200, 12_000]) };
            self.long_schedule(turns);
            if !self.go_on() {
                return;
            }
        }
    }

    /// A write of a record beyond those that a command can name is pending, as a caller's memory can have it.
    pub fn far_record(&mut self) {
        let n = self.random.between(1, 2);
        let form = self.form_with(n);
        let records = FAR + self.random.between(1, 300);
        if !self.opened(form, records) {
            return;
        }
        let Format { q, base, .. } = self.call.lent.format;
        let (steps, versions) = (2 * q + n, usize::from(base).pow(q as u32));
        self.call.lent.writer = Writer {
            kind: 2,
            count: 0,
            index: self.random.between(FAR, records - 1),
            steps: self.random.below(steps),
            version: self.random.between(1, versions - 1) as u32,
        };
        let left = steps - self.call.lent.writer.steps;
        let taken = if self.random.one_in(2) { left } else { self.random.between(1, left) };
        if self.carry_out(&vec![vec![3]; taken]) {
            let calls = self.random.below(8);
            self.calls(calls);
        }
    }

    /// All readers are in one of the last of very many attempts at a record; where the versions differ they fail.
    pub fn last_attempts(&mut self) {
        let n = self.random.of(&[1, 1, 2, 3, 5, 17]);
        let form = self.form_with(n);
        if !self.opened(form, 3) {
            return;
        }
        let v1 = 2 * self.call.lent.bases.len() - usize::from(self.call.lent.format.layout);
        self.call.lent.page[v1] = self.random.below(2) as u8;
        for who in 0..self.call.lent.format.readers {
            self.bring_to_last_attempts(who as u8);
        }
        let commands = self.reads_to_their_ends();
        if self.carry_out(&commands) {
            let calls = self.random.below(8);
            self.calls(calls);
        }
    }

    fn bring_to_last_attempts(&mut self, who: u8) {
        let fewer = self.random.below(6);
        let allowed = (MOST_ATTEMPTS - self.random.of(&[0, fewer])) as u8;
        let Format { q, n, .. } = self.call.lent.format;
        let begun = [vec![5, who, allowed], [6, who].repeat(self.random.below(2 * q + n))].concat();
        let (_, ending) = plain::run(&mut self.call.lent.lend(), &self.call.records, &begun, &mut []);
        assert_eq!(ending, Ok(()), "an attempt that is not at its end");
        // Seldom all attempts are still to be made.
        if who > 0 || !self.random.one_in(4) {
            let used = self.random.between(MOST_ATTEMPTS - 6, usize::from(allowed) - 1);
            self.call.lent.readers[usize::from(who)].finished = used as u8;
        }
    }

    /// Steps that bring one read after the other to its end.
    fn reads_to_their_ends(&self) -> Vec<Vec<u8>> {
        let mut follower = self.call.lent.clone();
        let mut commands = Vec::new();
        for who in 0..follower.readers.len() {
            let command = vec![6, who as u8];
            while follower.readers[who].kind != 0 {
                let (_, ending) = plain::step(&mut follower.lend(), &self.call.records, &command_of(&command));
                assert_eq!(ending, Ok(()), "a step of a read that is not at its end");
                commands.push(command.clone());
            }
        }
        commands
    }

    /// Sixteen readers busy on the largest page, any digits on it, many of them right before an end.
    pub fn crowd(&mut self) {
        let layout = self.random.of(&[PLAIN, FOLDED]);
        let format = Format { q: 4, base: 256, layout, n: 256, readers: 16 };
        if !self.opened(Owned::blank(format, &[256; 8]), 3) {
            return;
        }
        self.fill_page();
        let mut begun = Vec::new();
        for who in 0..16 {
            let (begin, all) = match self.random.below(4) {
                0 => (vec![4, who], 16 - usize::from(layout)),
                1 => (vec![13, who], 16 - usize::from(layout)),
                _ => (vec![5, who, self.random.of(&[1, 2, 255])], 2 * 4 + 256),
            };
            let any = self.random.below(all);
            let steps = self.random.of(&[0, any, all - 1, all - 1]);
            begun.push([begin, [6, who].repeat(steps)].concat());
        }
        // All go on, and a write of a record is begun: perhaps of the last version there is, or none is left.
        let next = [(0..16).map(|who| vec![6, who]).collect(), vec![vec![2, 0, 1], vec![3], vec![3]]].concat();
        if self.run_of(&begun.concat()) && (0..16).all(|who| self.damaged_state(who)) && self.carry_out(&next) {
            let calls = self.random.between(1, 20);
            self.calls(calls);
        }
    }

    /// Any record, versions that are often equal and often near the last, and copies of the count of which the second
    /// is not below the first. All bases are 256.
    fn fill_page(&mut self) {
        let Case { random, call, .. } = self;
        let first = random.next_u64() >> random.below(64);
        let second = first.saturating_add(if random.one_in(2) { 0 } else { random.next_u64() >> random.below(64) });
        let own = 8 - usize::from(call.lent.format.layout);
        let any = random.next_u64() as u32;
        let version = random.of(&[any, any, u32::MAX - 1, u32::MAX]);
        let other = random.of(&[version, version, any, version.wrapping_sub(1)]);
        let [version, other] = [version, other].map(u32::to_be_bytes);
        call.lent.page =
            [&first.to_be_bytes()[..], &second.to_be_bytes()[..own], &version, &random.bytes(256), &other].concat();
        self.count = second;
    }

    /// Commands in one run with room for all entries, or in steps. No: a call differs.
    fn carry_out(&mut self, commands: &[Vec<u8>]) -> bool {
        const MOST_STEPS: usize = 300;
        if commands.len() > MOST_STEPS || self.random.one_in(2) {
            return self.run_of(&commands.concat());
        }
        commands.iter().all(|command| {
            self.step_of(command);
            self.go_on()
        })
    }

    /// One run. Each of sixteen readers can make an entry.
    fn run_of(&mut self, commands: &[u8]) -> bool {
        self.call.function = Function::Run;
        self.call.commands = commands.to_vec();
        self.call.log = self.random.bytes(16 * LONGEST_ENTRY);
        self.go_on()
    }

    /// A form with records of so many bytes.
    fn form_with(&mut self, n: usize) -> Owned {
        let form = some_form(&mut self.random);
        Owned::blank(Format { n, ..form.format }, &form.bases)
    }
}
