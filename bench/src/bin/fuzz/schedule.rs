//! Commands that mostly can be carried out.
use lagumtay::raw::{Reader, Writer, LONGEST_ENTRY};
use lagumtay_bench::plain;

use crate::call::Function;
use crate::case::Case;
use crate::wild::edge_count;

impl Case<'_> {
    /// A run of commands that mostly can be carried out.
    pub fn schedule(&mut self) {
        // In short turns the writer meets more reads.
        let short = self.random.one_in(2);
        let turns = self.random.between(1, if short { 60 } else { 12 });
        let entries = self.turns(turns, short, 60);
        // Now and then the last command is cut short, or of a kind around 0D.
        match self.random.below(24) {
            0 | 1 => self.call.commands.push(self.random.of(&[1, 2, 4, 4, 5, 6, 7, 13, 13])),
            2 => {
                let command = [self.random.between(8, 14) as u8, self.some_reader()];
                self.call.commands.extend(command);
            }
            _ => {}
        }
        let room = self.room(&entries);
        self.call.log = self.random.bytes(room.min(400));
    }

    /// A run of many short turns, which is hardly ever refused before its log is full: mostly that holds all entries,
    /// else those of the first half and some more.
    pub fn long_schedule(&mut self, turns: usize) {
        let entries = self.turns(turns, true, 50_000);
        let half = entries.len() / 2;
        let held = if self.random.one_in(4) { half + self.random.below(half + 1) } else { entries.len() };
        let room = entries[..held].iter().sum::<usize>() + self.random.below(LONGEST_ENTRY);
        self.call.log = self.random.bytes(room);
    }

    /// A run of so many turns: a page that follows tells which commands can be carried out. Since a run ends with its
    /// first refused command, of those that cannot one in so many is let through. Gives the sizes of the log's entries.
    fn turns(&mut self, turns: usize, short: bool, refused_one_in: usize) -> Vec<usize> {
        self.call.function = Function::Run;
        self.call.commands.clear();
        let mut follower = self.call.lent.clone();
        let mut entries = Vec::new();
        for _ in 0..turns {
            let writes = self.random.one_in(3);
            let who = self.some_reader();
            let n = follower.format.n;
            let steps = if short { self.random.between(1, 3) } else { self.random.of(&[1, 1, 2, 5, 9, n, 2 * n + 8]) };
            for _ in 0..steps {
                let command = if writes {
                    self.writer_command(&follower.writer)
                } else {
                    self.reader_command(who, follower.readers.get(usize::from(who)))
                };
                let mut log = [0; LONGEST_ENTRY];
                let (answer, ending) = plain::run(&mut follower.lend(), &self.call.records, &command, &mut log);
                if answer.written > 0 {
                    entries.push(answer.written);
                }
                if ending.is_ok() || self.random.one_in(refused_one_in) {
                    self.call.commands.extend_from_slice(&command);
                }
            }
        }
        entries
    }

    /// The room in the log of a schedule that makes entries of these sizes: mostly enough, now and then any, and now
    /// and then such that one of the entries just fits or does not; the first of copies that part, if there is one,
    /// since with 10 to 17 bytes left a count shown would fit.
    fn room(&mut self, entries: &[usize]) -> usize {
        match self.random.below(8) {
            0 => self.random.below(30),
            1 | 2 if !entries.is_empty() => {
                let parting = entries.iter().position(|&size| size == LONGEST_ENTRY);
                let at = parting.unwrap_or_else(|| self.random.below(entries.len()));
                entries[..at].iter().sum::<usize>() + self.random.below(entries[at] + 1)
            }
            _ => LONGEST_ENTRY * self.call.commands.len(),
        }
    }

    pub fn writer_command(&mut self, writer: &Writer) -> Vec<u8> {
        // A step if a write is pending, seldom one if none is, and seldom a second write.
        if (writer.kind == 0) == self.random.one_in(50) {
            return vec![3];
        }
        if self.random.one_in(2) {
            let lent_records = self.call.records.len() / self.call.lent.format.n;
            let index = if self.random.one_in(30) { 0 } else { self.random.below(lent_records + 1) };
            return vec![2, (index >> 8) as u8, index as u8];
        }
        let count = match self.random.below(40) {
            0 => self.random.next_u64(),
            // Often the shared digit of a folded page alone tells that this is less.
            1..=3 => self.count.wrapping_sub(1),
            4 => edge_count(&mut self.random, &self.call.lent),
            5..=8 => self.count.saturating_add(self.random.next_u64() >> self.random.between(8, 63)),
            _ => self.count.saturating_add(self.random.below(3) as u64),
        };
        self.count = count.min(self.count.saturating_add(1 << 20));
        let mut command = vec![1];
        command.extend_from_slice(&count.to_be_bytes());
        command
    }

    pub fn reader_command(&mut self, who: u8, reader: Option<&Reader>) -> Vec<u8> {
        let idle = reader.is_none_or(|reader| reader.kind == 0);
        match self.random.below(60) {
            0 => vec![7, who],
            1 => vec![6, who],
            2 if !idle => vec![self.random.of(&[4, 13]), who],
            _ if !idle => vec![6, who],
            2 => vec![5, who, self.random.byte()],
            3..=30 => vec![5, who, self.random.of(&[1, 1, 2, 3, 255])],
            _ => vec![self.random.of(&[4, 13]), who],
        }
    }
}
