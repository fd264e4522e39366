//! What all calls together did.
use std::fmt;

use lagumtay::raw::{FOLDED, LONGEST_ENTRY};
use lagumtay::{Entries, Entry};

use crate::call::{Call, Function, Told};
use crate::choices::Choices;
use crate::lending::Padding;
use crate::reached::Reached;

/// The bytes of the entry of a count shown.
const COUNT_ENTRY: usize = 10;

#[derive(Default)]
pub struct Totals {
    pub calls: u64,
    pub cases: u64,
    /// by document 01's number; past 12 is none
    endings: [u64; 14],
    functions: [u64; 6],
    commands: u64,
    command_bytes: u64,
    log_bytes: u64,
    /// entries of logs, and steps, by the kind of what they told
    entries: [u64; 5],
    outcomes: [u64; 5],
    /// calls with a folded page, by their endings, and the reads that ended there
    folded: [u64; 14],
    folded_reads: [u64; 5],
    /// entries of copies that part which did not fit, by the bytes left in the log
    parting: [u64; LONGEST_ENTRY],
    pub choices: Choices,
    pub reached: Reached,
    pub differed: u64,
}

impl Totals {
    /// A call as it was made and as it was left, what it told, and what became of the padding.
    pub fn add(&mut self, before: &Call, call: &Call, told: Told, padding: &Padding) {
        let Told { ending, answer, outcome } = told;
        self.choices.add(before, told);
        self.reached.add(before, call, told, padding);
        self.functions[call.function as usize] += 1;
        self.endings[usize::from(ending).min(13)] += 1;
        self.commands += answer.done as u64;
        self.command_bytes += answer.taken as u64;
        self.log_bytes += answer.written as u64;
        let mut reads = [0; 5];
        match call.function {
            Function::Step => {
                reads[usize::from(outcome.kind)] += 1;
                add_to(&mut self.outcomes, reads);
            }
            Function::Run => {
                Entries::new(&call.log[..answer.written]).for_each(|entry| reads[kind_of(entry)] += 1);
                add_to(&mut self.entries, reads);
                let left = if ending == 12 { call.room_left_to_part(answer) } else { None };
                left.into_iter().for_each(|room| self.parting[room] += 1);
            }
            // These two are lent no page.
            Function::Pack | Function::Unpack => return,
            Function::Open | Function::Cancel => {}
        }
        if call.lent.format.layout == FOLDED {
            self.folded[usize::from(ending).min(13)] += 1;
            add_to(&mut self.folded_reads, reads);
        }
    }
}

pub fn add_to<const N: usize>(totals: &mut [u64; N], more: [u64; N]) {
    totals.iter_mut().zip(more).for_each(|(total, more)| *total += more);
}

fn kind_of(entry: Entry) -> usize {
    match entry {
        Entry::Shown { .. } => 1,
        Entry::Accepted { .. } => 2,
        Entry::GaveUp { .. } => 3,
        Entry::Between { .. } => 4,
    }
}

fn reads([_, shown, accepted, gave_up, between]: [u64; 5]) -> String {
    format!("{shown} showed a count, {between} were between two, {accepted} accepted a record, {gave_up} gave up")
}

impl fmt::Display for Totals {
    fn fmt(&self, f: &mut fmt::Formatter) -> fmt::Result {
        let Totals { calls, cases, commands, command_bytes, log_bytes, .. } = self;
        let [open, run, step, cancel, pack, unpack] = self.functions;
        writeln!(f, "{calls} calls of {cases} cases: {open} of open, {run} of run, {step} of step,")?;
        writeln!(f, "{cancel} of cancel, {pack} of pack, {unpack} of unpack")?;
        writeln!(f, "runs: {commands} commands of {command_bytes} bytes carried out, {log_bytes} log bytes written")?;
        writeln!(f, "logs: {}", reads(self.entries))?;
        writeln!(f, "steps: {}, {} told nothing", reads(self.outcomes), self.outcomes[0])?;
        let [all, with_room] = [0, COUNT_ENTRY].map(|least| self.parting[least..].iter().sum::<u64>());
        writeln!(
            f,
            "copies that part: {all} times no room for both ends, {with_room} of them with room for one count"
        )?;
        let (all, [done, _, _, invalid, _, decreases, ..]) = (self.folded.iter().sum::<u64>(), self.folded);
        writeln!(f, "folded pages: {all} calls, of which {done} ended with 0, {invalid} with 3, {decreases} with 5;")?;
        writeln!(f, "there {}", reads(self.folded_reads))?;
        writeln!(f, "{}\n{}", self.choices, self.reached)?;
        for (number, count) in self.endings.iter().enumerate().filter(|(_, &count)| count > 0) {
            writeln!(f, "ended with {number}: {count}")?;
        }
        write!(f, "{} differed", self.differed)
    }
}
