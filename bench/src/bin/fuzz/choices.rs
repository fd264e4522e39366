//! What was met of the choice between two ends.
use std::fmt;

use lagumtay::raw::LONGEST_ENTRY;

use crate::call::{Call, Function, Told};
use crate::totals::add_to;

#[derive(Default)]
pub struct Choices {
    /// reads that ended between two counts in runs, by their choice
    runs: [u64; 2],
    /// the same in steps
    steps: [u64; 2],
    /// calls refused by 3 for a choice alone, by the kind of the state that has it
    strange: [u64; 3],
    /// commands 0D refused by 6, 8 and 11
    refused: [u64; 3],
}

impl Choices {
    /// A call as it was made, and what it told.
    pub fn add(&mut self, before: &Call, Told { ending, answer, outcome }: Told) {
        match before.function {
            Function::Run if answer.written >= LONGEST_ENTRY => add_to(&mut self.runs, before.will_part(answer)),
            Function::Step if outcome.kind == 4 => self.steps[usize::from(outcome.choice)] += 1,
            // An opening asks nothing of the states; the last two answer no 3.
            Function::Open | Function::Pack | Function::Unpack => return,
            _ => {}
        }
        if ending == 3 {
            before.strange_choice().into_iter().for_each(|kind| self.strange[usize::from(kind)] += 1);
        }
        if before.refused_kind(answer) == Some(13) {
            let by = [6, 8, 11].iter().position(|&why| why == ending);
            by.into_iter().for_each(|by| self.refused[by] += 1);
        }
    }

    /// Was all of it met?
    pub fn all(&self) -> bool {
        let Choices { runs, steps, strange, refused } = self;
        [&runs[..], steps, strange, refused].concat().iter().all(|&times| times > 0)
    }
}

impl fmt::Display for Choices {
    fn fmt(&self, f: &mut fmt::Formatter) -> fmt::Result {
        let Choices { runs, steps, strange: [idle, count, record], refused: [busy, no_such, cut_short] } = self;
        writeln!(f, "choices: between two, the low end and the high end, {runs:?} in runs and {steps:?} in steps;")?;
        writeln!(f, "3 for the choice of an idle reader {idle}, a count read {count}, a record read {record};")?;
        write!(f, "0D refused by 6 {busy}, by 8 {no_such}, by 11 {cut_short}")
    }
}
