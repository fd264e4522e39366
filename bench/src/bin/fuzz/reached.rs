//! What was met of the corners to which random calls hardly ever get.
use std::fmt;

use lagumtay::raw::FOLDED;
use lagumtay::{Entries, Entry};
use lagumtay_bench::guarded::Side;

use crate::call::{Call, Function, Told};
use crate::lending::Padding;

/// The first record that no command can name.
pub const FAR: usize = 65_536;

#[derive(Default)]
pub struct Reached {
    /// runs that carried out more than so many commands: 5,000, 6,300 and 65,535
    runs: [u64; 3],
    /// logs of which more than 400 and 65,535 bytes were written, and those full with more than 390 written
    logs: [u64; 2],
    full: u64,
    /// calls that went on with the write of a far record, and those that ended it
    far: [u64; 2],
    /// reads that gave up after 255 attempts, and those accepted after more than 250
    gave_up: u64,
    accepted: u64,
    /// calls carried out with all sixteen readers of the largest page busy, plain and folded
    crowds: [u64; 2],
    /// calls that were lent all right after a guard, and right before one
    sides: [u64; 2],
    /// refused calls of which each byte was compared, padding too
    refused: u64,
    /// states that were or could be written: those whose padding was kept, and those whose was not
    padding: [u64; 2],
}

impl Reached {
    /// A call as it was made and as it was left, what it told, and what became of the padding.
    pub fn add(&mut self, before: &Call, after: &Call, told: Told, padding: &Padding) {
        let Told { ending, answer, outcome } = told;
        add_above(&mut self.runs, answer.done, [5_000, 6_300, 65_535]);
        add_above(&mut self.logs, answer.written, [400, 65_535]);
        self.full += u64::from(ending == 12 && answer.written > 390);
        self.refused += u64::from(ending != 0 && answer.done == 0);
        self.padding[0] += padding.kept;
        self.padding[1] += padding.altered;
        match before.function {
            Function::Run => Entries::new(&after.log[..answer.written]).for_each(|entry| match entry {
                Entry::GaveUp { attempts, .. } => self.add_gave_up(attempts),
                Entry::Accepted { attempts, .. } => self.add_accepted(attempts),
                _ => {}
            }),
            Function::Step if outcome.kind == 3 => self.add_gave_up(outcome.attempts),
            Function::Step if outcome.kind == 2 => self.add_accepted(outcome.attempts),
            Function::Step | Function::Cancel => {}
            Function::Open | Function::Pack | Function::Unpack => return,
        }
        if ending == 0 || answer.done > 0 {
            self.add_far(before, after);
            self.crowds[usize::from(before.lent.format.layout == FOLDED)] += u64::from(is_crowd(before));
        }
    }

    pub fn add_side(&mut self, side: Side) {
        self.sides[side as usize] += 1;
    }

    fn add_gave_up(&mut self, attempts: u8) {
        self.gave_up += u64::from(attempts == 255);
    }

    fn add_accepted(&mut self, attempts: u8) {
        self.accepted += u64::from(attempts > 250);
    }

    fn add_far(&mut self, before: &Call, after: &Call) {
        let (was, is) = (before.lent.writer, after.lent.writer);
        if was.index >= FAR && is != was {
            self.far[0] += 1;
            self.far[1] += u64::from(is.index < FAR);
        }
    }

    /// Was all of it met? What becomes of the padding of states that are written does not matter.
    pub fn all(&self) -> bool {
        let Reached { runs, logs, full, far, gave_up, accepted, crowds, sides, refused, padding: _ } = self;
        let single = [*full, *gave_up, *accepted, *refused];
        [&runs[..], logs, far, crowds, sides, &single].concat().iter().all(|&times| times > 0)
    }
}

/// All readers of the largest page are busy.
fn is_crowd(call: &Call) -> bool {
    let format = call.lent.format;
    (format.q, format.base, format.n, format.readers) == (4, 256, 256, 16)
        && call.lent.bases == [256; 8]
        && call.lent.readers.iter().all(|reader| reader.kind != 0)
}

fn add_above<const N: usize>(totals: &mut [u64; N], number: usize, limits: [usize; N]) {
    totals.iter_mut().zip(limits).for_each(|(total, limit)| *total += u64::from(number > limit));
}

impl fmt::Display for Reached {
    fn fmt(&self, f: &mut fmt::Formatter) -> fmt::Result {
        let Reached { runs, logs, full, far, gave_up, accepted, crowds, sides, refused, padding } = self;
        let ([some, more, most], [large, largest], [kept, altered]) = (runs, logs, padding);
        writeln!(f, "runs of more than 5,000 commands {some}, than 6,300 {more}, than 65,535 {most};")?;
        writeln!(f, "logs of more than 400 bytes {large}, than 65,535 {largest}, full beyond byte 390 {full};")?;
        writeln!(f, "writes from beyond record 65,535: {} calls went on with one, {} ended it;", far[0], far[1])?;
        writeln!(f, "attempts: {gave_up} gave up after 255, {accepted} accepted after more than 250;")?;
        writeln!(f, "all sixteen readers of the largest page busy: {} calls, and {} folded", crowds[0], crowds[1])?;
        writeln!(f, "guards: {} calls were lent all right after one, {} right before one;", sides[0], sides[1])?;
        writeln!(f, "padding: {refused} refused calls altered none; of states that calls could write, {kept} kept")?;
        write!(f, "theirs and {altered} did not")
    }
}
