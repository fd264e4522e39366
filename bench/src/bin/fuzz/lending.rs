//! The archive's calls on guarded memory: all that a call is lent is copied next to pages that may not be touched, and
//! what it may only read can only be read there.
//!
//! Padding is filled with a byte of its own. Format and command are only read; their padding must not matter. Of the
//! readers' states a call may write those that it carries something out for: there no promise speaks of the padding.
//! Every other state keeps its padding too, so that a refused call alters no byte that is lent.
use lagumtay::raw::{self, Answer, Command, Format, Lent, Outcome, Reader, Writer};
use lagumtay_bench::guarded::Access::{Read, Write};
use lagumtay_bench::guarded::{Guarded, Manner};

use crate::call::{Call, Function, Told};

/// No answer that a run gives and no outcome that a step has, so that one that is not written is seen.
const NO_ANSWER: Answer = Answer { done: usize::MAX, written: usize::MAX, taken: usize::MAX };
const NO_OUTCOME: Outcome = Outcome {
    kind: 255,
    reader: 255,
    attempts: 255,
    choice: 255,
    version: u32::MAX,
    count: u64::MAX,
    low: u64::MAX,
    high: u64::MAX,
};

#[derive(Default)]
pub struct Lending {
    format: Guarded<Format>,
    bases: Guarded<u16>,
    page: Guarded<u8>,
    writer: Guarded<Writer>,
    readers: Guarded<Reader>,
    buffers: Guarded<u8>,
    records: Guarded<u8>,
    commands: Guarded<u8>,
    log: Guarded<u8>,
    answer: Guarded<Answer>,
    command: Guarded<Command>,
    outcome: Guarded<Outcome>,
    record: Guarded<u8>,
    packed: Guarded<u8>,
}

/// The states of readers of which a call altered the padding.
#[derive(Default)]
pub struct Padding {
    /// of those that it may write: how many keep it, and how many do not
    pub kept: u64,
    pub altered: u64,
    /// one that it may not write, and yet its padding is altered
    pub wrong: Option<usize>,
}

impl Lending {
    /// The archive's call.
    pub fn archive(&mut self, call: &Call, manner: Manner) -> Told {
        match call.function {
            Function::Pack => {
                let readers = self.readers.lend(manner, &call.lent.readers, Read);
                let packed = self.packed.lend(manner, &call.packed, Write);
                Told::nothing(raw::pack(readers, packed))
            }
            Function::Unpack => {
                let readers = self.readers.lend(manner, &call.lent.readers, Write);
                let packed = self.packed.lend(manner, &call.packed, Read);
                Told::nothing(raw::unpack(readers, packed))
            }
            _ => self.page_call(call, manner),
        }
    }

    fn page_call(&mut self, call: &Call, manner: Manner) -> Told {
        // A cancel writes the readers' states alone.
        let access = if call.function == Function::Cancel { Read } else { Write };
        let lent = &mut Lent {
            format: &self.format.lend(manner, &[call.lent.format], Read)[0],
            bases: self.bases.lend(manner, &call.lent.bases, Read),
            page: self.page.lend(manner, &call.lent.page, access),
            writer: &mut self.writer.lend(manner, &[call.lent.writer], access)[0],
            readers: self.readers.lend(manner, &call.lent.readers, Write),
            buffers: self.buffers.lend(manner, &call.lent.buffers, access),
        };
        if call.function == Function::Open {
            let record = self.record.lend(manner, &call.record, Read);
            return Told::nothing(lent.open(call.count, record));
        }
        let records = self.records.lend(manner, &call.records, Read);
        match call.function {
            Function::Run => {
                let commands = self.commands.lend(manner, &call.commands, Read);
                let log = self.log.lend(manner, &call.log, Write);
                let answer = &mut self.answer.lend(manner, &[NO_ANSWER], Write)[0];
                let ending = lent.run_into(records, commands, log, answer);
                Told::answer(*answer, ending)
            }
            Function::Step => {
                let command = &self.command.lend(manner, &[call.command], Read)[0];
                let outcome = &mut self.outcome.lend(manner, &[NO_OUTCOME], Write)[0];
                let ending = lent.step_into(records, command, outcome);
                Told::outcome(*outcome, ending)
            }
            _ => Told::nothing(lent.cancel(records, call.who)),
        }
    }

    /// What the archive's call leaves: the same call, with all that it may have written.
    pub fn left(&self, before: Call) -> Call {
        let mut call = before;
        match call.function {
            Function::Pack => call.packed.copy_from_slice(self.packed.left()),
            Function::Cancel | Function::Unpack => call.lent.readers.copy_from_slice(self.readers.left()),
            Function::Open | Function::Run | Function::Step => {
                call.lent.page.copy_from_slice(self.page.left());
                call.lent.writer = self.writer.left()[0];
                call.lent.readers.copy_from_slice(self.readers.left());
                call.lent.buffers.copy_from_slice(self.buffers.left());
            }
        }
        if call.function == Function::Run {
            call.log.copy_from_slice(self.log.left());
        }
        call
    }

    /// What became of the padding of the readers' states, of a call that told this.
    pub fn padding(&self, call: &Call, told: Told) -> Padding {
        let mut altered = vec![false; call.lent.readers.len()];
        self.readers.altered_padding().for_each(|at| altered[at] = true);
        let mut padding = Padding::default();
        for (at, (may_be_written, altered)) in written(call, told).into_iter().zip(altered).enumerate() {
            match (may_be_written, altered) {
                (true, false) => padding.kept += 1,
                (true, true) => padding.altered += 1,
                (false, true) => padding.wrong = Some(at),
                (false, false) => {}
            }
        }
        padding
    }
}

/// Which of the readers' states a call that told this may have written.
fn written(call: &Call, told: Told) -> Vec<bool> {
    let all = call.lent.readers.len();
    let among = |those: &[u8]| (0..all).map(|at| those.iter().any(|&who| usize::from(who) == at)).collect();
    match call.function {
        Function::Run => {
            let mut states = vec![false; all];
            call.carried_out(told.answer).filter_map(reader_of).for_each(|who| states[usize::from(who)] = true);
            states
        }
        Function::Open | Function::Unpack => vec![told.ending == 0; all],
        Function::Step if told.ending == 0 => among(reader_of(&[call.command.kind, call.command.reader]).as_slice()),
        Function::Cancel if told.ending == 0 => among(&[call.who]),
        _ => vec![false; all],
    }
}

/// The reader that a command names.
fn reader_of(command: &[u8]) -> Option<u8> {
    match *command {
        [4..=7 | 13, who, ..] => Some(who),
        _ => None,
    }
}
