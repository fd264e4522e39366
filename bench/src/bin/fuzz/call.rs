//! One call with all that it is lent, and how the plain implementation answers it.
use std::fmt;

use lagumtay::raw::{Answer, Command, Outcome, HIGH, LOW};
use lagumtay_bench::owned::Owned;
use lagumtay_bench::plain::{self, command_of, number};
use lagumtay_bench::runlist::command_length;

#[derive(Clone, Copy, Debug, Default, PartialEq)]
pub enum Function {
    Open,
    #[default]
    Run,
    Step,
    Cancel,
    Pack,
    Unpack,
}

#[derive(Clone, Default, PartialEq)]
pub struct Call {
    pub function: Function,
    pub lent: Owned,
    pub records: Vec<u8>,
    pub commands: Vec<u8>,
    pub log: Vec<u8>,
    pub count: u64,
    pub record: Vec<u8>,
    pub who: u8,
    pub command: Command,
    pub packed: Vec<u8>,
}

/// What a call tells: its ending, and beside it a run its answer, a step its outcome.
#[derive(Clone, Copy, Debug, Default, PartialEq)]
pub struct Told {
    pub ending: u8,
    pub answer: Answer,
    pub outcome: Outcome,
}

impl Told {
    pub fn answer(answer: Answer, ending: u8) -> Told {
        Told { ending, answer, ..Told::default() }
    }

    pub fn outcome(outcome: Outcome, ending: u8) -> Told {
        Told { ending, outcome, ..Told::default() }
    }

    pub fn nothing(ending: u8) -> Told {
        Told { ending, ..Told::default() }
    }
}

impl Call {
    pub fn plain(&mut self) -> Told {
        let mut lent = self.lent.lend();
        match self.function {
            Function::Open => Told::nothing(number(plain::open(&mut lent, self.count, &self.record))),
            Function::Run => {
                let (answer, ending) = plain::run(&mut lent, &self.records, &self.commands, &mut self.log);
                Told::answer(answer, number(ending))
            }
            Function::Step => {
                let (outcome, ending) = plain::step(&mut lent, &self.records, &self.command);
                Told::outcome(outcome, number(ending))
            }
            Function::Cancel => Told::nothing(number(plain::cancel(&mut lent, &self.records, self.who))),
            Function::Pack => Told::nothing(number(plain::pack(lent.readers, &mut self.packed))),
            Function::Unpack => Told::nothing(number(plain::unpack(lent.readers, &self.packed))),
        }
    }

    /// The commands of a run that gives this answer, as far as they are carried out.
    pub fn carried_out(&self, answer: Answer) -> impl Iterator<Item = &[u8]> {
        let mut rest = &self.commands[..answer.taken];
        std::iter::from_fn(move || {
            let (command, after) = rest.split_at(command_length(*rest.first()?));
            rest = after;
            Some(command)
        })
    }

    /// After a run that was refused by 12: the bytes left in the log, if the step that did not fit ends between.
    pub fn room_left_to_part(&self, answer: Answer) -> Option<usize> {
        let step = command_of(self.commands[answer.taken..].first_chunk::<2>()?);
        let (outcome, _) = plain::step(&mut self.lent.clone().lend(), &self.records, &step);
        (outcome.kind == 4).then(|| self.log.len() - answer.written)
    }

    /// Of a run that gives this answer: how many of its reads end between two counts, by their choice, which no log
    /// tells.
    pub fn will_part(&self, answer: Answer) -> [u64; 2] {
        let mut lent = self.lent.clone();
        let mut parting = [0; 2];
        for command in self.carried_out(answer) {
            let (outcome, _) = plain::step(&mut lent.lend(), &self.records, &command_of(command));
            if outcome.kind == 4 {
                parting[usize::from(outcome.choice)] += 1;
            }
        }
        parting
    }

    /// Of a call that is refused by 3: the kind of a state that has a strange choice, if nothing else is strange.
    pub fn strange_choice(&self) -> Option<u8> {
        let mut mended = self.clone();
        let mut kind = None;
        for reader in &mut mended.lent.readers {
            if reader.choice > if reader.kind == 1 { HIGH } else { LOW } {
                reader.choice = LOW;
                kind = Some(reader.kind);
            }
        }
        kind.filter(|_| !mended.damaged())
    }

    /// The kind of the command by which a run or a step was refused.
    pub fn refused_kind(&self, answer: Answer) -> Option<u8> {
        match self.function {
            Function::Run => self.commands.get(answer.taken).copied(),
            Function::Step => Some(self.command.kind),
            _ => None,
        }
    }

    /// Would a run, a step or a cancel be refused by 1, 2 or 3?
    pub fn damaged(&self) -> bool {
        plain::run(&mut self.lent.clone().lend(), &self.records, &[], &mut []).1.is_err()
    }
}

impl fmt::Display for Call {
    fn fmt(&self, f: &mut fmt::Formatter) -> fmt::Result {
        let Call { function, lent, records, commands, log, count, record, who, command, packed } = self;
        writeln!(f, "  {function:?} {:?}, bases {:?}", lent.format, lent.bases)?;
        writeln!(f, "  page {:02x?}\n  {:?}", lent.page, lent.writer)?;
        lent.readers.iter().try_for_each(|reader| writeln!(f, "  {reader:?}"))?;
        writeln!(f, "  buffers {:02x?}\n  records {}", lent.buffers, some_of(records))?;
        match function {
            Function::Open => writeln!(f, "  count {count}, record {record:02x?}"),
            Function::Run => writeln!(f, "  commands {}\n  log {}", some_of(commands), some_of(log)),
            Function::Step => writeln!(f, "  {command:?}"),
            Function::Cancel => writeln!(f, "  who {who}"),
            Function::Pack | Function::Unpack => writeln!(f, "  packed {packed:02x?}"),
        }
    }
}

/// Bytes as text: of very many only how many there are, since the case can be replayed.
fn some_of(bytes: &[u8]) -> String {
    const MOST: usize = 4_000;
    match bytes.get(..MOST) {
        Some(first) => format!("{first:02x?} and so on, {} bytes", bytes.len()),
        None => format!("{bytes:02x?}"),
    }
}
