//! Memory for the calls of `raw`, as a caller has it who owns it.
use lagumtay::raw::{Answer, Command, Format, Lent, Outcome, Reader, Writer};
use lagumtay::Refusal;

#[derive(Clone, Debug, PartialEq)]
pub struct Memory {
    pub format: Format,
    pub bases: Vec<u16>,
    pub page: Vec<u8>,
    pub writer: Writer,
    pub readers: Vec<Reader>,
    pub buffers: Vec<u8>,
}

impl Memory {
    pub fn open(format: &lagumtay::Format, count: u64, record: &[u8]) -> Result<Memory, Refusal> {
        let lagumtay::Format { ref bases, q, base, layout, n, readers } = *format;
        let mut memory = Memory {
            format: Format { q, base, layout: layout as u16, n, readers },
            bases: bases.clone(),
            page: vec![0; format.count_steps() + format.record_steps()],
            writer: Writer::default(),
            readers: vec![Reader::default(); readers],
            buffers: vec![0; n * readers],
        };
        let number = memory.lend().open(count, record);
        Refusal::from_number(number).map_or(Ok(memory), Err)
    }

    pub fn lend(&mut self) -> Lent<'_> {
        let Memory { format, bases, page, writer, readers, buffers } = self;
        Lent { format, bases, page, writer, readers, buffers }
    }

    /// What a run answers, and its refusal.
    pub fn run(&mut self, records: &[u8], commands: &[u8], log: &mut [u8]) -> (Answer, Option<Refusal>) {
        let (answer, number) = self.lend().run(records, commands, log);
        (answer, Refusal::from_number(number))
    }

    /// What a step tells, and its refusal.
    pub fn step(&mut self, records: &[u8], command: Command) -> (Outcome, Option<Refusal>) {
        let (outcome, number) = self.lend().step(records, &command);
        (outcome, Refusal::from_number(number))
    }

    pub fn cancel(&mut self, records: &[u8], who: u8) -> Option<Refusal> {
        Refusal::from_number(self.lend().cancel(records, who))
    }

    pub fn buffer(&self, reader: u8) -> &[u8] {
        &self.buffers[usize::from(reader) * self.format.n..][..self.format.n]
    }
}
