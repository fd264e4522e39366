//! The archive's calls on guarded memory: all that a call is lent is copied next to pages that may not be touched, and
//! what it may only read can only be read there. There is no padding.
use lagumtay::queue::raw::{Format, Lent, Receiver, Sender};
use lagumtay_bench::archive_call;
use lagumtay_bench::guarded::Access::{Read, Write};
use lagumtay_bench::guarded::{Guarded, Manner, Side};
use lagumtay_bench::queue::{Call, Memory};

#[derive(Default)]
pub struct Lending {
    format: Guarded<Format>,
    bases: Guarded<u16>,
    queue: Guarded<u8>,
    sender: Guarded<Sender>,
    receiver: Guarded<Receiver>,
    records: Guarded<u8>,
    buffer: Guarded<u8>,
}

impl Lending {
    /// What the archive answers, and all that it leaves.
    pub fn archive(&mut self, before: &Memory, call: Call, side: Side) -> (u8, Memory) {
        let manner = Manner { side, padding: 0 };
        let (queue_access, buffer_access) = match call {
            Call::Open | Call::SendStep => (Write, Read),
            Call::ReceiveStep => (Write, Write),
            _ => (Read, Read),
        };
        let lent = &mut Lent {
            format: &self.format.lend(manner, &[before.format], Read)[0],
            bases: self.bases.lend(manner, &before.bases, Read),
            queue: self.queue.lend(manner, &before.queue, queue_access),
        };
        let sender = &mut self.sender.lend(manner, &[before.sender], Write)[0];
        let receiver = &mut self.receiver.lend(manner, &[before.receiver], Write)[0];
        let records = self.records.lend(manner, &before.records, Read);
        let buffer = self.buffer.lend(manner, &before.buffer, buffer_access);
        let answer = archive_call!(call, lent, sender, receiver, records, buffer);
        let left = Memory {
            queue: self.queue.left().to_vec(),
            sender: self.sender.left()[0],
            receiver: self.receiver.left()[0],
            buffer: self.buffer.left().to_vec(),
            ..before.clone()
        };
        (answer, left)
    }
}
