//! The memory of one queue, owned, and the calls on it, by either implementation.
use lagumtay::queue::raw::{Format, Lent, Receiver, Sender};

use crate::plain_queue::{self as plain, number};

/// A call, without what it is lent.
#[derive(Clone, Copy, Debug, PartialEq, Eq)]
pub enum Call {
    Open,
    SendBegin(usize),
    SendStep,
    SendCancel,
    ReceiveBegin,
    ReceiveStep,
    ReceiveCancel,
}

/// The ending of a call of the archive with all that it can be lent, wherever that lies. It is no function: that would
/// cost `queue_bench` half a nanosecond a call.
#[macro_export]
macro_rules! archive_call {
    ($call:expr, $lent:expr, $sender:expr, $receiver:expr, $records:expr, $buffer:expr) => {
        match $call {
            $crate::queue::Call::Open => $lent.open($sender, $receiver),
            $crate::queue::Call::SendBegin(index) => $lent.send_begin($sender, $records, index),
            $crate::queue::Call::SendStep => $lent.send_step($sender, $records),
            $crate::queue::Call::SendCancel => $lent.send_cancel($sender, $records),
            $crate::queue::Call::ReceiveBegin => $lent.receive_begin($receiver, $buffer),
            $crate::queue::Call::ReceiveStep => $lent.receive_step($receiver, $buffer),
            $crate::queue::Call::ReceiveCancel => $lent.receive_cancel($receiver, $buffer),
        }
    };
}

/// All that the calls of both sides are lent.
#[derive(Clone, Debug, Default, PartialEq)]
pub struct Memory {
    pub format: Format,
    pub bases: Vec<u16>,
    pub queue: Vec<u8>,
    pub sender: Sender,
    pub receiver: Receiver,
    pub records: Vec<u8>,
    pub buffer: Vec<u8>,
}

impl Memory {
    /// Zeros in the lengths that a good format asks: what an opening leaves.
    pub fn blank(bases: &[u16], n: usize, places: usize, records: Vec<u8>) -> Memory {
        Memory {
            format: Format { n, places },
            bases: bases.to_vec(),
            queue: vec![0; 2 * bases.len() + places * n],
            records,
            buffer: vec![0; n],
            ..Memory::default()
        }
    }

    /// The ending of a call of the plain implementation.
    #[inline]
    pub fn plain(&mut self, call: Call) -> u8 {
        let Memory { format, bases, queue, sender, receiver, records, buffer } = self;
        let lent = &mut Lent { format, bases, queue };
        number(match call {
            Call::Open => plain::open(lent, sender, receiver),
            Call::SendBegin(index) => plain::send_begin(lent, sender, records, index),
            Call::SendStep => plain::send_step(lent, sender, records),
            Call::SendCancel => plain::send_cancel(lent, sender, records),
            Call::ReceiveBegin => plain::receive_begin(lent, receiver, buffer),
            Call::ReceiveStep => plain::receive_step(lent, receiver, buffer),
            Call::ReceiveCancel => plain::receive_cancel(lent, receiver, buffer),
        })
    }

    /// The ending of a call of the archive.
    #[inline]
    pub fn archive(&mut self, call: Call) -> u8 {
        let Memory { format, bases, queue, sender, receiver, records, buffer } = self;
        let lent = &mut Lent { format, bases, queue };
        archive_call!(call, lent, sender, receiver, records, buffer)
    }
}
