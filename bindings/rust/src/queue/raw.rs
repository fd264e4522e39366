//! The queue's calls for a caller who owns the memory, as `include/lagumtay_queue.h` of the repository has them.
//!
//! A call answers 0, or the number of a [`QueueRefusal`]: [`QueueRefusal::from_number`] names it. Any call may be
//! refused by [`QueueRefusal::BadFormat`] and [`QueueRefusal::WrongLength`], any but an opening also by
//! [`QueueRefusal::InvalidState`]; a refused call changes nothing. Calls on one queue are made one after another. Three
//! rules are left to the caller, which a [`Queue`](super::Queue) keeps by itself:
//!
//! - **The record at [`Sender::index`] stays as it was announced while [`Sender::kind`] is 1**, or a mixture of both is
//!   sent. Between sendings each call may bring new records.
//! - **A receiving has one buffer throughout.** It holds the parcel, whole, from the step that moved its last byte,
//!   step m + n, until the next receiving moves a byte: take it before.
//! - What the calls are lent stays as they left it, from [`Lent::open`] on, under the same format.
#[cfg(doc)]
use super::QueueRefusal;

/// Mirrors `lagumtay_queue_format`: the numbers of a queue but for its bases, which are lent beside it.
#[repr(C)]
#[derive(Clone, Copy, Debug, Default, PartialEq, Eq)]
pub struct Format {
    /// The bytes of a parcel, 1 to 256.
    pub n: usize,
    /// How many parcels the queue holds, 1 to 64.
    pub places: usize,
}

/// Mirrors `lagumtay_queue_sender`: the sender's state. Kind 0: idle, and all else zero; 1: a sending. Digits gathered
/// of received stand from 0 on, until the last one is gathered; those not gathered are zero.
#[repr(C)]
#[derive(Clone, Copy, Debug, Default, PartialEq, Eq)]
pub struct Sender {
    /// The number of the parcel.
    pub serial: u64,
    /// Steps taken.
    pub steps: usize,
    /// 0 or 1.
    pub kind: usize,
    /// What is gathered.
    pub digits: [u8; 8],
    /// Which of the lent records is sent.
    pub index: usize,
}

/// Mirrors `lagumtay_queue_receiver`: the receiver's state, as [`Sender`], with the digits of sent.
#[repr(C)]
#[derive(Clone, Copy, Debug, Default, PartialEq, Eq)]
pub struct Receiver {
    /// The number of the parcel.
    pub serial: u64,
    /// Steps taken.
    pub steps: usize,
    /// 0 or 1.
    pub kind: usize,
    /// What is gathered.
    pub digits: [u8; 8],
}

extern "C" {
    fn lagumtay_queue_open(
        format: *const Format,
        bases: *const u16,
        m: usize,
        queue: *mut u8,
        queue_len: usize,
        sender: *mut Sender,
        receiver: *mut Receiver,
    ) -> u8;
    fn lagumtay_queue_send_begin(
        format: *const Format,
        bases: *const u16,
        m: usize,
        queue: *const u8,
        queue_len: usize,
        sender: *mut Sender,
        records: *const u8,
        records_len: usize,
        index: usize,
    ) -> u8;
    fn lagumtay_queue_send_step(
        format: *const Format,
        bases: *const u16,
        m: usize,
        queue: *mut u8,
        queue_len: usize,
        sender: *mut Sender,
        records: *const u8,
        records_len: usize,
    ) -> u8;
    fn lagumtay_queue_send_cancel(
        format: *const Format,
        bases: *const u16,
        m: usize,
        queue: *const u8,
        queue_len: usize,
        sender: *mut Sender,
        records: *const u8,
        records_len: usize,
    ) -> u8;
    fn lagumtay_queue_receive_begin(
        format: *const Format,
        bases: *const u16,
        m: usize,
        queue: *const u8,
        queue_len: usize,
        receiver: *mut Receiver,
        buffer: *const u8,
        buffer_len: usize,
    ) -> u8;
    fn lagumtay_queue_receive_step(
        format: *const Format,
        bases: *const u16,
        m: usize,
        queue: *mut u8,
        queue_len: usize,
        receiver: *mut Receiver,
        buffer: *mut u8,
        buffer_len: usize,
    ) -> u8;
    fn lagumtay_queue_receive_cancel(
        format: *const Format,
        bases: *const u16,
        m: usize,
        queue: *const u8,
        queue_len: usize,
        receiver: *mut Receiver,
        buffer: *const u8,
        buffer_len: usize,
    ) -> u8;
}

/// Calls the archive: the arguments that all functions of a queue begin with, then those of this one. The queue's
/// pointer is taken by `as_ptr`, or by `as_mut_ptr` for a call that writes it.
macro_rules! call {
    ($function:ident, $lent:expr, $pointer:ident, $($own:expr),+) => {
        $function(
            $lent.format,
            $lent.bases.as_ptr(),
            $lent.bases.len(),
            $lent.queue.$pointer(),
            $lent.queue.len(),
            $($own),+
        )
    };
}

/// What all calls of a queue are lent. Any lengths but these are refused by [`QueueRefusal::WrongLength`].
#[derive(Debug)]
pub struct Lent<'a> {
    /// Its numbers.
    pub format: &'a Format,
    /// The bases of the m places of both its numbers, 1 to 8 of 2 to 256.
    pub bases: &'a [u16],
    /// Its bytes: sent (m), received (m), the places (n each).
    pub queue: &'a mut [u8],
}

// These calls are sound: each pointer comes with its length from a reference that lives through the call, those written
// through from `&mut`, so that none overlap. The archive answers for any values, touches nothing else, and any bytes
// that it leaves are values of these types.
impl Lent<'_> {
    /// `lagumtay_queue_open`: both numbers 0, all places zero, both sides idle. What was lent before does not matter.
    #[must_use = "it may be refused"]
    pub fn open(&mut self, sender: &mut Sender, receiver: &mut Receiver) -> u8 {
        unsafe { call!(lagumtay_queue_open, self, as_mut_ptr, sender, receiver) }
    }

    /// `lagumtay_queue_send_begin`: begin to send the record at this index, of n bytes as each. Refused by
    /// [`QueueRefusal::NoSuch`], [`QueueRefusal::Busy`] and [`QueueRefusal::SerialsExhausted`].
    #[must_use = "it may be refused"]
    pub fn send_begin(&self, sender: &mut Sender, records: &[u8], index: usize) -> u8 {
        unsafe { call!(lagumtay_queue_send_begin, self, as_ptr, sender, records.as_ptr(), records.len(), index) }
    }

    /// `lagumtay_queue_send_step`: the next step of the sending. Refused by [`QueueRefusal::NothingPending`], and with
    /// the gathering's last digit by [`QueueRefusal::QueueFull`]: that step can be taken again.
    #[must_use = "it may be refused"]
    pub fn send_step(&mut self, sender: &mut Sender, records: &[u8]) -> u8 {
        unsafe { call!(lagumtay_queue_send_step, self, as_mut_ptr, sender, records.as_ptr(), records.len()) }
    }

    /// `lagumtay_queue_send_cancel`: abandon the sending, which no byte was moved of. Refused by
    /// [`QueueRefusal::NothingPending`].
    #[must_use = "it may be refused"]
    pub fn send_cancel(&self, sender: &mut Sender, records: &[u8]) -> u8 {
        unsafe { call!(lagumtay_queue_send_cancel, self, as_ptr, sender, records.as_ptr(), records.len()) }
    }

    /// `lagumtay_queue_receive_begin`: begin to receive into this buffer of n bytes. Refused by [`QueueRefusal::Busy`].
    #[must_use = "it may be refused"]
    pub fn receive_begin(&self, receiver: &mut Receiver, buffer: &[u8]) -> u8 {
        unsafe { call!(lagumtay_queue_receive_begin, self, as_ptr, receiver, buffer.as_ptr(), buffer.len()) }
    }

    /// `lagumtay_queue_receive_step`: the next step of the receiving. Refused by [`QueueRefusal::NothingPending`], and
    /// with the gathering's last digit by [`QueueRefusal::QueueEmpty`]: that step can be taken again.
    #[must_use = "it may be refused"]
    pub fn receive_step(&mut self, receiver: &mut Receiver, buffer: &mut [u8]) -> u8 {
        unsafe { call!(lagumtay_queue_receive_step, self, as_mut_ptr, receiver, buffer.as_mut_ptr(), buffer.len()) }
    }

    /// `lagumtay_queue_receive_cancel`: abandon the receiving, which no byte was moved of. Refused by
    /// [`QueueRefusal::NothingPending`].
    #[must_use = "it may be refused"]
    pub fn receive_cancel(&self, receiver: &mut Receiver, buffer: &[u8]) -> u8 {
        unsafe { call!(lagumtay_queue_receive_cancel, self, as_ptr, receiver, buffer.as_ptr(), buffer.len()) }
    }
}

#[cfg(test)]
mod tests {
    use super::*;
    use core::mem::{align_of, offset_of, size_of};

    #[test]
    fn structs_have_the_layout_of_the_header() {
        assert_eq!([offset_of!(Format, n), offset_of!(Format, places)], [0, 8]);
        assert_eq!([offset_of!(Sender, serial), offset_of!(Sender, steps), offset_of!(Sender, kind)], [0, 8, 16]);
        assert_eq!([offset_of!(Sender, digits), offset_of!(Sender, index)], [24, 32]);
        assert_eq!([offset_of!(Receiver, serial), offset_of!(Receiver, steps)], [0, 8]);
        assert_eq!([offset_of!(Receiver, kind), offset_of!(Receiver, digits)], [16, 24]);
        assert_eq!([size_of::<Format>(), size_of::<Sender>(), size_of::<Receiver>()], [16, 40, 32]);
        assert_eq!([align_of::<Format>(), align_of::<Sender>(), align_of::<Receiver>()], [8; 3]);
    }

    const RECORDS: &[u8; 6] = b"abcdef";
    const FORMAT: Format = Format { n: 2, places: 3 };

    struct Memory {
        queue: [u8; 10],
        sender: Sender,
        receiver: Receiver,
        buffer: [u8; 2],
    }

    impl Memory {
        /// Opened over garbage: bases 7 and 9, three places of two bytes.
        fn opened() -> Memory {
            let mut memory = Memory {
                queue: [9; 10],
                sender: Sender { serial: 9, steps: 9, kind: 9, digits: [9; 8], index: 9 },
                receiver: Receiver { serial: 9, steps: 9, kind: 9, digits: [9; 8] },
                buffer: [9; 2],
            };
            assert_eq!(memory.lent(|lent, sender, receiver, _| lent.open(sender, receiver)), 0);
            assert_eq!((memory.queue, memory.buffer), ([0; 10], [9; 2]));
            memory
        }

        fn lent<T>(&mut self, call: impl FnOnce(&mut Lent, &mut Sender, &mut Receiver, &mut [u8]) -> T) -> T {
            let Memory { queue, sender, receiver, buffer } = self;
            call(&mut Lent { format: &FORMAT, bases: &[7, 9], queue }, sender, receiver, buffer)
        }

        fn send(&mut self, index: usize, steps: usize) {
            assert_eq!(self.lent(|lent, sender, _, _| lent.send_begin(sender, RECORDS, index)), 0);
            for _ in 0..steps {
                assert_eq!(self.lent(|lent, sender, _, _| lent.send_step(sender, RECORDS)), 0);
            }
        }

        fn receive(&mut self, steps: usize) {
            assert_eq!(self.lent(|lent, _, receiver, buffer| lent.receive_begin(receiver, buffer)), 0);
            for _ in 0..steps {
                assert_eq!(self.lent(|lent, _, receiver, buffer| lent.receive_step(receiver, buffer)), 0);
            }
        }
    }

    /// Each field gets a value of its own from the archive. Where the archive put it at another offset, or its structs
    /// were of another size, some field here would have another value.
    #[test]
    fn the_archive_fills_these_fields() {
        let mut memory = Memory::opened();
        assert_eq!((memory.sender, memory.receiver), (Sender::default(), Receiver::default()));
        // Both numbers are 4, 5: 41. One digit of the other's is gathered.
        memory.queue[..4].copy_from_slice(&[4, 5, 4, 5]);
        memory.send(2, 1);
        let digits = [4, 0, 0, 0, 0, 0, 0, 0];
        assert_eq!(memory.sender, Sender { serial: 41, steps: 1, kind: 1, digits, index: 2 });
        memory.receive(1);
        assert_eq!(memory.receiver, Receiver { serial: 41, steps: 1, kind: 1, digits });
        // The last digit is the sixth that is written; place 41 mod 3 is the last one.
        for _ in 1..6 {
            assert_eq!(memory.lent(|lent, sender, _, _| lent.send_step(sender, RECORDS)), 0);
        }
        assert_eq!((memory.sender, memory.queue), (Sender::default(), [4, 6, 4, 5, 0, 0, 0, 0, b'e', b'f']));
        for _ in 1..6 {
            assert_eq!(memory.lent(|lent, _, receiver, buffer| lent.receive_step(receiver, buffer)), 0);
        }
        assert_eq!((memory.receiver, memory.buffer), (Receiver::default(), *b"ef"));
        assert_eq!(memory.queue[..4], [4, 6, 4, 6]);
    }

    /// A value that no steps could leave is seen in each field.
    #[test]
    fn the_archive_reads_these_fields() {
        let damages: [fn(&mut Memory); 9] = [
            |memory| memory.sender.serial = 1,
            |memory| memory.sender.steps = 1,
            |memory| memory.sender.kind = 2,
            |memory| memory.sender.digits[7] = 1,
            |memory| memory.sender.index = 1,
            |memory| memory.receiver.serial = 1,
            |memory| memory.receiver.steps = 1,
            |memory| memory.receiver.kind = 2,
            |memory| memory.receiver.digits[7] = 1,
        ];
        for (i, damage) in damages.iter().enumerate() {
            let mut memory = Memory::opened();
            damage(&mut memory);
            let [sending, receiving] = if i < 5 { [3, 0] } else { [0, 3] };
            assert_eq!(memory.lent(|lent, sender, _, _| lent.send_begin(sender, RECORDS, 0)), sending);
            assert_eq!(memory.lent(|lent, _, receiver, buffer| lent.receive_begin(receiver, buffer)), receiving);
        }
    }

    /// Records that are no multiple of a parcel, too few, or without the one that was announced.
    #[test]
    fn the_archive_looks_at_the_records() {
        let mut memory = Memory::opened();
        let begin = |memory: &mut Memory, records: &[u8], index| {
            memory.lent(|lent, sender, _, _| lent.send_begin(sender, records, index))
        };
        assert_eq!(begin(&mut memory, &RECORDS[1..], 0), 2);
        assert_eq!(begin(&mut memory, RECORDS, 3), 8);
        assert_eq!(begin(&mut memory, &[], 0), 8);
        memory.send(2, 0);
        assert_eq!(begin(&mut memory, RECORDS, 0), 6);
        assert_eq!(begin(&mut memory, RECORDS, 3), 8);
        assert_eq!(memory.lent(|lent, sender, _, _| lent.send_step(sender, &RECORDS[1..])), 2);
        assert_eq!(memory.lent(|lent, sender, _, _| lent.send_step(sender, &RECORDS[..4])), 3);
        assert_eq!(memory.lent(|lent, sender, _, _| lent.send_cancel(sender, &RECORDS[..4])), 3);
        assert_eq!(memory.sender, Sender { kind: 1, index: 2, ..Sender::default() });
    }

    #[test]
    fn cancels_what_it_began() {
        let mut memory = Memory::opened();
        memory.send(0, 2);
        assert_eq!(memory.lent(|lent, sender, _, _| lent.send_cancel(sender, RECORDS)), 0);
        memory.receive(1);
        assert_eq!(memory.lent(|lent, _, receiver, buffer| lent.receive_cancel(receiver, buffer)), 0);
        assert_eq!((memory.sender, memory.receiver, memory.queue), (Sender::default(), Receiver::default(), [0; 10]));
    }
}
