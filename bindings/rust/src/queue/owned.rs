//! A queue that owns its memory.
use alloc::vec;
use alloc::vec::Vec;

use super::raw::{self, Lent};
use super::refusal::ending;
use super::{QueueRefusal, Received, Sent, Serial};

/// An opened queue with its sender and its receiver.
#[derive(Clone, Debug, PartialEq, Eq)]
pub struct Queue {
    format: raw::Format,
    bases: Vec<u16>,
    queue: Vec<u8>,
    sender: raw::Sender,
    receiver: raw::Receiver,
    /// the parcel that is being sent; empty if none is
    parcel: Vec<u8>,
    /// holds a parcel, whole, only right after its last byte was copied
    buffer: Vec<u8>,
}

/// What a step of an act is for; the last byte and the last digit stand for themselves.
enum Motion {
    Digit,
    Byte,
    LastByte,
    OwnDigit,
    LastDigit,
}

impl Queue {
    /// An empty queue: both numbers, of these 1 to 8 bases of 2 to 256, are 0, and so are all bytes of its places, 1 to
    /// 64 of n bytes each (1 to 256); both sides are idle. Refused by [`QueueRefusal::BadFormat`].
    pub fn open(bases: &[u16], n: usize, places: usize) -> Result<Queue, QueueRefusal> {
        // A number outside its range is refused before any length is looked at; until then it must not fill the memory.
        let [some_n, some_places] = [n.min(256), places.min(64)];
        let mut queue = Queue {
            format: raw::Format { n, places },
            bases: bases.to_vec(),
            queue: vec![0; 2 * bases.len() + some_places * some_n],
            sender: raw::Sender::default(),
            receiver: raw::Receiver::default(),
            parcel: Vec::new(),
            buffer: vec![0; some_n],
        };
        queue.open_again()?;
        Ok(queue)
    }

    /// The same queue from the beginning: parcels that it held are gone, and so are unfinished acts. It is not refused
    /// once the queue is open.
    pub fn open_again(&mut self) -> Result<(), QueueRefusal> {
        let Queue { format, bases, queue, sender, receiver, parcel, buffer } = self;
        ending(Lent { format, bases, queue }.open(sender, receiver))?;
        parcel.clear();
        buffer.fill(0);
        Ok(())
    }

    /// Begin to send this parcel of n bytes, which is copied, so that it does not change while it is sent. Refused by
    /// [`QueueRefusal::WrongLength`], [`QueueRefusal::Busy`] and [`QueueRefusal::SerialsExhausted`].
    pub fn send_begin(&mut self, parcel: &[u8]) -> Result<Serial, QueueRefusal> {
        if parcel.len() != self.format.n {
            return Err(QueueRefusal::WrongLength);
        }
        let Queue { format, bases, queue, sender, .. } = self;
        ending(Lent { format, bases, queue }.send_begin(sender, parcel, 0))?;
        self.parcel.extend_from_slice(parcel);
        Ok(Serial(self.sender.serial))
    }

    /// The next step of the sending. Refused by [`QueueRefusal::NothingPending`], and by [`QueueRefusal::QueueFull`] at
    /// the gathering's last digit: that step can be taken again, which reads this digit anew, or the sending cancelled.
    /// If the receiver went on during the gathering, its other digits may be old, so that it is refused for ever: then
    /// cancel, and begin afresh.
    pub fn send_step(&mut self) -> Result<Sent, QueueRefusal> {
        let raw::Sender { serial, steps, .. } = self.sender;
        let Queue { format, bases, queue, sender, parcel, .. } = self;
        ending(Lent { format, bases, queue }.send_step(sender, parcel))?;
        let serial = Serial(serial);
        Ok(match self.motion(steps) {
            Motion::Digit => Sent::Gathered,
            Motion::Byte => Sent::Moved,
            Motion::LastByte => Sent::PutIn(serial),
            Motion::OwnDigit => Sent::Wrote,
            Motion::LastDigit => {
                self.parcel.clear();
                Sent::Ended(serial)
            }
        })
    }

    /// Abandon the sending, which no byte was moved of. Refused by [`QueueRefusal::NothingPending`].
    pub fn send_cancel(&mut self) -> Result<(), QueueRefusal> {
        let Queue { format, bases, queue, sender, parcel, .. } = self;
        ending(Lent { format, bases, queue }.send_cancel(sender, parcel))?;
        parcel.clear();
        Ok(())
    }

    /// Begin to receive. Refused by [`QueueRefusal::Busy`].
    pub fn receive_begin(&mut self) -> Result<Serial, QueueRefusal> {
        let Queue { format, bases, queue, receiver, buffer, .. } = self;
        ending(Lent { format, bases, queue }.receive_begin(receiver, buffer))?;
        Ok(Serial(self.receiver.serial))
    }

    /// The next step of the receiving. Refused by [`QueueRefusal::NothingPending`], and by [`QueueRefusal::QueueEmpty`]
    /// at the gathering's last digit: that step can be taken again, which reads this digit anew, or the receiving
    /// cancelled. If the sender went on during the gathering, its other digits may be old: then cancel, and begin
    /// afresh.
    pub fn receive_step(&mut self) -> Result<Received<'_>, QueueRefusal> {
        let raw::Receiver { serial, steps, .. } = self.receiver;
        let Queue { format, bases, queue, receiver, buffer, .. } = self;
        ending(Lent { format, bases, queue }.receive_step(receiver, buffer))?;
        let serial = Serial(serial);
        Ok(match self.motion(steps) {
            Motion::Digit => Received::Gathered,
            Motion::Byte => Received::Moved,
            Motion::LastByte => Received::CopiedOut(serial, &self.buffer),
            Motion::OwnDigit => Received::Wrote,
            Motion::LastDigit => Received::Ended(serial, &self.buffer),
        })
    }

    /// Abandon the receiving, which no byte was moved of. Refused by [`QueueRefusal::NothingPending`].
    pub fn receive_cancel(&mut self) -> Result<(), QueueRefusal> {
        let Queue { format, bases, queue, receiver, buffer, .. } = self;
        ending(Lent { format, bases, queue }.receive_cancel(receiver, buffer))
    }

    /// What the step after so many others is for.
    fn motion(&self, steps: usize) -> Motion {
        let (m, n) = (self.bases.len(), self.format.n);
        match steps + 1 {
            taken if taken <= m => Motion::Digit,
            taken if taken < m + n => Motion::Byte,
            taken if taken == m + n => Motion::LastByte,
            taken if taken < 2 * m + n => Motion::OwnDigit,
            _ => Motion::LastDigit,
        }
    }

    /// The parcel that is being sent, if one is.
    pub fn pending_parcel(&self) -> Option<&[u8]> {
        (!self.parcel.is_empty()).then_some(&self.parcel[..])
    }

    /// The bases of both numbers' places.
    pub fn bases(&self) -> &[u16] {
        &self.bases
    }

    /// The bytes of a parcel.
    pub fn n(&self) -> usize {
        self.format.n
    }

    /// How many parcels the queue holds.
    pub fn places(&self) -> usize {
        self.format.places
    }

    /// The queue's bytes: sent, received, the places.
    pub fn bytes(&self) -> &[u8] {
        &self.queue
    }
}
