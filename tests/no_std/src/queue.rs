//! A queue in static memory: one parcel.
use core::ptr::addr_of_mut;

use lagumtay::queue::raw::{Format, Lent, Receiver, Sender};
use lagumtay::queue::QueueRefusal;

use crate::check;

const FORMAT: Format = Format { n: 3, places: 2 };
const STEPS: usize = 2 + 3 + 2;

static mut QUEUE: [u8; 4 + 6] = [9; 4 + 6];

pub fn a_parcel() {
    // Sound: there is one thread, and this is called once.
    let queue = unsafe { &mut *addr_of_mut!(QUEUE) };
    let (mut sender, mut receiver, mut buffer) = (Sender::default(), Receiver::default(), [0; 3]);
    let mut lent = Lent { format: &FORMAT, bases: &[10, 10], queue };
    check(21, lent.open(&mut sender, &mut receiver) == 0);
    check(22, lent.send_begin(&mut sender, b"bagtag", 1) == 0);
    check(23, (0..STEPS).all(|_| lent.send_step(&mut sender, b"bagtag") == 0));
    check(24, lent.receive_begin(&mut receiver, &buffer) == 0);
    check(25, (0..STEPS).all(|_| lent.receive_step(&mut receiver, &mut buffer) == 0));
    check(26, buffer == *b"tag");
    let number = lent.receive_step(&mut receiver, &mut buffer);
    check(27, QueueRefusal::from_number(number) == Some(QueueRefusal::NothingPending));
}
