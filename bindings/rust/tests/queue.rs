//! The hand-over queue's bindings: what each step tells, the refusals that a caller can meet, and parcels that are
//! given out whole and once.
use lagumtay::queue::QueueRefusal::*;
use lagumtay::queue::{Queue, QueueRefusal, Received, Sent, Serial};

const PARCELS: [&[u8; 3]; 3] = [b"abc", b"def", b"ghi"];

/// Hours and minutes, parcels of 3 bytes, 2 places: an act has 7 steps.
fn opened() -> Queue {
    Queue::open(&[24, 60], 3, 2).unwrap()
}

/// A whole sending.
fn send(queue: &mut Queue, index: usize) -> Serial {
    let serial = queue.send_begin(PARCELS[index]).unwrap();
    loop {
        if let Sent::Ended(ended) = queue.send_step().unwrap() {
            assert_eq!(ended, serial);
            return serial;
        }
    }
}

/// A whole receiving: the parcels that were given out, which the end tells once more.
fn receive(queue: &mut Queue) -> Vec<(Serial, Vec<u8>)> {
    let mut parcels = Vec::new();
    queue.receive_begin().unwrap();
    loop {
        match queue.receive_step().unwrap() {
            Received::CopiedOut(serial, parcel) => parcels.push((serial, parcel.to_vec())),
            Received::Ended(serial, parcel) => {
                assert_eq!(parcels.last(), Some(&(serial, parcel.to_vec())));
                return parcels;
            }
            _ => {}
        }
    }
}

#[test]
fn opens_a_queue() {
    let queue = opened();
    assert_eq!(queue.bytes(), [0; 10]);
    assert_eq!((queue.bases(), queue.n(), queue.places()), (&[24, 60][..], 3, 2));
    assert_eq!(queue.pending_parcel(), None);
}

#[test]
fn refuses_openings() {
    let open = |bases: &[u16], n, places| Queue::open(bases, n, places).err();
    assert_eq!(open(&[], 1, 1), Some(BadFormat));
    assert_eq!(open(&[2; 9], 1, 1), Some(BadFormat));
    assert_eq!(open(&[1], 1, 1), Some(BadFormat));
    assert_eq!(open(&[257], 1, 1), Some(BadFormat));
    for n in [0, 257, usize::MAX] {
        assert_eq!(open(&[2], n, 1), Some(BadFormat));
    }
    for places in [0, 65, usize::MAX] {
        assert_eq!(open(&[2], 1, places), Some(BadFormat));
    }
    assert_eq!((open(&[2; 8], 256, 64), open(&[256; 8], 1, 1)), (None, None));
}

#[test]
fn tells_what_each_step_did() {
    let mut queue = opened();
    assert_eq!(queue.send_begin(PARCELS[2]), Ok(Serial(0)));
    assert_eq!(queue.pending_parcel(), Some(&b"ghi"[..]));
    let mut told = Vec::new();
    for _ in 0..7 {
        told.push(queue.send_step().unwrap());
    }
    let put_in = Sent::PutIn(Serial(0));
    let ended = Sent::Ended(Serial(0));
    assert_eq!(told, [Sent::Gathered, Sent::Gathered, Sent::Moved, Sent::Moved, put_in, Sent::Wrote, ended]);
    assert_eq!(queue.send_step(), Err(NothingPending));
    assert_eq!(queue.pending_parcel(), None);
    assert_eq!(queue.bytes(), b"\x00\x01\x00\x00ghi\0\0\0");

    assert_eq!(queue.receive_begin(), Ok(Serial(0)));
    for expected in [
        Received::Gathered,
        Received::Gathered,
        Received::Moved,
        Received::Moved,
        Received::CopiedOut(Serial(0), b"ghi"),
        Received::Wrote,
        Received::Ended(Serial(0), b"ghi"),
    ] {
        assert_eq!(queue.receive_step(), Ok(expected));
    }
    assert_eq!(queue.receive_step(), Err(NothingPending));
    assert_eq!(queue.bytes(), b"\x00\x01\x00\x01ghi\0\0\0");
}

/// With one digit and one byte the first of each is the last.
#[test]
fn tells_the_steps_of_the_smallest_format() {
    let mut queue = Queue::open(&[3], 1, 1).unwrap();
    for (serial, parcel) in [(Serial(0), b'b'), (Serial(1), b'a')] {
        assert_eq!(queue.send_begin(&[parcel]), Ok(serial));
        let told: Vec<Sent> = (0..3).map(|_| queue.send_step().unwrap()).collect();
        assert_eq!(told, [Sent::Gathered, Sent::PutIn(serial), Sent::Ended(serial)]);
        assert_eq!(receive(&mut queue), [(serial, vec![parcel])]);
    }
    assert_eq!(queue.send_begin(b"a"), Err(SerialsExhausted));
}

#[test]
fn parcels_come_out_whole_once_and_in_order() {
    let mut queue = opened();
    let mut out = Vec::new();
    for round in 0..200 {
        for i in 0..=round % 2 {
            send(&mut queue, (round + i) % 3);
        }
        for _ in 0..=round % 2 {
            let parcels = receive(&mut queue);
            assert_eq!(parcels.len(), 1);
            out.extend(parcels);
        }
    }
    let sent = (0..200).flat_map(|round| (0..=round % 2).map(move |i| (round + i) % 3));
    let expected: Vec<_> = sent.enumerate().map(|(i, parcel)| (Serial(i as u64), PARCELS[parcel].to_vec())).collect();
    assert_eq!(out, expected);
    assert_eq!(out.len(), 300);
}

/// Steps of both in turns: what is copied out was put in before.
#[test]
fn both_sides_go_on_together() {
    let mut queue = opened();
    send(&mut queue, 0);
    queue.send_begin(PARCELS[1]).unwrap();
    queue.receive_begin().unwrap();
    let mut out = None;
    for _ in 0..7 {
        queue.send_step().unwrap();
        if let Received::CopiedOut(serial, parcel) = queue.receive_step().unwrap() {
            out = Some((serial, parcel.to_vec()));
        }
    }
    assert_eq!(out, Some((Serial(0), b"abc".to_vec())));
    assert_eq!(receive(&mut queue), [(Serial(1), b"def".to_vec())]);
}

/// A call that is refused, with the queue as it was.
#[track_caller]
fn refused<T: std::fmt::Debug>(
    queue: &mut Queue,
    why: QueueRefusal,
    call: impl FnOnce(&mut Queue) -> Result<T, QueueRefusal>,
) {
    let before = queue.clone();
    assert_eq!(call(queue).err(), Some(why));
    assert_eq!(*queue, before);
}

#[test]
fn full_and_empty() {
    let mut queue = opened();
    queue.receive_begin().unwrap();
    assert_eq!(queue.receive_step(), Ok(Received::Gathered));
    refused(&mut queue, QueueEmpty, |queue| queue.receive_step().map(|_| ()));
    send(&mut queue, 0);
    // The refused digit is read anew.
    assert_eq!(queue.receive_step(), Ok(Received::Gathered));
    queue.receive_cancel().unwrap();

    send(&mut queue, 1);
    queue.send_begin(PARCELS[2]).unwrap();
    assert_eq!(queue.send_step(), Ok(Sent::Gathered));
    refused(&mut queue, QueueFull, |queue| queue.send_step());
    assert_eq!(receive(&mut queue), [(Serial(0), b"abc".to_vec())]);
    assert_eq!(queue.send_step(), Ok(Sent::Gathered));
}

/// 59 becomes 60 between the two digits of a gathering: it sees 0, and must be made afresh.
#[test]
fn a_gathering_that_meets_the_other_side_is_made_afresh() {
    let mut queue = opened();
    for _ in 0..59 {
        send(&mut queue, 0);
        receive(&mut queue);
    }
    queue.receive_begin().unwrap();
    assert_eq!(queue.receive_step(), Ok(Received::Gathered));
    assert_eq!(send(&mut queue, 1), Serial(59));
    refused(&mut queue, QueueEmpty, |queue| queue.receive_step().map(|_| ()));
    queue.receive_cancel().unwrap();
    assert_eq!(receive(&mut queue), [(Serial(59), b"def".to_vec())]);
}

#[test]
fn refuses_what_does_not_fit() {
    let mut queue = opened();
    refused(&mut queue, NothingPending, |queue| queue.send_step());
    refused(&mut queue, NothingPending, |queue| queue.send_cancel());
    refused(&mut queue, NothingPending, |queue| queue.receive_step().map(|_| ()));
    refused(&mut queue, NothingPending, |queue| queue.receive_cancel());
    for wrong in [&b""[..], b"a", b"ab", b"abcd", b"abcdef"] {
        refused(&mut queue, WrongLength, |queue| queue.send_begin(wrong));
    }

    queue.send_begin(PARCELS[2]).unwrap();
    queue.receive_begin().unwrap();
    refused(&mut queue, Busy, |queue| queue.send_begin(PARCELS[0]));
    refused(&mut queue, Busy, |queue| queue.receive_begin());
    refused(&mut queue, WrongLength, |queue| queue.send_begin(b"abcdef"));
}

/// What is sent is the parcel as it was when its sending began.
#[test]
fn a_queue_keeps_a_copy() {
    let mut queue = opened();
    let mut mine = *b"abc";
    queue.send_begin(&mine).unwrap();
    for step in 0..7 {
        mine.fill(b'0' + step);
        queue.send_step().unwrap();
    }
    // One that was cancelled leaves nothing behind.
    queue.send_begin(b"xyz").unwrap();
    queue.send_step().unwrap();
    queue.send_cancel().unwrap();
    assert_eq!(queue.pending_parcel(), None);
    assert_eq!(send(&mut queue, 1), Serial(1));
    assert_eq!(receive(&mut queue), [(Serial(0), b"abc".to_vec())]);
    assert_eq!(receive(&mut queue), [(Serial(1), b"def".to_vec())]);
}

#[test]
fn an_act_is_cancelled_until_a_byte_is_moved() {
    for steps in 0..7 {
        let mut queue = opened();
        send(&mut queue, 0);
        queue.send_begin(PARCELS[1]).unwrap();
        queue.receive_begin().unwrap();
        for _ in 0..steps {
            queue.send_step().unwrap();
            queue.receive_step().unwrap();
        }
        if steps <= 2 {
            assert_eq!((queue.send_cancel(), queue.receive_cancel()), (Ok(()), Ok(())));
            assert_eq!((queue.send_begin(PARCELS[1]), queue.receive_begin()), (Ok(Serial(1)), Ok(Serial(0))));
        } else {
            refused(&mut queue, NothingPending, |queue| queue.send_cancel());
            refused(&mut queue, NothingPending, |queue| queue.receive_cancel());
        }
    }
}

#[test]
fn opens_again() {
    let mut queue = opened();
    send(&mut queue, 0);
    receive(&mut queue);
    queue.send_begin(PARCELS[1]).unwrap();
    queue.receive_begin().unwrap();
    assert_eq!(queue.open_again(), Ok(()));
    assert_eq!(queue, opened());
}

#[test]
fn refusals_have_their_numbers_and_words() {
    let all =
        [BadFormat, WrongLength, InvalidState, Busy, NothingPending, NoSuch, SerialsExhausted, QueueFull, QueueEmpty];
    assert_eq!(all.map(|why| why as u8), [1, 2, 3, 6, 7, 8, 9, 13, 14]);
    assert_eq!(all.map(|why| QueueRefusal::from_number(why as u8)), all.map(Some));
    assert_eq!([0, 4, 5, 10, 12, 15, 255].map(QueueRefusal::from_number), [None; 7]);
    let mut words: Vec<String> = all.iter().map(|why| why.to_string()).collect();
    words.sort();
    words.dedup();
    assert_eq!(words.len(), all.len());
}
