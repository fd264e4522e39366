//! The release desk's rack from Rust: batch envelopes go from the table to the desk; what becomes of them is printed.
//!
//!     cargo run --manifest-path bindings/rust/Cargo.toml --example queue
use lagumtay::queue::{Queue, QueueRefusal, Received, Sent, Serial};

const N: usize = 8;
const ENVELOPES: [&[u8; N]; 4] = [b"batch 17", b"batch 18", b"batch 19", b"batch 20"];

fn name(parcel: &[u8]) -> &str {
    std::str::from_utf8(parcel).expect("envelopes have names")
}

/// A step of the table; gives whether its sending has ended.
fn send_step(queue: &mut Queue) -> Result<bool, QueueRefusal> {
    let parcel = queue.pending_parcel().unwrap_or_default().to_vec();
    let name = name(&parcel);
    match queue.send_step() {
        Ok(Sent::PutIn(Serial(serial))) => println!("table: {name} is in, parcel {serial}"),
        Ok(Sent::Ended(_)) => return Ok(true),
        Ok(_) => {}
        Err(why) => {
            if why == QueueRefusal::QueueFull {
                println!("table: {name} must wait, the rack is full");
            }
            return Err(why);
        }
    }
    Ok(false)
}

/// A step of the desk; gives whether its receiving has ended.
fn receive_step(queue: &mut Queue) -> Result<bool, QueueRefusal> {
    match queue.receive_step() {
        Ok(Received::CopiedOut(Serial(serial), parcel)) => {
            println!("desk:  parcel {serial} is out, release {}", name(parcel));
        }
        Ok(Received::Ended(..)) => return Ok(true),
        Ok(_) => {}
        Err(why) => {
            if why == QueueRefusal::QueueEmpty {
                println!("desk:  nothing to release, the rack is empty");
            }
            return Err(why);
        }
    }
    Ok(false)
}

/// A whole act of the table, as far as it goes; a gathering that is refused is abandoned.
fn send_whole(queue: &mut Queue, envelope: &[u8]) -> Result<(), QueueRefusal> {
    queue.send_begin(envelope)?;
    loop {
        match send_step(queue) {
            Ok(false) => {}
            Ok(true) => return Ok(()),
            Err(_) => return queue.send_cancel(),
        }
    }
}

fn receive_whole(queue: &mut Queue) -> Result<(), QueueRefusal> {
    queue.receive_begin()?;
    loop {
        match receive_step(queue) {
            Ok(false) => {}
            Ok(true) => return Ok(()),
            Err(_) => return queue.receive_cancel(),
        }
    }
}

fn main() -> Result<(), QueueRefusal> {
    // Numbers 00 to 99, and two places: the third envelope must wait until the desk has taken one.
    let mut queue = Queue::open(&[10, 10], N, 2)?;
    send_whole(&mut queue, ENVELOPES[0])?;
    send_whole(&mut queue, ENVELOPES[1])?;
    send_whole(&mut queue, ENVELOPES[2])?;
    receive_whole(&mut queue)?;

    // Both at once, the table's step first: one envelope goes in while another comes out.
    queue.send_begin(ENVELOPES[2])?;
    queue.receive_begin()?;
    let (mut sent, mut received) = (false, false);
    while !sent || !received {
        sent = sent || send_step(&mut queue)?;
        received = received || receive_step(&mut queue)?;
    }

    // The desk looks before the next envelope is in, and again when it is: only the last digit is gathered anew.
    receive_whole(&mut queue)?;
    queue.receive_begin()?;
    receive_step(&mut queue)?;
    assert_eq!(receive_step(&mut queue), Err(QueueRefusal::QueueEmpty));
    send_whole(&mut queue, ENVELOPES[3])?;
    while !receive_step(&mut queue)? {}
    Ok(())
}
