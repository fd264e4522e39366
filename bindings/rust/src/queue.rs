//! The hand-over queue: parcels of n bytes go from one sender to one receiver through up to 64 places, after Lamport's
//! message buffer. The code behind these calls is proved: what each answers and leaves is an equation with the
//! definitions under `crates/queue/specs` of the repository.
//!
//! All is done in single steps, and the steps of both sides are mixed freely. A sending gathers the number received,
//! digit by digit; then it puts the parcel in, byte by byte; then it writes its own number. A receiving gathers the
//! number sent, copies a parcel out, and writes the number received. Calls on one queue are made one after another,
//! which `&mut self` sees to. A [`Queue`] owns its memory; [`raw`] is for callers who own it themselves.
//!
//! ```
//! use lagumtay::queue::{Queue, QueueRefusal, Received, Sent};
//!
//! // Numbers 00 to 99, parcels of 8 bytes, 2 places.
//! let mut queue = Queue::open(&[10, 10], 8, 2)?;
//! queue.send_begin(b"batch 17")?;
//! while !matches!(queue.send_step()?, Sent::Ended(_)) {}
//!
//! queue.receive_begin()?;
//! loop {
//!     if let Received::Ended(serial, parcel) = queue.receive_step()? {
//!         assert_eq!((serial.0, parcel), (0, &b"batch 17"[..]));
//!         break;
//!     }
//! }
//! # Ok::<(), QueueRefusal>(())
//! ```

#[cfg(feature = "alloc")]
mod owned;
pub mod raw;
mod refusal;
mod told;

#[cfg(feature = "alloc")]
pub use owned::Queue;
pub use refusal::QueueRefusal;
pub use told::{Received, Sent, Serial};
