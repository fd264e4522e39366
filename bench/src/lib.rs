//! The page and the queue in plain Rust beside the proved archives: what the benches measure and the fuzz programs
//! compare.

pub mod asked;
pub mod guarded;
pub mod lendable;
pub mod owned;
pub mod plain;
pub mod plain_queue;
pub mod queue;
pub mod queue_random;
pub mod random;
pub mod runlist;
pub mod timing;
