//! The bindings without std and without an allocator: a page and a queue in static memory. It ends with 0 only if what
//! is read is right, else with the number of the check that failed.
//!
//!     cargo run --manifest-path tests/no_std/Cargo.toml
#![no_std]
#![no_main]

mod page;
mod queue;

use core::ffi::{c_char, c_int, c_void};
use core::panic::PanicInfo;

#[link(name = "c")]
extern "C" {
    fn write(to: c_int, bytes: *const c_void, length: usize) -> isize;
    fn _exit(code: c_int) -> !;
}

/// Print a line on standard output.
fn say(line: &str) {
    // Sound: the pointer and the length are those of one string.
    unsafe { write(1, line.as_ptr().cast(), line.len()) };
}

/// End with this number, if something is not as it should be.
fn check(number: c_int, right: bool) {
    if !right {
        say("no_std: a check failed\n");
        // Sound: it ends the process.
        unsafe { _exit(number) }
    }
}

#[panic_handler]
fn panicked(_: &PanicInfo) -> ! {
    say("no_std: panicked\n");
    // Sound: it ends the process.
    unsafe { _exit(100) }
}

/// The precompiled core names it, though a panic here ends the process and nothing unwinds.
#[no_mangle]
extern "C" fn rust_eh_personality() {}

#[no_mangle]
extern "C" fn main(_: c_int, _: *const *const c_char) -> c_int {
    page::counts_and_records();
    queue::a_parcel();
    say("no_std: all read right\n");
    0
}
