//! Memory between pages that may not be touched. What is lent ends right before one of them or begins right after one,
//! so that a touch beyond that end is a fault. All of it is there at two addresses, of which only one can be written:
//! what a call may only read is lent at the other, and a write there is a fault too. So no call needs a call of the
//! system to be guarded. A fault ends the program by its signal, and the name of the case is told before.
use std::ffi::{c_char, c_int, c_uint, c_void};
use std::marker::PhantomData;
use std::ptr::null_mut;
use std::slice::{from_raw_parts, from_raw_parts_mut};
use std::sync::atomic::{AtomicPtr, AtomicUsize, Ordering::SeqCst};

use crate::lendable::Lendable;

/// The bytes that can be lent at once, and those of the guards: multiples of any machine's page.
const ROOM: usize = 1 << 20;
const GUARD: usize = 1 << 16;

/// Where the guard lies that what is lent touches.
#[derive(Clone, Copy, Debug, PartialEq)]
pub enum Side {
    Before,
    After,
}

impl Side {
    /// Of all that is lent in a case: every other one has the other side.
    pub fn of_case(case: u64) -> Side {
        if case.is_multiple_of(2) {
            Side::Before
        } else {
            Side::After
        }
    }
}

/// What a call may do with what it is lent.
#[derive(Clone, Copy, Debug, PartialEq)]
pub enum Access {
    Read,
    Write,
}

/// How a call is lent all that it is: on which side of a guard, and with this byte in all padding.
#[derive(Clone, Copy, Debug)]
pub struct Manner {
    pub side: Side,
    pub padding: u8,
}

/// A place for elements of one type, the same at both addresses.
pub struct Guarded<T> {
    writable: *mut u8,
    read_only: *mut u8,
    /// where the elements begin, and how many there are
    at: usize,
    length: usize,
    /// the byte that was put into their padding
    padding: u8,
    elements: PhantomData<T>,
}

impl<T: Lendable> Default for Guarded<T> {
    fn default() -> Guarded<T> {
        let [writable, read_only] = sys::mapped_twice(ROOM, GUARD);
        Guarded { writable, read_only, at: 0, length: 0, padding: 0, elements: PhantomData }
    }
}

impl<T> Drop for Guarded<T> {
    fn drop(&mut self) {
        sys::unmap([self.writable, self.read_only], ROOM, GUARD);
    }
}

impl<T: Lendable> Guarded<T> {
    /// Lend a copy of these. It is `&mut` even if it may only be read, since some calls are handed it so that only read
    /// it; whoever writes there ends the program.
    pub fn lend(&mut self, Manner { side, padding }: Manner, elements: &[T], access: Access) -> &mut [T] {
        let bytes = size_of_val(elements);
        assert!(bytes <= ROOM, "{bytes} bytes are too many to be guarded");
        self.at = if side == Side::Before { 0 } else { ROOM - bytes };
        (self.length, self.padding) = (elements.len(), padding);
        self.at_address(Access::Write).copy_from_slice(elements);
        for at in self.padding_bytes() {
            // Inside an element, as Lendable tells.
            unsafe { self.writable.add(at).write(padding) };
        }
        self.at_address(access)
    }

    fn at_address(&mut self, access: Access) -> &mut [T] {
        let address = if access == Access::Write { self.writable } else { self.read_only };
        // It is inside the room, aligned as a page's begin or end is, and any bytes are elements.
        unsafe { from_raw_parts_mut(address.add(self.at).cast(), self.length) }
    }

    /// What the call has left.
    pub fn left(&self) -> &[T] {
        // As above.
        unsafe { from_raw_parts(self.writable.add(self.at).cast(), self.length) }
    }

    /// The elements of which the padding is not what was lent.
    pub fn altered_padding(&self) -> impl Iterator<Item = usize> + '_ {
        // As in `lend`.
        let altered = |&at: &usize| unsafe { self.writable.add(at).read() } != self.padding;
        self.padding_bytes().filter(altered).map(|at| (at - self.at) / size_of::<T>())
    }

    /// Where the bytes of padding lie.
    fn padding_bytes(&self) -> impl Iterator<Item = usize> {
        let begins = (self.at..).step_by(size_of::<T>()).take(self.length);
        begins.flat_map(|begin| T::PADDING.iter().map(move |at| begin + at))
    }
}

static NAME: AtomicPtr<u8> = AtomicPtr::new(null_mut());
static LENGTH: AtomicUsize = AtomicUsize::new(0);
const FAULT: &str = ": a touch outside of what was lent, or a write to what was lent to be read\n";

/// Calls, while a fault tells this name.
pub fn named<T>(name: &str, calls: impl FnOnce() -> T) -> T {
    LENGTH.store(name.len(), SeqCst);
    NAME.store(name.as_ptr().cast_mut(), SeqCst);
    sys::on_fault(tell);
    let result = calls();
    LENGTH.store(0, SeqCst);
    result
}

/// The name and what happened. The signal comes again when this returns, and then it ends the program.
extern "C" fn tell(_: c_int) {
    // The name lives, or its length is 0.
    sys::print(unsafe { from_raw_parts(NAME.load(SeqCst), LENGTH.load(SeqCst)) });
    sys::print(FAULT.as_bytes());
    sys::end_by_fault();
}

/// The calls of the system, as Linux has them.
mod sys {
    use super::*;

    const NONE: c_int = 0;
    const READ: c_int = 1;
    const WRITE: c_int = 2;
    const SHARED: c_int = 0x01;
    const PRIVATE: c_int = 0x02;
    const FIXED: c_int = 0x10;
    const ANONYMOUS: c_int = 0x20;
    const SEGV: c_int = 11;
    const STDERR: c_int = 2;

    extern "C" {
        fn memfd_create(name: *const c_char, flags: c_uint) -> c_int;
        fn ftruncate(file: c_int, length: i64) -> c_int;
        fn close(file: c_int) -> c_int;
        fn mmap(at: *mut c_void, length: usize, access: c_int, flags: c_int, file: c_int, from: i64) -> *mut c_void;
        fn munmap(at: *mut c_void, length: usize) -> c_int;
        fn write(file: c_int, bytes: *const c_void, length: usize) -> isize;
        fn signal(number: c_int, handler: usize) -> usize;
    }

    /// The same bytes at two addresses, with guards around each; only at the first they can be written.
    pub fn mapped_twice(room: usize, guard: usize) -> [*mut u8; 2] {
        // New memory is mapped, and over nothing but what was reserved here.
        unsafe {
            let file = memfd_create(c"guarded".as_ptr(), 0);
            assert!(file >= 0 && ftruncate(file, room as i64) == 0, "no memory to be guarded");
            let mapped = [READ | WRITE, READ].map(|access| {
                let reserved = mmap(null_mut(), guard + room + guard, NONE, PRIVATE | ANONYMOUS, -1, 0);
                let inner = reserved.wrapping_byte_add(guard);
                let at = mmap(inner, room, access, SHARED | FIXED, file, 0);
                assert!(at == inner, "the memory cannot be guarded");
                at.cast()
            });
            close(file);
            mapped
        }
    }

    pub fn unmap(mapped: [*mut u8; 2], room: usize, guard: usize) {
        for at in mapped {
            // What `mapped_twice` reserved.
            unsafe { munmap(at.sub(guard).cast(), guard + room + guard) };
        }
    }

    pub fn on_fault(handler: extern "C" fn(c_int)) {
        unsafe { signal(SEGV, handler as *const () as usize) };
    }

    /// From now on a fault ends the program.
    pub fn end_by_fault() {
        unsafe { signal(SEGV, 0) };
    }

    /// To standard error, also from a handler.
    pub fn print(text: &[u8]) {
        unsafe { write(STDERR, text.as_ptr().cast(), text.len()) };
    }
}
