//! Memory with nothing beside it: pages that nobody may touch stand before it and behind it, so that a
//! byte read or written outside a slice ends the process. What is only read cannot be written there.

use std::cell::Cell;
use std::ffi::{c_int, c_void};
use std::io::Write as _;
use std::ptr::null_mut;
use std::slice::from_raw_parts_mut;
use std::sync::Once;
use std::thread;

// of the C library, with its numbers for Linux
extern "C" {
    fn mmap(at: *mut c_void, len: usize, allowed: c_int, flags: c_int, file: c_int, offset: i64) -> *mut c_void;
    fn mprotect(at: *mut c_void, len: usize, allowed: c_int) -> c_int;
    fn signal(number: c_int, handler: usize) -> usize;
}

const NOTHING: c_int = 0;
const READING: c_int = 1;
const WRITING: c_int = 1 | 2;
const PRIVATE_AND_OF_NO_FILE: c_int = 0x02 | 0x20;
/// The signal for a touch of memory that is not allowed.
pub const FAULT: c_int = 11;
const AS_USUAL: usize = 0;

/// Bytes that nobody may touch, on either side: a multiple of the page of every processor.
const BESIDE: usize = 1 << 16;
/// Bytes between them: 60,000 places of four bytes, with some to spare.
const INSIDE: usize = 1 << 18;

/// Where a slice stands: directly before the pages that nobody may touch, or directly after others.
#[derive(Clone, Copy, Debug)]
pub enum Side {
    End,
    Start,
}

/// Room for one slice at a time. It is kept until the process ends.
pub struct Room {
    start: *mut u8,
    allowed: c_int,
}

impl Room {
    pub fn new() -> Room {
        tell_of_faults();
        // SAFETY: nothing is asked about where, so nothing that is there already is touched.
        let all = unsafe { mmap(null_mut(), INSIDE + 2 * BESIDE, NOTHING, PRIVATE_AND_OF_NO_FILE, -1, 0) };
        assert_ne!(all as isize, -1, "there is no memory");
        Room { start: all.cast::<u8>().wrapping_add(BESIDE), allowed: NOTHING }
    }

    fn allow(&mut self, what: c_int) {
        if self.allowed != what {
            // SAFETY: these pages are ours, and no slice of them is alive.
            assert_eq!(unsafe { mprotect(self.start.cast(), INSIDE, what) }, 0);
            self.allowed = what;
        }
    }

    /// A copy that may be read and written.
    pub fn lend(&mut self, bytes: &[u8], side: Side) -> &mut [u8] {
        let free = INSIDE.checked_sub(bytes.len()).expect("the slice is longer than the room");
        self.allow(WRITING);
        let start = match side {
            Side::End => self.start.wrapping_add(free),
            Side::Start => self.start,
        };
        // SAFETY: these bytes are ours, may be written, and are lent for as long as the room is.
        let slice = unsafe { from_raw_parts_mut(start, bytes.len()) };
        slice.copy_from_slice(bytes);
        slice
    }

    /// A copy that may only be read.
    pub fn show(&mut self, bytes: &[u8], side: Side) -> &[u8] {
        let slice: *const [u8] = self.lend(bytes, side);
        self.allow(READING);
        // SAFETY: as in `lend`; the bytes may still be read.
        unsafe { &*slice }
    }
}

thread_local! {
    /// The case that this thread is at.
    static CASE: Cell<u64> = const { Cell::new(0) };
}

/// Says which case comes now.
pub fn now(case: u64) {
    CASE.set(case);
}

/// From here on a fault says in which case it came before it ends the process.
fn tell_of_faults() {
    static ONCE: Once = Once::new();
    let handler: extern "C" fn(c_int) = fault;
    ONCE.call_once(|| {
        // SAFETY: it is a handler of the kind that `signal` wants.
        unsafe { signal(FAULT, handler as usize) };
    });
}

extern "C" fn fault(number: c_int) {
    let (here, seed) = (thread::current(), generate::seed());
    let test = here.name().unwrap_or("a test");
    let touched = "a byte outside a slice, or one that is only read, was touched";
    // not by a macro that the test keeps to itself
    let _ = writeln!(std::io::stderr(), "{test}, seed {seed}, case {}: {touched}", CASE.get());
    // SAFETY: back to what is usual: what has faulted does so again, and that ends the process.
    unsafe { signal(number, AS_USUAL) };
}
