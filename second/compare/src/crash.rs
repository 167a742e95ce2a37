//! Says which call was being made when the program crashes.

use std::sync::atomic::{AtomicUsize, Ordering};

/// How many calls were begun, so the number of the next.
static CALLS: AtomicUsize = AtomicUsize::new(0);

/// Begins a call. Gives its number, from 0 on.
pub fn begin_call() -> usize {
    CALLS.fetch_add(1, Ordering::Relaxed)
}

/// The number of the call begun last.
pub fn call() -> usize {
    CALLS.load(Ordering::Relaxed).saturating_sub(1)
}

extern "C" {
    fn signal(number: i32, handler: extern "C" fn(i32)) -> usize;
    fn write(file: i32, bytes: *const u8, count: usize) -> isize;
    fn _exit(status: i32) -> !;
}

/// SIGILL, SIGABRT, SIGBUS, SIGFPE, SIGSEGV.
const SIGNALS: [i32; 5] = [4, 6, 7, 8, 11];

/// From now on a crash ends the program with status 1 and a line.
pub fn watch() {
    for number in SIGNALS {
        // SAFETY: the handler calls only what a handler may.
        unsafe { signal(number, crashed) };
    }
}

extern "C" fn crashed(number: i32) {
    put(b"\nCRASH: signal ");
    put_number(number as usize);
    put(b" in call ");
    put_number(call());
    put(b" (a byte outside the buffers handed over was touched, or the library gave up);\n");
    put(b"run again with the same seed, number of calls and that call to see it\n");
    // SAFETY: ends the program.
    unsafe { _exit(1) }
}

fn put(bytes: &[u8]) {
    // SAFETY: a slice to standard output.
    unsafe { write(1, bytes.as_ptr(), bytes.len()) };
}

fn put_number(mut number: usize) {
    let mut digits = [0; 20];
    let mut place = digits.len();
    loop {
        place -= 1;
        digits[place] = b'0' + (number % 10) as u8;
        number /= 10;
        if number == 0 {
            break;
        }
    }
    put(&digits[place..]);
}
