//! The processor's time for the calling thread.

#[repr(C)]
struct TimeSpec {
    seconds: i64,
    nanoseconds: i64,
}

extern "C" {
    fn clock_gettime(clock: i32, time: *mut TimeSpec) -> i32;
}

const CLOCK_THREAD_CPUTIME_ID: i32 = 3;

/// In nanoseconds.
pub fn thread_time() -> u64 {
    let mut time = TimeSpec {
        seconds: 0,
        nanoseconds: 0,
    };
    // SAFETY: the place is a `timespec` as 64-bit Linux has it.
    let status = unsafe { clock_gettime(CLOCK_THREAD_CPUTIME_ID, &mut time) };
    assert_eq!(status, 0, "clock_gettime");
    time.seconds as u64 * 1_000_000_000 + time.nanoseconds as u64
}
