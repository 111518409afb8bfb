//! The processor time of this thread: other work on the machine takes turns, and does not count.

use std::time::Duration;

/// As 64-bit Linux lays it out.
#[repr(C)]
struct Timespec {
    seconds: i64,
    nanoseconds: i64,
}

extern "C" {
    /// Of the C library that std links.
    fn clock_gettime(clock: i32, time: *mut Timespec) -> i32;
}

const THREAD_CPUTIME: i32 = 3;

pub fn now() -> Duration {
    let mut time = Timespec { seconds: 0, nanoseconds: 0 };
    // Sound: the call writes one such struct, and the clock is there on every Linux.
    let failed = unsafe { clock_gettime(THREAD_CPUTIME, &mut time) };
    assert_eq!(failed, 0, "this thread has a clock");
    Duration::new(time.seconds as u64, time.nanoseconds as u32)
}
