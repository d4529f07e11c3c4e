//! The processor time that this thread has used, so that other work on the machine does not count.

#[repr(C)]
struct Timespec {
    seconds: i64,
    nanoseconds: i64,
}

/// Linux's CLOCK_THREAD_CPUTIME_ID.
const THREAD: i32 = 3;

extern "C" {
    fn clock_gettime(clock: i32, now: *mut Timespec) -> i32;
}

/// In nanoseconds.
pub fn used() -> f64 {
    let mut now = Timespec {
        seconds: 0,
        nanoseconds: 0,
    };
    // SAFETY: the C library writes one timespec, which has this layout on 64-bit Linux.
    let status = unsafe { clock_gettime(THREAD, &mut now) };
    assert_eq!(status, 0, "the thread has a clock");
    now.seconds as f64 * 1e9 + now.nanoseconds as f64
}
