//! The processor's time for this thread, which does not pass while other work has the processor.

#[repr(C)]
struct Timespec {
    seconds: i64,
    nanoseconds: i64,
}

/// CLOCK_THREAD_CPUTIME_ID of Linux.
const THREAD_TIME: i32 = 3;

unsafe extern "C" {
    fn clock_gettime(clock: i32, time: *mut Timespec) -> i32;
}

pub fn microseconds() -> f64 {
    let mut time = Timespec {
        seconds: 0,
        nanoseconds: 0,
    };
    // SAFETY: the pointer is to a `timespec` of ours, as x86-64 Linux lays it out.
    let failed = unsafe { clock_gettime(THREAD_TIME, &raw mut time) };
    assert!(failed == 0, "this thread's time cannot be read");
    time.seconds as f64 * 1e6 + time.nanoseconds as f64 / 1e3
}
