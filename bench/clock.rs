//! Time on the processor: waiting for a core is left out.

#[repr(C)]
struct Timespec {
    seconds: i64,
    nanoseconds: i64,
}

unsafe extern "C" {
    fn clock_gettime(clock: i32, time: &mut Timespec) -> i32;
}

/// Linux's CLOCK_THREAD_CPUTIME_ID.
const OF_THIS_THREAD: i32 = 3;

/// Nanoseconds that this thread has run.
pub fn nanoseconds() -> u64 {
    let mut time = Timespec {
        seconds: 0,
        nanoseconds: 0,
    };
    // SAFETY: the time is a whole timespec of Linux with 64 bits.
    let failed = unsafe { clock_gettime(OF_THIS_THREAD, &mut time) };
    assert!(failed == 0, "no clock of the thread");
    (time.seconds * 1_000_000_000 + time.nanoseconds) as u64
}
