//! The processor time of this thread: unlike the time of day it does not count the turns that
//! other processes had meanwhile.

#[repr(C)]
struct Time {
    seconds: i64,
    nanoseconds: i64,
}

extern "C" {
    fn clock_gettime(clock: i32, time: *mut Time) -> i32;
}

/// CLOCK_THREAD_CPUTIME_ID on Linux.
const THREAD_TIME: i32 = 3;

/// Seconds of processor time that this thread has used.
pub fn seconds_used() -> f64 {
    let mut time = Time {
        seconds: 0,
        nanoseconds: 0,
    };
    let answer = unsafe { clock_gettime(THREAD_TIME, &mut time) };
    assert_eq!(answer, 0, "this clock is missing");
    time.seconds as f64 + time.nanoseconds as f64 / 1e9
}
