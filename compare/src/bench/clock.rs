//! The processor's time of this thread: what else the machine does in between does not count.
use std::ffi::c_int;

#[repr(C)]
struct Time {
    seconds: i64,
    nanoseconds: i64,
}

unsafe extern "C" {
    fn clock_gettime(clock: c_int, time: &mut Time) -> c_int;
}

/// CLOCK_THREAD_CPUTIME_ID of Linux.
const OF_THREAD: c_int = 3;

/// In nanoseconds.
pub fn now() -> f64 {
    let mut time = Time { seconds: 0, nanoseconds: 0 };
    // the time lives through the call
    let told = unsafe { clock_gettime(OF_THREAD, &mut time) };
    assert_eq!(told, 0, "the thread's clock");
    time.seconds as f64 * 1e9 + time.nanoseconds as f64
}
