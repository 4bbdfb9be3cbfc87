//! Times of calls, by processor time.

use std::time::Duration;

#[repr(C)]
#[derive(Default)]
struct Time {
    seconds: i64,
    nanoseconds: i64,
}

extern "C" {
    fn clock_gettime(clock: i32, time: *mut Time) -> i32;
}

/// The processor time of this thread so far, which does not go on while
/// other programs run.
fn now() -> Duration {
    const THREAD_TIME: i32 = 3;
    let mut time = Time::default();
    let failed = unsafe { clock_gettime(THREAD_TIME, &mut time) };
    assert_eq!(failed, 0);
    Duration::new(time.seconds as u64, time.nanoseconds as u32)
}

/// The time that a call takes.
pub fn timed(call: impl FnOnce()) -> Duration {
    let start = now();
    call();
    now() - start
}

/// The middle one of some times, in microseconds.
pub fn median(mut times: Vec<Duration>) -> f64 {
    times.sort_unstable();
    times[times.len() / 2].as_secs_f64() * 1e6
}
