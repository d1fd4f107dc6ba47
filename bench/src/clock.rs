//! The processor time of this thread: other work on the machine is not in it.

use std::time::Duration;

/// Linux's number for the clock.
const THREAD: i32 = 3;

#[repr(C)]
struct Timespec {
    seconds: i64,
    nanoseconds: i64,
}

unsafe extern "C" {
    fn clock_gettime(clock: i32, time: *mut Timespec) -> i32;
}

/// Processor time of the thread so far.
pub fn now() -> Duration {
    let mut time = Timespec {
        seconds: 0,
        nanoseconds: 0,
    };
    // SAFETY: the structure is the one of 64-bit Linux, and lives through the call.
    let status = unsafe { clock_gettime(THREAD, &raw mut time) };
    assert_eq!(status, 0, "Linux has this clock");
    let whole = Duration::from_secs(time.seconds.unsigned_abs());
    whole + Duration::from_nanos(time.nanoseconds.unsigned_abs())
}

/// Processor time of the thread since then.
pub fn since(start: Duration) -> Duration {
    now().saturating_sub(start)
}

/// Processor time of a call, and its answer.
pub fn timed<T>(call: impl FnOnce() -> T) -> (Duration, T) {
    let start = now();
    let answer = call();
    (since(start), answer)
}

/// What reading the clock twice takes by itself.
pub fn own_cost() -> Duration {
    let mut costs: Vec<Duration> = (0..1_001)
        .map(|_| {
            let start = now();
            since(start)
        })
        .collect();
    costs.sort_unstable();
    costs[costs.len() / 2]
}
