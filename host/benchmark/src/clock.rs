//! The processor time of this thread: what others run on the machine meanwhile does not count.

use std::time::Duration;

#[repr(C)]
struct TimeSpec {
    seconds: i64,
    nanoseconds: i64,
}

extern "C" {
    fn clock_gettime(clock: i32, time: *mut TimeSpec) -> i32;
}

/// Linux's number for the clock of the calling thread.
const THREAD_CLOCK: i32 = 3;

/// The time that a call takes.
pub fn time_of(call: impl FnOnce()) -> Duration {
    let begin = now();
    call();
    now() - begin
}

fn now() -> Duration {
    let mut time = TimeSpec { seconds: 0, nanoseconds: 0 };
    let answer = unsafe { clock_gettime(THREAD_CLOCK, &mut time) };
    assert_eq!(answer, 0, "there is no clock for a thread");
    Duration::new(time.seconds as u64, time.nanoseconds as u32)
}
