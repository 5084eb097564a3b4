//! The one module with `unsafe`: the time that this thread had a processor, which std does not tell.

use std::time::{Duration, Instant};

#[cfg(not(all(target_os = "linux", target_pointer_width = "64")))]
compile_error!("the thread's own clock is asked for in the way of 64-bit Linux");

/// C's `timespec` there.
#[repr(C)]
struct Time {
    seconds: i64,
    nanoseconds: i64,
}

/// The number of that clock.
const THREAD_CLOCK: i32 = 3;

unsafe extern "C" {
    fn clock_gettime(clock: i32, time: *mut Time) -> i32;
}

fn thread_time() -> Duration {
    let mut time = Time { seconds: 0, nanoseconds: 0 };
    // SAFETY: `time` is a `timespec` that is lent for the call alone.
    let failed = unsafe { clock_gettime(THREAD_CLOCK, &mut time) };
    assert_eq!(failed, 0, "the thread's clock can't be read");
    Duration::new(time.seconds as u64, time.nanoseconds as u32)
}

/// How long it took, by the lesser of two clocks. The wall's is exact for short runs; in long ones the thread's own leaves
/// out what other programs took from it.
pub fn time(run: impl FnOnce()) -> Duration {
    let on_thread = thread_time();
    let begun = Instant::now();
    run();
    let passed = begun.elapsed();
    passed.min(thread_time() - on_thread)
}
