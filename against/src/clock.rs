//! The processor time of this thread, which others at work on the machine do not lengthen much.

use std::time::Duration;

#[repr(C)]
struct Timespec {
    seconds: i64,
    nanoseconds: i64,
}

extern "C" {
    fn clock_gettime(clock: i32, time: *mut Timespec) -> i32;
}

/// Linux on 64 bits: the number of the thread's processor clock.
const CLOCK_THREAD_CPUTIME_ID: i32 = 3;

pub fn processor_time() -> Duration {
    let mut time = Timespec {
        seconds: 0,
        nanoseconds: 0,
    };
    // SAFETY: the struct is the one that the C library fills.
    let failed = unsafe { clock_gettime(CLOCK_THREAD_CPUTIME_ID, &mut time) };
    assert_eq!(failed, 0, "there is no processor clock");
    Duration::new(time.seconds as u64, time.nanoseconds as u32)
}
