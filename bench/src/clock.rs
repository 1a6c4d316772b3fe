//! The CPU time of this thread: what other programs take of the machine does not count.

#[repr(C)]
struct Timespec {
    seconds: i64,
    nanoseconds: i64,
}

extern "C" {
    fn clock_gettime(clock: i32, time: *mut Timespec) -> i32;
}

/// CLOCK_THREAD_CPUTIME_ID of Linux.
const THREAD: i32 = 3;

fn now() -> f64 {
    let mut time = Timespec { seconds: 0, nanoseconds: 0 };
    let failed = unsafe { clock_gettime(THREAD, &mut time) };
    assert_eq!(failed, 0, "there is no clock of the thread");
    time.seconds as f64 + time.nanoseconds as f64 * 1e-9
}

/// The seconds that some work takes.
pub fn seconds(work: impl FnOnce()) -> f64 {
    let begun = now();
    work();
    now() - begun
}

/// The least seconds of so many calls.
pub fn least(calls: usize, mut call: impl FnMut()) -> f64 {
    (0..calls).map(|_| seconds(&mut call)).fold(f64::MAX, f64::min)
}
