//! The processor time of this thread, so that waiting for other programs is not counted.

extern "C" {
    fn clock_gettime(clock: i32, time: *mut [i64; 2]) -> i32;
}

/// CLOCK_THREAD_CPUTIME_ID of Linux.
const THREAD: i32 = 3;

pub fn nanoseconds() -> f64 {
    let mut time = [0i64; 2];
    // SAFETY: a timespec of a 64-bit Linux is two 64-bit numbers.
    let status = unsafe { clock_gettime(THREAD, &mut time) };
    assert_eq!(status, 0, "no clock of processor time");
    time[0] as f64 * 1e9 + time[1] as f64
}

/// The time of one of `times` turns.
pub fn of_each(times: usize, mut turn: impl FnMut()) -> f64 {
    let from = nanoseconds();
    for _ in 0..times {
        turn();
    }
    (nanoseconds() - from) / times as f64
}
