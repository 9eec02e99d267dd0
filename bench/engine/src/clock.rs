//! The clock of both benchmarks.

#[repr(C)]
struct Timespec {
    seconds: i64,
    nanoseconds: i64,
}

extern "C" {
    fn clock_gettime(clock: i32, time: *mut Timespec) -> i32;
}

const PROCESS_TIME: i32 = 2;

/// The processor time of this process so far, in seconds.
pub fn now() -> f64 {
    let mut time = Timespec { seconds: 0, nanoseconds: 0 };
    // SAFETY: the pointer is to a local laid out as C's struct timespec.
    let failed = unsafe { clock_gettime(PROCESS_TIME, &mut time) };
    assert_eq!(failed, 0, "the machine has a clock of processor time");
    time.seconds as f64 + time.nanoseconds as f64 * 1e-9
}
