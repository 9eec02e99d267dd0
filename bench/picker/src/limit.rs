//! Work that is given up where it takes too long. A run of the engine has no place to stop at, so it is tried in
//! a process of its own first.
use std::panic::{catch_unwind, AssertUnwindSafe};

#[repr(C)]
struct Limit {
    soft: u64,
    hard: u64,
}

extern "C" {
    fn fork() -> i32;
    fn waitpid(process: i32, status: *mut i32, options: i32) -> i32;
    fn setrlimit(resource: i32, limit: *const Limit) -> i32;
    fn _exit(status: i32) -> !;
}

const PROCESSOR_TIME: i32 = 0;
/// The signals that end a process at its limit.
const KILLED: i32 = 9;
const OUT_OF_TIME: i32 = 24;

/// Whether a work ends within so many seconds of processor time. It is done in a copy of this process, which has one
/// thread, and leaves nothing behind here.
pub fn ends_within(seconds: u64, work: impl FnOnce()) -> bool {
    // SAFETY: this process has one thread, so that its copy holds no lock of another.
    let process = unsafe { fork() };
    assert!(process >= 0, "a process can be made");
    if process == 0 {
        let limit = Limit { soft: seconds, hard: seconds };
        // SAFETY: the pointer is to a local laid out as C's struct rlimit.
        let limited = unsafe { setrlimit(PROCESSOR_TIME, &limit) } == 0;
        let done = limited && catch_unwind(AssertUnwindSafe(work)).is_ok();
        // SAFETY: the copy ends here, with nothing of its own to finish.
        unsafe { _exit(if done { 0 } else { 1 }) }
    }
    let mut status = 0;
    // SAFETY: the pointer is to a local, and the process is one that was made here.
    let ended = unsafe { waitpid(process, &mut status, 0) };
    assert_eq!(ended, process, "the process is waited for");
    match status {
        0 => true,
        KILLED | OUT_OF_TIME => false,
        other => panic!("the work failed: {other}"),
    }
}

#[cfg(test)]
mod tests {
    use super::*;

    #[test]
    fn what_takes_too_long_is_ended() {
        let mut here = 0;
        assert!(ends_within(10, || here += 1));
        assert_eq!(here, 0, "the work was done in a copy");
        assert!(!ends_within(1, || loop {
            std::hint::spin_loop();
        }));
    }

    #[test]
    #[should_panic(expected = "the work failed")]
    fn a_work_that_fails_is_not_taken_for_a_long_one() {
        ends_within(10, || std::process::abort());
    }
}
