//! The processor time of this thread. Time in which another program has the
//! processor is not in it, so a machine need not be quiet to be measured on.

/// The C library's `struct timespec`, on Linux on x86-64.
#[repr(C)]
struct Timespec {
    seconds: i64,
    nanoseconds: i64,
}

/// Linux's number for this clock.
const THREAD_CPU_TIME: i32 = 3;

extern "C" {
    // std has no such clock, but links the C library, which does.
    fn clock_gettime(clock: i32, time: *mut Timespec) -> i32;
}

/// Nanoseconds of processor time that this thread has had.
pub fn now() -> u64 {
    let mut time = Timespec {
        seconds: 0,
        nanoseconds: 0,
    };
    // SAFETY: the pointer comes from a reference to a place of the right form.
    let answer = unsafe { clock_gettime(THREAD_CPU_TIME, &mut time) };
    assert_eq!(answer, 0, "Linux has this clock");
    time.seconds as u64 * 1_000_000_000 + time.nanoseconds as u64
}
