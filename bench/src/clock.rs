//! The processor time of this thread, which other programs on the machine don't lengthen as they do the wall clock. The third
//! place with unsafe code: one call of the C library.

#[repr(C)]
struct Timespec {
    seconds: i64,
    nanoseconds: i64,
}

const THREAD_CPUTIME: i32 = 3;

extern "C" {
    fn clock_gettime(clock: i32, time: *mut Timespec) -> i32;
}

/// Nanoseconds.
pub fn now() -> u64 {
    let mut time = Timespec {
        seconds: 0,
        nanoseconds: 0,
    };
    let failed = unsafe { clock_gettime(THREAD_CPUTIME, &mut time) };
    assert_eq!(failed, 0, "no clock");
    1_000_000_000 * time.seconds as u64 + time.nanoseconds as u64
}
