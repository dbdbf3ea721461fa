//! Requests to callgrind, where the program runs under it: count a piece of work by itself, under a name. The second place with
//! unsafe code: valgrind's magic sequence, which does nothing on a machine.
use std::arch::asm;
use std::ffi::CString;

const RUNNING_ON_VALGRIND: u64 = 0x1001;
const ZERO_STATS: u64 = 0x4354_0001;
const DUMP_STATS_AT: u64 = 0x4354_0003;
const START_INSTRUMENTATION: u64 = 0x4354_0004;
const STOP_INSTRUMENTATION: u64 = 0x4354_0005;

#[inline(never)]
fn request(code: u64, argument: u64) -> u64 {
    let words = [code, argument, 0, 0, 0, 0];
    let mut result = 0u64;
    unsafe {
        asm!(
            "rol rdi, 3", "rol rdi, 13", "rol rdi, 61", "rol rdi, 51", "xchg rbx, rbx",
            in("rax") words.as_ptr(), inout("rdx") result,
        );
    }
    result
}

/// Whether the program runs under valgrind.
pub fn present() -> bool {
    request(RUNNING_ON_VALGRIND, 0) != 0
}

/// Does a piece of work and has its instructions written under a name.
pub fn counted<T>(name: &str, work: impl FnOnce() -> T) -> T {
    let text = CString::new(name).unwrap();
    request(START_INSTRUMENTATION, 0);
    request(ZERO_STATS, 0);
    let result = work();
    request(DUMP_STATS_AT, text.as_ptr() as u64);
    request(STOP_INSTRUMENTATION, 0);
    result
}
