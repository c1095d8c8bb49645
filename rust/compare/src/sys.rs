//! What is taken of libc: memory in pages, and processes.

use std::ffi::{c_int, c_uint, c_void};

pub const PROT_NONE: c_int = 0;
pub const PROT_READ: c_int = 1;
pub const PROT_WRITE: c_int = 2;
const MAP_SHARED: c_int = 1;
const MAP_PRIVATE: c_int = 2;
const MAP_ANONYMOUS: c_int = 32;

extern "C" {
    fn mmap(
        addr: *mut c_void,
        len: usize,
        prot: c_int,
        flags: c_int,
        fd: c_int,
        at: i64,
    ) -> *mut c_void;
    fn munmap(addr: *mut c_void, len: usize) -> c_int;
    fn mprotect(addr: *mut c_void, len: usize, prot: c_int) -> c_int;
    fn fork() -> c_int;
    fn waitpid(pid: c_int, status: *mut c_int, options: c_int) -> c_int;
    fn _exit(code: c_int) -> !;
    fn alarm(seconds: c_uint) -> c_uint;
}

pub const PAGE: usize = 4096;

/// Fresh pages; shared ones stay shared with processes started later.
pub fn pages(len: usize, prot: c_int, is_shared: bool) -> *mut u8 {
    let kind = if is_shared { MAP_SHARED } else { MAP_PRIVATE };
    // SAFETY: new memory, at a place that the system chooses.
    let at = unsafe { mmap(std::ptr::null_mut(), len, prot, kind | MAP_ANONYMOUS, -1, 0) };
    assert!(at as isize != -1, "no memory for {len} bytes");
    at.cast()
}

/// # Safety
/// The pages are of one call of `pages`, and nothing refers to them any more.
pub unsafe fn give_back(at: *mut u8, len: usize) {
    munmap(at.cast(), len);
}

/// # Safety
/// The pages are of one call of `pages`, and nothing refers to them that is used otherwise.
pub unsafe fn protect(at: *mut u8, len: usize, prot: c_int) {
    assert_eq!(mprotect(at.cast(), len, prot), 0);
}

/// How a process ended.
#[derive(Clone, Copy, Debug, PartialEq)]
pub enum End {
    Code(i32),
    Signal(i32),
}

/// The end of a process that went on for too long.
pub const ALARM: End = End::Signal(14);

/// A process may go on for this long from now; then ALARM is its end.
pub fn time_limit(seconds: u32) {
    // SAFETY: no handler is set, so the signal ends the process.
    unsafe { alarm(seconds) };
}

/// Runs `f` in a process of its own. Its number is the process's code; a panic is 101.
pub fn in_a_process(f: impl FnOnce() -> i32) -> End {
    // SAFETY: the new process runs `f` alone and ends without coming back here.
    let pid = unsafe { fork() };
    assert!(pid >= 0, "no process");
    if pid == 0 {
        let code = std::panic::catch_unwind(std::panic::AssertUnwindSafe(f)).unwrap_or(101);
        unsafe { _exit(code) };
    }
    let mut status = 0;
    assert_eq!(unsafe { waitpid(pid, &mut status, 0) }, pid);
    match status & 127 {
        0 => End::Code(status >> 8 & 255),
        signal => End::Signal(signal),
    }
}
