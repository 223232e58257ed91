//! A library to be loaded before the C library (LD_PRELOAD): its read and write move few bytes at a time, and fail when
//! they are told to. What a program does at its border can so be run at every place.
//!
//! SHORT: the most bytes that a call moves. FAIL_READ, FAIL_WRITE: the number, from 1, of the first call that fails, with
//! the error ERROR. Only descriptors 0 and 1 are touched.

use std::ffi::{c_char, c_int, c_long, c_void};
use std::sync::atomic::{AtomicUsize, Ordering};

unsafe extern "C" {
    fn syscall(number: c_long, ...) -> c_long;
    fn getenv(name: *const c_char) -> *const c_char;
    fn __errno_location() -> *mut c_int;
}

#[cfg(target_arch = "x86_64")]
const CALLS: (c_long, c_long) = (0, 1);
#[cfg(target_arch = "aarch64")]
const CALLS: (c_long, c_long) = (63, 64);

static READS: AtomicUsize = AtomicUsize::new(0);
static WRITES: AtomicUsize = AtomicUsize::new(0);

/// A number from the environment, or else `other`.
fn setting(name: &std::ffi::CStr, other: usize) -> usize {
    let value = unsafe { getenv(name.as_ptr()) };
    if value.is_null() {
        return other;
    }
    let value = unsafe { std::ffi::CStr::from_ptr(value) };
    value
        .to_str()
        .ok()
        .and_then(|text| text.parse().ok())
        .unwrap_or(other)
}

fn moved(
    calls: &AtomicUsize,
    fails: usize,
    call: c_long,
    fd: c_int,
    bytes: *const c_void,
    size: usize,
) -> isize {
    let turn = calls.fetch_add(1, Ordering::Relaxed) + 1;
    if turn >= fails {
        unsafe { *__errno_location() = setting(c"ERROR", 5) as c_int };
        return -1;
    }
    unsafe { syscall(call, fd, bytes, size.min(setting(c"SHORT", usize::MAX))) as isize }
}

#[unsafe(no_mangle)]
pub extern "C" fn read(fd: c_int, into: *mut c_void, size: usize) -> isize {
    if fd != 0 {
        return unsafe { syscall(CALLS.0, fd, into, size) as isize };
    }
    moved(
        &READS,
        setting(c"FAIL_READ", usize::MAX),
        CALLS.0,
        fd,
        into,
        size,
    )
}

#[unsafe(no_mangle)]
pub extern "C" fn write(fd: c_int, from: *const c_void, size: usize) -> isize {
    if fd != 1 {
        return unsafe { syscall(CALLS.1, fd, from, size) as isize };
    }
    moved(
        &WRITES,
        setting(c"FAIL_WRITE", usize::MAX),
        CALLS.1,
        fd,
        from,
        size,
    )
}
