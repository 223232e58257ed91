//! The proved library, linked; crates/exports/sockhurdle.h says what each of its functions answers.

use std::ffi::c_int;
use std::fs::File;
use std::io::{self, Write};
use std::mem::ManuallyDrop;
use std::os::fd::{FromRawFd, RawFd};

#[link(name = "sockhurdle", kind = "static")]
unsafe extern "C" {
    // A slice is a pointer and a length.
    fn sockhurdle_read(from: c_int, into: *mut u8, into_len: usize) -> usize;
    fn sockhurdle_replay(input: *const u8, input_len: usize, out: *mut u8, out_len: usize)
    -> usize;
    fn sockhurdle_replay_to(input: *const u8, input_len: usize, to: c_int) -> c_int;
    fn sockhurdle_wait(
        table: *const u8,
        table_len: usize,
        wait: *const u8,
        wait_len: usize,
        out: *mut u8,
        out_len: usize,
    ) -> usize;
    fn sockhurdle_wait_owned(
        table: *const u8,
        table_len: usize,
        slot: u16,
        id: u64,
        wait: *const u8,
        wait_len: usize,
        out: *mut u8,
        out_len: usize,
    ) -> usize;
}

unsafe extern "C" {
    fn signal(number: c_int, handler: usize) -> usize;
}

pub const STDIN: RawFd = 0;
pub const STDOUT: RawFd = 1;
const SIGPIPE: c_int = 13;
const IGNORE: usize = 1;

/// One byte more than a trace or a wait may have, to know that there is one. A table's text is shorter, and one that isn't
/// breaks a rule before that byte.
const ROOM: usize = 65_537;

/// A reader that left is then a write that fails, as any other.
pub fn ignore_broken_pipes() {
    unsafe { signal(SIGPIPE, IGNORE) };
}

/// An input to its end, or as much of it as a text may have; a read that fails is not the end.
pub fn read(from: RawFd) -> io::Result<Vec<u8>> {
    let mut buffer = vec![0; ROOM];
    let size = unsafe { sockhurdle_read(from, buffer.as_mut_ptr(), buffer.len()) };
    if size == usize::MAX {
        return Err(io::Error::last_os_error());
    }
    buffer.truncate(size);
    Ok(buffer)
}

/// Writes all bytes. Rust's own standard output would take a closed one for a success.
pub fn write(to: RawFd, bytes: &[u8]) -> io::Result<()> {
    let mut file = ManuallyDrop::new(unsafe { File::from_raw_fd(to) });
    file.write_all(bytes)
}

pub fn replay_to(text: &[u8], to: RawFd) -> c_int {
    unsafe { sockhurdle_replay_to(text.as_ptr(), text.len(), to) }
}

/// All that a replay prints, in a buffer that has room for it.
pub fn replay(text: &[u8]) -> Vec<u8> {
    let mut out = vec![0; ROOM];
    loop {
        let (o, room) = (out.as_mut_ptr(), out.len());
        let size = unsafe { sockhurdle_replay(text.as_ptr(), text.len(), o, room) };
        if size != 0 {
            out.truncate(size);
            return out;
        }
        out = vec![0; room * 2];
    }
}

/// The line that refusal 9 names: its two lines are `answer=9` and `at=`.
pub fn broken_line(text: &[u8]) -> usize {
    number(&replay(text), "at=").unwrap_or(0) as usize
}

/// The report on a wait, for nobody or for the owner of a slot, in a buffer that has room for it.
pub fn wait(table: &[u8], owner: Option<(u16, u64)>, wait: &[u8]) -> Vec<u8> {
    let mut out = vec![0; ROOM];
    loop {
        let (t, w, o) = (table.as_ptr(), wait.as_ptr(), out.as_mut_ptr());
        let size = match owner {
            None => unsafe { sockhurdle_wait(t, table.len(), w, wait.len(), o, out.len()) },
            Some((slot, id)) => unsafe {
                sockhurdle_wait_owned(t, table.len(), slot, id, w, wait.len(), o, out.len())
            },
        };
        if size != 0 {
            out.truncate(size);
            return out;
        }
        out = vec![0; out.len() * 2];
    }
}

/// The line of a table's text that follows its slots: the one at which the library stops where slots never end.
pub fn line_after_slots() -> usize {
    let mut endless = b"table=proc-1\n".to_vec();
    for _ in 0..=u16::MAX as usize + 1 {
        endless.extend_from_slice(b"txid=0\nxmin=0\n");
    }
    number(&wait(&endless, None, b""), "at=").unwrap_or(0) as usize
}

/// The number after a key that begins a line.
pub fn number(said: &[u8], key: &str) -> Option<u64> {
    let said = std::str::from_utf8(said).ok()?;
    let line = said.lines().find_map(|line| line.strip_prefix(key));
    line.and_then(|number| number.parse().ok())
}
