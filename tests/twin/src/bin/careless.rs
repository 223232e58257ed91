//! A host with a fault at its border, so that the tests of the border are seen to fail.
//!
//! careless FAULT: replays standard input to standard output by the twin's rules, with one fault in how it reads and
//! writes. `careless none` has none; `careless --list` names them.
#![no_main]

use std::ffi::{CStr, c_char, c_int, c_void};

unsafe extern "C" {
    fn read(fd: c_int, into: *mut c_void, size: usize) -> isize;
    fn write(fd: c_int, from: *const c_void, size: usize) -> isize;
}

const FAULTS: [&str; 10] = [
    "failed-read-is-the-end",
    "reads-once",
    "writes-once",
    "failed-write-is-a-success",
    "short-write-repeated",
    "short-write-skipped",
    "runs-what-came-before-a-failed-read",
    "no-trace-is-a-success",
    "statuses-exchanged",
    "speaks-of-a-success",
];

/// The longest trace, and one byte to know that there is more.
const ROOM: usize = 65_537;

/// A piece that is written at once ends with a line.
const PIECE: usize = 60_000;

/// The entry is C's: Rust's own would open a closed descriptor and ignore a reader that leaves.
#[unsafe(no_mangle)]
pub extern "C" fn main(count: c_int, arguments: *const *const c_char) -> c_int {
    assert!(count == 2, "usage: careless FAULT");
    let fault = unsafe { CStr::from_ptr(*arguments.add(1)) };
    let fault = fault.to_str().expect("a name");
    if fault == "--list" {
        return c_int::from(!sent(1, (FAULTS.join("\n") + "\n").as_bytes(), "none"));
    }
    assert!(fault == "none" || FAULTS.contains(&fault), "no such fault");
    run(fault)
}

fn run(fault: &str) -> c_int {
    let (unwritten, unread) = if fault == "statuses-exchanged" {
        (2, 1)
    } else {
        (1, 2)
    };
    let (input, whole) = came(fault);
    if !whole && fault != "runs-what-came-before-a-failed-read" {
        return unread;
    }
    let mut out = Vec::new();
    twin::replay::replay(&input, &mut out).expect("a vector takes every byte");
    let no_trace = out.starts_with(b"answer=9\n") && fault != "no-trace-is-a-success";
    if fault == "speaks-of-a-success" {
        sent(2, b"replayed\n", fault);
    }
    match (pieces(&out).all(|piece| sent(1, piece, fault)), whole) {
        (false, _) if fault == "failed-write-is-a-success" => 0,
        (false, _) => unwritten,
        (true, false) => unread,
        (true, true) if no_trace => 3,
        (true, true) => 0,
    }
}

/// What was read, and whether the input's end was seen, or there was more than a trace may have.
fn came(fault: &str) -> (Vec<u8>, bool) {
    let mut input = vec![0; ROOM];
    let mut done = 0;
    while done < ROOM {
        let rest = &mut input[done..];
        let got = unsafe { read(0, rest.as_mut_ptr().cast(), rest.len()) };
        if got < 0 {
            input.truncate(done);
            return (input, fault == "failed-read-is-the-end");
        }
        done += got as usize;
        if got == 0 || fault == "reads-once" {
            break;
        }
    }
    input.truncate(done);
    (input, true)
}

/// An output in pieces that each end with a line.
fn pieces(mut out: &[u8]) -> impl Iterator<Item = &[u8]> {
    std::iter::from_fn(move || {
        let most = &out[..out.len().min(PIECE)];
        let end = most.iter().rposition(|&byte| byte == b'\n')?;
        let piece = &out[..=end];
        out = &out[end + 1..];
        Some(piece)
    })
}

/// Writes a piece; whether all of it went.
fn sent(to: c_int, piece: &[u8], fault: &str) -> bool {
    let mut done = 0;
    while done < piece.len() {
        let rest = &piece[done..];
        let went = unsafe { write(to, rest.as_ptr().cast(), rest.len()) };
        if went < 0 {
            return false;
        }
        let went = went as usize;
        match fault {
            "writes-once" => return true,
            // the last byte of a short write goes twice, or the next one not at all
            "short-write-repeated" if went < rest.len() => done += went.max(2) - 1,
            "short-write-skipped" if went < rest.len() => done += went + 1,
            _ => done += went,
        }
    }
    true
}
