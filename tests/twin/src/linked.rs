//! The program's replay and its check of a wait as linked functions, for comparisons and races inside one process.
//!
//! Off unless the feature `linked` is on. To turn it on, put `target/staticlib/libexports.a`, which
//! `tools/build library exports_c` makes, into DIR as `libsockhurdle.a` and build with `RUSTFLAGS="-L native=DIR" cargo build --release --offline --features linked`.

use crate::waits::check::Wait;

#[cfg(feature = "linked")]
mod library {
    #[link(name = "sockhurdle", kind = "static")]
    unsafe extern "C" {
        /// Replays `input` into `out` and answers the length of the output, or 0 without room.
        pub fn sockhurdle_replay(
            input: *const u8,
            input_len: usize,
            out: *mut u8,
            out_len: usize,
        ) -> usize;

        /// Checks a wait that nobody owns; answers the length of the report in `out`, or 0 without room.
        pub fn sockhurdle_wait(
            table: *const u8,
            table_len: usize,
            wait: *const u8,
            wait_len: usize,
            out: *mut u8,
            out_len: usize,
        ) -> usize;

        /// The same for a registration that waited.
        pub fn sockhurdle_wait_owned(
            table: *const u8,
            table_len: usize,
            slot: u16,
            id: u64,
            wait: *const u8,
            wait_len: usize,
            out: *mut u8,
            out_len: usize,
        ) -> usize;
    }
}

/// Replays by the linked library; answers the output's length.
#[cfg(feature = "linked")]
pub fn replay(input: &[u8], out: &mut [u8]) -> Option<usize> {
    // Both runs are alive and not moved for as long as the call lasts.
    let length = unsafe {
        library::sockhurdle_replay(input.as_ptr(), input.len(), out.as_mut_ptr(), out.len())
    };
    Some(length)
}

/// Checks a wait by the linked library; answers the report's length.
#[cfg(feature = "linked")]
pub fn wait(wait: &Wait, out: &mut [u8]) -> Option<usize> {
    let (table, text) = (&wait.table, &wait.text);
    let (from, from_len) = (table.as_ptr(), table.len());
    let (told, told_len) = (text.as_ptr(), text.len());
    let (to, to_len) = (out.as_mut_ptr(), out.len());
    // All three runs are alive and not moved for as long as the call lasts.
    let length = match wait.owner {
        None => unsafe { library::sockhurdle_wait(from, from_len, told, told_len, to, to_len) },
        Some((slot, id)) => unsafe {
            library::sockhurdle_wait_owned(from, from_len, slot, id, told, told_len, to, to_len)
        },
    };
    Some(length)
}

/// No library is linked.
#[cfg(not(feature = "linked"))]
pub fn replay(_: &[u8], _: &mut [u8]) -> Option<usize> {
    None
}

/// No library is linked.
#[cfg(not(feature = "linked"))]
pub fn wait(_: &Wait, _: &mut [u8]) -> Option<usize> {
    None
}
