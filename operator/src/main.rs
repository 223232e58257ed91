//! replay [FILE]: replays a captured run and answers by its exit status.
//!
//! The proved library reads, replays and writes; this file takes the arguments and says in words what the library
//! answered by a number.
#![no_main]

use operator::library::{self, STDIN, STDOUT};
use operator::why;
use std::ffi::{OsString, c_int};
use std::fs::File;
use std::io::{self, Write};
use std::os::fd::{AsRawFd, RawFd};

const HELP: &str = "usage: replay [FILE]
Replays a captured run, of FILE or else of standard input, to standard output.
docs/TRACE.md says how a run is written down and how its answers are read.
Status: 0 replayed; 1 the output could not be written, and what arrived is a beginning of it; 2 a wrong call, or the
input could not be read, and nothing was run; 3 the input is no trace: standard error says why, and nothing was run.";

/// The entry is C's. Rust's own would put /dev/null in the place of a closed standard output, and an output that was lost
/// would be a success.
#[unsafe(no_mangle)]
pub extern "C" fn main() -> c_int {
    library::ignore_broken_pipes();
    let arguments: Vec<OsString> = std::env::args_os().skip(1).collect();
    match arguments.as_slice() {
        [] => run(STDIN, "standard input"),
        [word] if word == "-h" || word == "--help" => match writeln!(io::stdout(), "{HELP}") {
            Ok(()) => 0,
            Err(error) => stop(1, &format!("the help could not be written: {error}")),
        },
        [name] => match File::open(name) {
            Ok(file) => run(file.as_raw_fd(), &name.to_string_lossy()),
            Err(error) => stop(
                2,
                &format!("{}: {error}; nothing was run", name.to_string_lossy()),
            ),
        },
        many => stop(
            2,
            &format!(
                "one file at a time, {} were given; --help says more",
                many.len()
            ),
        ),
    }
}

fn run(from: RawFd, name: &str) -> c_int {
    let text = match library::read(from) {
        Ok(text) => text,
        Err(error) => {
            return stop(
                2,
                &format!("{name} could not be read to its end: {error}; nothing was run"),
            );
        }
    };
    match library::replay_to(&text, STDOUT) {
        0 => 0,
        3 => {
            let reason = why::of_trace(&text, library::broken_line(&text));
            stop(
                3,
                &format!("{name} is no trace, so nothing was run. {reason}"),
            )
        }
        _ => {
            let error = io::Error::last_os_error();
            stop(
                1,
                &format!(
                    "the output could not be written: {error}; what arrived is a beginning of it"
                ),
            )
        }
    }
}

/// Says why on standard error, if that can be written, and hands on the status.
fn stop(status: c_int, words: &str) -> c_int {
    let _ = writeln!(io::stderr(), "replay: {words}");
    status
}
