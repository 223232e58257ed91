//! picture [--text] [FILE]: draws who held the line back in a captured run, and answers by its exit status.
//!
//! The proved library reads and replays; this file takes the arguments and hands on what is drawn from the answers.
#![no_main]

use operator::account::log;
use operator::account::records;
use operator::account::story::Story;
use operator::drawing::page;
use operator::library::{self, STDIN, STDOUT};
use operator::why;
use std::ffi::{OsStr, OsString, c_int};
use std::fs::File;
use std::io::{self, Write};
use std::os::fd::{AsRawFd, RawFd};

const HELP: &str = "usage: picture [--text] [FILE]
Replays a captured run, of FILE or else of standard input, and draws who held the vacuum line back and until when: a page in
HTML on standard output, one file that needs nothing else. With --text a line for each record instead, for a terminal or a log.
A trace headed trace=proc-1 is replayed as proc-2, under which the same calls also print the holder.
Status: 0 drawn; 1 the output could not be written; 2 a wrong call, or the input could not be read; 3 the input is no trace:
the page and standard error say why and at which line.";

/// The entry is C's, as that of replay.
#[unsafe(no_mangle)]
pub extern "C" fn main() -> c_int {
    library::ignore_broken_pipes();
    let mut arguments: Vec<OsString> = std::env::args_os().skip(1).collect();
    if arguments
        .iter()
        .any(|word| word == "-h" || word == "--help")
    {
        return print(0, &format!("{HELP}\n"));
    }
    let as_text = arguments.first().is_some_and(|word| word == "--text");
    if as_text {
        arguments.remove(0);
    }
    match arguments.as_slice() {
        [] => run(STDIN, "standard input", as_text),
        [name] => named(name, as_text),
        _ => stop(2, "[--text] [FILE] is wanted; --help says more"),
    }
}

fn named(name: &OsStr, as_text: bool) -> c_int {
    let shown = name.to_string_lossy();
    match File::open(name) {
        Ok(file) => run(file.as_raw_fd(), &shown, as_text),
        Err(error) => stop(2, &format!("{shown}: {error}; nothing was run")),
    }
}

fn run(from: RawFd, name: &str, as_text: bool) -> c_int {
    let text = match library::read(from) {
        Ok(text) => text,
        Err(error) => {
            let words = format!("{name} could not be read to its end: {error}; nothing was run");
            return stop(2, &words);
        }
    };
    let said = library::replay(&text);
    if said.starts_with(b"answer=9\n") {
        return refused(name, &text, as_text);
    }
    let text = records::telling(&text);
    match Story::of(&text, &library::replay(&text)) {
        Ok(story) if as_text => print(0, &log::log(&story)),
        Ok(story) => print(0, &page::page(name, &story)),
        Err(words) => stop(1, &format!("{name} could not be drawn: {words}")),
    }
}

/// The reason is on the page too; the text for a terminal has none, as no record was run.
fn refused(name: &str, text: &[u8], as_text: bool) -> c_int {
    let reason = why::of_trace(text, library::broken_line(text));
    let page = if as_text {
        String::new()
    } else {
        page::refused(name, &reason)
    };
    match print(3, &page) {
        3 => stop(
            3,
            &format!("{name} is no trace, so nothing was run. {reason}"),
        ),
        status => status,
    }
}

/// Writes it, and answers the status given where it went.
fn print(status: c_int, text: &str) -> c_int {
    match library::write(STDOUT, text.as_bytes()) {
        Ok(()) => status,
        Err(error) => stop(1, &format!("the output could not be written: {error}")),
    }
}

/// Says why on standard error, if that can be written, and hands on the status.
fn stop(status: c_int, words: &str) -> c_int {
    let _ = writeln!(io::stderr(), "picture: {words}");
    status
}
