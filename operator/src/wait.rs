//! wait [--table] TABLE WAIT [SLOT ID]: checks what others did to a table while one waited for the lock.
//!
//! The proved library reads and checks; this file takes the arguments, hands on the report and says in words what the
//! library answered by numbers.
#![no_main]

use operator::library::{self, STDOUT};
use operator::why;
use std::ffi::{OsStr, OsString, c_int};
use std::fs::File;
use std::io::{self, Write};
use std::os::fd::AsRawFd;

const HELP: &str = "usage: wait [--table] TABLE WAIT [SLOT ID]
Checks what others did to a table while one waited for the lock: TABLE has the table before it, WAIT the events, SLOT and ID
the registration that waited, if one did. Prints answer, slot, id, seen and at; with --table also the table that is answered:
the one at the end of an accepted wait, or TABLE. docs/SPEC.md has both texts and the report (16).
Status: 0 accepted; 1 the output could not be written; 2 a wrong call, or an input could not be read; 3 a text breaks a rule;
5 refused otherwise. Standard error says why.";

/// The entry is C's, as that of replay.
#[unsafe(no_mangle)]
pub extern "C" fn main() -> c_int {
    library::ignore_broken_pipes();
    let mut arguments: Vec<OsString> = std::env::args_os().skip(1).collect();
    if arguments
        .iter()
        .any(|word| word == "-h" || word == "--help")
    {
        return match library::write(STDOUT, format!("{HELP}\n").as_bytes()) {
            Ok(()) => 0,
            Err(error) => stop(1, &format!("the help could not be written: {error}")),
        };
    }
    let all = arguments.first().is_some_and(|word| word == "--table");
    if all {
        arguments.remove(0);
    }
    match arguments.as_slice() {
        [table, wait] => run(table, wait, None, all),
        [table, wait, slot, id] => match (parsed(slot), parsed(id)) {
            (Some(slot), Some(id)) => run(table, wait, Some((slot, id)), all),
            _ => stop(2, "SLOT is a number up to 65535, ID one of 64 bits"),
        },
        _ => stop(
            2,
            "[--table] TABLE WAIT [SLOT ID] is wanted; --help says more",
        ),
    }
}

fn parsed<T: std::str::FromStr>(word: &OsStr) -> Option<T> {
    let word = word.to_str()?;
    // A sign would be taken for a number.
    word.bytes()
        .all(|byte| byte.is_ascii_digit())
        .then(|| word.parse().ok())?
}

fn run(table: &OsStr, wait: &OsStr, owner: Option<(u16, u64)>, all: bool) -> c_int {
    let (table_text, wait_text) = match (read(table), read(wait)) {
        (Ok(table), Ok(wait)) => (table, wait),
        (Err(words), _) | (_, Err(words)) => return stop(2, &words),
    };
    let report = library::wait(&table_text, owner, &wait_text);
    // Five lines, and then the table's.
    let five = report
        .iter()
        .enumerate()
        .filter(|(_, byte)| **byte == b'\n');
    let end = five
        .map(|(place, _)| place + 1)
        .nth(4)
        .unwrap_or(report.len());
    if let Err(error) = library::write(STDOUT, if all { &report } else { &report[..end] }) {
        return stop(1, &format!("the output could not be written: {error}"));
    }
    let said = |key| library::number(&report[..end], key).unwrap_or(0);
    let at = said("at=") as usize;
    let (table, wait) = (table.to_string_lossy(), wait.to_string_lossy());
    match said("answer=") {
        0 => stop(0, "accepted: every event keeps its rule"),
        9 if end == report.len() => {
            let reason = why::of_table(&table_text, at, library::line_after_slots());
            stop(
                3,
                &format!("{table} is no table, so nothing was checked. {reason}"),
            )
        }
        9 => {
            let reason = why::of_wait(&wait_text, at);
            stop(
                3,
                &format!("{wait} is no wait, so nothing was checked. {reason}"),
            )
        }
        22 => stop(5, &format!("refused: {}", why::of_step(&wait_text, at))),
        number => stop(
            5,
            &format!(
                "refused: {}",
                why::of_entry(number, said("slot="), said("id="), said("seen="))
            ),
        ),
    }
}

/// A text to its end, or why it could not be read.
fn read(name: &OsStr) -> Result<Vec<u8>, String> {
    let shown = name.to_string_lossy();
    let file =
        File::open(name).map_err(|error| format!("{shown}: {error}; nothing was checked"))?;
    library::read(file.as_raw_fd()).map_err(|error| {
        format!("{shown} could not be read to its end: {error}; nothing was checked")
    })
}

/// Says why on standard error, if that can be written, and hands on the status.
fn stop(status: c_int, words: &str) -> c_int {
    let _ = writeln!(io::stderr(), "wait: {words}");
    status
}
