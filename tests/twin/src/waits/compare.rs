//! Comparing whatever checks a wait with the twin: its report, and what it does to a buffer at the border of its length.

use super::check::{self, Wait};
use super::read;
use crate::random::Random;
use crate::shrink;
use crate::table::Table;
use std::path::{Path, PathBuf};
use std::{fs, io};

/// Checks a wait into a buffer: the report's length, or 0 where the report had no room and nothing was written.
pub trait Checker {
    fn check(&self, wait: &Wait, out: &mut [u8]) -> usize;
}

impl<F: Fn(&Wait, &mut [u8]) -> usize> Checker for F {
    fn check(&self, wait: &Wait, out: &mut [u8]) -> usize {
        self(wait, out)
    }
}

/// What stands in a buffer before a call.
const BEFORE: u8 = b'~';

/// How the checker differs from the twin on a wait, if it does.
pub fn difference(wait: &Wait, checker: &impl Checker) -> Option<String> {
    let expected = check::report(wait);
    let length = expected.len();
    let any = Random::new(length as u64).place(length);
    let sizes = [length + 64, length, length - 1, any, 0];
    sizes
        .into_iter()
        .find_map(|size| differs(wait, &expected, size, checker))
}

/// In a buffer of so many bytes.
fn differs(wait: &Wait, expected: &[u8], size: usize, checker: &impl Checker) -> Option<String> {
    let mut out = vec![BEFORE; size];
    let answer = checker.check(wait, &mut out);
    let fits = expected.len() <= size;
    let wanted = if fits { expected } else { &[] };
    if answer != wanted.len() {
        let wanted = wanted.len();
        return Some(format!("answers {answer}, not {wanted}, for {size} bytes"));
    }
    let (report, rest) = out.split_at(answer);
    if report != wanted {
        let line = crate::compare::first_difference(report, wanted);
        return Some(format!("line {line} of the report is another"));
    }
    let touched = rest.iter().any(|byte| *byte != BEFORE);
    touched.then(|| format!("writes past the {answer} bytes that it answers, of {size}"))
}

/// Puts a whole report into a buffer, or nothing: what a checker has to do with one.
pub fn put(report: &[u8], out: &mut [u8]) -> usize {
    match out.get_mut(..report.len()) {
        Some(room) => {
            room.copy_from_slice(report);
            report.len()
        }
        None => 0,
    }
}

/// A checker as a function.
pub type Call = fn(&Wait, &mut [u8]) -> usize;

/// Faults at the border of the buffer, with nothing wrong in the report.
pub const ROOM_FAULTS: [(&str, Call); 5] = [
    ("puts-a-beginning", |wait, out| {
        let report = check::report(wait);
        let fits = report.len().min(out.len());
        out[..fits].copy_from_slice(&report[..fits]);
        if fits < report.len() { 0 } else { fits }
    }),
    ("answers-the-length-without-room", |wait, out| {
        let report = check::report(wait);
        put(&report, out);
        report.len()
    }),
    ("wants-a-byte-more", |wait, out| {
        let report = check::report(wait);
        let room = out.len() > report.len();
        if room { put(&report, out) } else { 0 }
    }),
    ("clears-the-rest", |wait, out| {
        let length = put(&check::report(wait), out);
        out[length..].fill(0);
        length
    }),
    ("silent", |_, _| 0),
];

/// A smaller wait on which the checker still differs.
pub fn smaller(wait: &Wait, checker: &impl Checker) -> Wait {
    let mut best = wait.clone();
    best.text = shrink::shrink(&wait.text, 2_000, |text| {
        let text = text.to_vec();
        difference(
            &Wait {
                text,
                ..best.clone()
            },
            checker,
        )
        .is_some()
    });
    let Ok(mut table) = read::table(&best.table) else {
        return best;
    };
    for place in 0..table.slots().len() {
        let mut emptier: Table = table.clone();
        emptier.put(place, 0, 0);
        let candidate = Wait {
            table: read::text_of_table(&emptier).into_bytes(),
            ..best.clone()
        };
        if difference(&candidate, checker).is_some() {
            (best, table) = (candidate, emptier);
        }
    }
    best
}

/// Writes the wait, its report by the twin and the checker's, and answers the wait's path.
pub fn store(
    wait: &Wait,
    checker: &impl Checker,
    folder: &Path,
    name: &str,
) -> io::Result<PathBuf> {
    fs::create_dir_all(folder)?;
    let expected = check::report(wait);
    let mut out = vec![BEFORE; expected.len() + 64];
    let answer = checker.check(wait, &mut out).min(out.len());
    let file = |kind: &str| folder.join(format!("{name}.{kind}"));
    fs::write(file("table"), &wait.table)?;
    fs::write(file("wait"), &wait.text)?;
    if let Some((slot, id)) = wait.owner {
        fs::write(file("owner"), format!("{slot} {id}\n"))?;
    }
    fs::write(file("report"), expected)?;
    fs::write(file("program"), &out[..answer])?;
    Ok(file("wait"))
}

/// A wait and its report as `store` and the stored cases have them: NAME.table, .wait, .report, and .owner if any.
pub fn stored(folder: &Path, name: &str) -> io::Result<(Wait, Vec<u8>)> {
    let file = |kind: &str| folder.join(format!("{name}.{kind}"));
    let owner = match fs::read_to_string(file("owner")) {
        Ok(text) => {
            let numbers = text.trim_end().split_once(' ');
            let numbers = numbers.and_then(|(s, i)| Some((s.parse().ok()?, i.parse().ok()?)));
            Some(numbers.ok_or(io::ErrorKind::InvalidData)?)
        }
        Err(_) => None,
    };
    let wait = Wait {
        table: fs::read(file("table"))?,
        owner,
        text: fs::read(file("wait"))?,
    };
    Ok((wait, fs::read(file("report"))?))
}
