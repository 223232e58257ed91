//! Compares the writer of traces with the twin's: rows put to one program, texts to another that writes them again.

use std::fs::File;
use std::process::{Command, ExitCode, Stdio};
use std::time::Duration;
use twin::program::{Failure, Program};
use twin::trace::Version;
use twin::{generate, trace, writer};

const USAGE: &str = "usage: rows ROWS_PROGRAM REWRITE_PROGRAM FROM COUNT
Last line: 'N passed, M failed'.";

fn program(path: &str) -> Program {
    Program {
        path: path.into(),
        arguments: vec![],
        patience: Duration::from_secs(10),
    }
}

/// Counts, and says what failed.
#[derive(Default)]
struct Counts {
    passed: u64,
    failed: u64,
    accepted: u64,
    bad: u64,
    no_room: u64,
}

impl Counts {
    fn count(&mut self, passed: bool, name: &str) {
        if passed {
            self.passed += 1;
        } else {
            self.failed += 1;
            println!("FAILED {name}");
        }
    }

    fn rows(
        &mut self,
        program: &Program,
        name: &str,
        version: Version,
        rows: &[writer::Row],
        size: usize,
    ) {
        match writer::write(version, rows, size) {
            Ok(_) => self.accepted += 1,
            Err(20) => self.bad += 1,
            Err(_) => self.no_room += 1,
        }
        let printed = program.run(&writer::input(version, rows, size));
        self.count(
            printed.is_ok_and(|p| p == writer::expected(version, rows, size)),
            name,
        );
    }

    /// A trace is written again byte for byte, anything else is not.
    fn again(&mut self, program: &Program, name: &str, text: &[u8]) {
        let printed = program.run(text);
        let equal = match printed {
            Ok(printed) => trace::read(text).is_ok() && printed == text,
            Err(Failure::WritesNothing) => trace::read(text).is_err(),
            Err(_) => false,
        };
        self.count(equal, name);
    }

    /// A read or a write that fails is told, and nothing is written beside it.
    fn fails(&mut self, path: &str, input: &str, output: Option<&str>, words: &str) {
        let name = format!("{input} to {}: {words}", output.unwrap_or("a pipe"));
        let told = File::open(input).and_then(|from| {
            let to = match output {
                Some(to) => Stdio::from(File::options().write(true).open(to)?),
                None => Stdio::piped(),
            };
            Command::new(path).stdin(from).stdout(to).output()
        });
        let told = told.is_ok_and(|o| {
            o.stdout.is_empty() && String::from_utf8_lossy(&o.stderr).contains(words)
        });
        self.count(told, &name);
    }
}

fn main() -> ExitCode {
    let arguments: Vec<String> = std::env::args().skip(1).collect();
    let [rows_path, again_path, from, count] = arguments.as_slice() else {
        eprintln!("{USAGE}");
        return ExitCode::from(2);
    };
    let (Ok(from), Ok(count)) = (from.parse::<u64>(), count.parse::<u64>()) else {
        eprintln!("{USAGE}");
        return ExitCode::from(2);
    };
    let (of_rows, again) = (program(rows_path), program(again_path));
    let mut counts = Counts::default();
    for (name, rows, size) in writer::borders() {
        for version in Version::ALL {
            let name = format!("{name}, {}", version.header());
            counts.rows(&of_rows, &name, version, &rows, size);
            if let Ok(text) = writer::write(version, &rows, usize::MAX) {
                counts.again(&again, &name, text.as_bytes());
            }
        }
    }
    for seed in from..from + count {
        let (version, rows, size) = writer::generate(seed);
        counts.rows(
            &of_rows,
            &format!("rows of seed {seed}"),
            version,
            &rows,
            size,
        );
        counts.again(
            &again,
            &format!("trace of seed {seed}"),
            &generate::generate(seed),
        );
    }
    counts.fails(again_path, "/", None, "the input could not be read");
    counts.fails(
        again_path,
        "examples/day.trace",
        Some("/dev/full"),
        "the output could not be written",
    );
    let Counts {
        passed,
        failed,
        accepted,
        bad,
        no_room,
    } = counts;
    println!("runs of rows: {accepted} accepted, {bad} refused by 20, {no_room} by 12");
    println!("{passed} passed, {failed} failed");
    if failed == 0 && passed > 0 {
        ExitCode::SUCCESS
    } else {
        ExitCode::FAILURE
    }
}
