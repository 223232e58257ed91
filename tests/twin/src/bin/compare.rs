//! Compares a program with the twin on generated traces; a difference is made small.

use std::path::Path;
use std::process::ExitCode;
use std::time::{Duration, Instant};
use twin::compare::{self, Counts, Difference};
use twin::program::Program;

const USAGE: &str =
    "usage: compare PROGRAM FROM COUNT [--patience SECONDS] [--as-found] [-- ARGUMENT..]
       compare PROGRAM --seconds N [--from SEED] [..]

Runs PROGRAM (with the ARGUMENTs) on the traces of COUNT seeds, or for N seconds, and
compares its output with the twin's. A run that takes longer than --patience (10) is a
failure. A differing trace is made small, unless --as-found is given.";

/// Where differing traces are kept.
const FOLDER: &str = "target/compare";

struct Task {
    program: Program,
    from: u64,
    limit: Limit,
    as_found: bool,
}

enum Limit {
    Traces(u64),
    Time(Duration),
}

fn main() -> ExitCode {
    let arguments: Vec<String> = std::env::args().skip(1).collect();
    let Some(task) = task(&arguments) else {
        eprintln!("{USAGE}");
        return ExitCode::from(2);
    };
    let mut counts = Counts::default();
    let difference = run(&task, &mut counts);
    let differing = u64::from(difference.is_some());
    if let Some((seed, difference)) = difference {
        report(&task, seed, difference);
    }
    println!(
        "compare: {} traces, {} records, {} equal, {differing} different",
        counts.traces,
        counts.records,
        counts.traces - differing
    );
    if differing == 0 && counts.traces > 0 {
        ExitCode::SUCCESS
    } else {
        ExitCode::FAILURE
    }
}

/// The task that the arguments ask for; none for no comparison at all.
fn task(arguments: &[String]) -> Option<Task> {
    let mut own = arguments.split(|argument| argument == "--");
    let mut words = own.next()?.iter();
    let passed_on: Vec<String> = own.flatten().cloned().collect();
    let path = words.next()?.clone();
    let mut numbers: Vec<u64> = Vec::new();
    let (mut seconds, mut from, mut patience, mut as_found) = (None, 1, 10, false);
    while let Some(word) = words.next() {
        match word.as_str() {
            "--seconds" => seconds = Some(words.next()?.parse().ok()?),
            "--from" => from = words.next()?.parse().ok()?,
            "--patience" => patience = words.next()?.parse().ok()?,
            "--as-found" => as_found = true,
            number => numbers.push(number.parse().ok()?),
        }
    }
    let (from, limit) = match (numbers.as_slice(), seconds) {
        (&[from, count], None) if count > 0 => (from, Limit::Traces(count)),
        (&[], Some(seconds)) if seconds > 0 => (from, Limit::Time(Duration::from_secs(seconds))),
        _ => return None,
    };
    Some(Task {
        program: Program {
            path,
            arguments: passed_on,
            patience: Duration::from_secs(patience),
        },
        from,
        limit,
        as_found,
    })
}

fn run(task: &Task, counts: &mut Counts) -> Option<(u64, Difference)> {
    let start = Instant::now();
    let mut told = start;
    loop {
        let seed = task.from.wrapping_add(counts.traces);
        if let Err(difference) = compare::compare(&task.program, seed, counts) {
            return Some((seed, difference));
        }
        let over = match task.limit {
            Limit::Traces(count) => counts.traces == count,
            Limit::Time(time) => start.elapsed() >= time,
        };
        if over {
            return None;
        }
        if told.elapsed() >= Duration::from_secs(5) {
            told = Instant::now();
            let (traces, records) = (counts.traces, counts.records);
            println!("compare: {traces} traces, {records} records so far, all equal");
        }
    }
}

fn report(task: &Task, seed: u64, difference: Difference) {
    println!("compare: different on seed {seed}");
    let folder = Path::new(FOLDER);
    store(&difference, folder, &format!("seed-{seed}"));
    let difference = if task.as_found {
        difference
    } else {
        let smaller = compare::smaller(&task.program, difference);
        store(&smaller, folder, &format!("seed-{seed}-small"));
        smaller
    };
    let expected = compare::expected(&difference.text);
    show("trace", &difference.text, 1);
    match &difference.program {
        Ok(output) => {
            let line = compare::first_difference(&expected, output);
            println!("-- the outputs differ first in line {line}");
            show("twin", &expected, line);
            show("program", output, line);
        }
        Err(failure) => println!("-- {failure}"),
    }
}

fn store(difference: &Difference, folder: &Path, name: &str) {
    match compare::store(difference, folder, name) {
        Ok(path) => println!("-- kept as {}", path.display()),
        Err(error) => println!("-- could not be kept in {}: {error}", folder.display()),
    }
}

/// Prints a text, or its lines around `line` where it is long.
fn show(what: &str, text: &[u8], line: usize) {
    const MOST: usize = 60;
    let lines: Vec<&[u8]> = text.split_inclusive(|&byte| byte == b'\n').collect();
    let from = if lines.len() <= MOST {
        0
    } else {
        line.saturating_sub(MOST / 2).min(lines.len())
    };
    println!("-- {what}: {} bytes, {} lines", text.len(), lines.len());
    for (place, line) in lines.iter().enumerate().skip(from).take(MOST) {
        let shown = &line[..line.len().min(200)];
        println!("{:>6}  {}", place + 1, shown.escape_ascii());
    }
}
