//! Compares the linked check of a wait, and the operator's command over it, with the twin and with the stored cases.

use std::collections::BTreeSet;
use std::path::Path;
use std::process::{Command, ExitCode};
use std::{fs, io};
use twin::linked;
use twin::second::waits::{WaitFault, report};
use twin::waits::cells;
use twin::waits::check::{self, Owner, Wait};
use twin::waits::compare::{self, Checker};
use twin::waits::generate::generate;

const USAGE: &str = "usage: waits CASES COMMAND FROM COUNT
CASES: the folder of the stored cases; COMMAND: the operator's. Last line: 'N passed, M failed'.";

/// Where differing waits are kept.
const FOLDER: &str = "target/waits";

/// Counts, and says what failed.
#[derive(Default)]
struct Counts {
    passed: u64,
    failed: u64,
}

impl Counts {
    fn count(&mut self, difference: Option<String>, name: &str) {
        match difference {
            None => self.passed += 1,
            Some(how) => {
                self.failed += 1;
                println!("FAILED {name}: {how}");
            }
        }
    }
}

fn main() -> ExitCode {
    let arguments: Vec<String> = std::env::args().skip(1).collect();
    let task = match arguments.as_slice() {
        [cases, command, from, count] => {
            from.parse()
                .ok()
                .zip(count.parse().ok())
                .map(|(from, count): (u64, u64)| {
                    (Path::new(cases), command, from..from.saturating_add(count))
                })
        }
        _ => None,
    };
    let Some((cases, command, seeds)) = task else {
        eprintln!("{USAGE}");
        return ExitCode::from(2);
    };
    let mut counts = Counts::default();
    let waits: Vec<Wait> = seeds.clone().map(generate).collect();
    reach(&waits, &mut counts);
    faults(&waits, &mut counts);
    generated(&waits, seeds.start, &mut counts);
    if let Err(error) = stored(cases, command, &mut counts) {
        counts.count(Some(error.to_string()), "the stored cases");
    }
    let Counts { passed, failed } = counts;
    println!("{passed} passed, {failed} failed");
    if failed == 0 && passed > 0 {
        ExitCode::SUCCESS
    } else {
        ExitCode::FAILURE
    }
}

/// The waits have to reach every cell.
fn reach(waits: &[Wait], counts: &mut Counts) {
    let mut coverage = cells::coverage();
    for wait in waits {
        cells::add(wait, &mut coverage);
    }
    let said = coverage.to_string();
    println!("{}", said.lines().last().unwrap_or_default());
    let missing = (!coverage.is_complete()).then_some(said);
    counts.count(missing, "what the seeds reach");
}

/// The comparison has to see every fault of a wrong checker, and none where there is none. A fault in the report is put
/// to it on the first wait whose report is another.
fn faults(waits: &[Wait], counts: &mut Counts) {
    let found = |checker: &dyn Fn(&Wait, &mut [u8]) -> usize| {
        let mut waits = waits.iter();
        waits.any(|wait| compare::difference(wait, &checker).is_some())
    };
    let expected: Vec<Vec<u8>> = waits.iter().map(check::report).collect();
    for fault in WaitFault::all() {
        let wrong = |wait: &Wait, out: &mut [u8]| compare::put(&report(wait, fault), out);
        let mut both = waits.iter().zip(&expected);
        let shows = both.find(|(wait, expected)| report(wait, fault) != **expected);
        let seen = shows.is_some_and(|(wait, _)| compare::difference(wait, &wrong).is_some());
        let unseen = (!seen).then(|| "it shows on no wait".into());
        counts.count(unseen, &format!("the fault {}", fault.name()));
    }
    for (name, wrong) in compare::ROOM_FAULTS {
        let unseen = (!found(&wrong)).then(|| "it shows on no wait".into());
        counts.count(unseen, &format!("the fault {name}"));
    }
    let differs = |wait: &Wait| {
        let right = report(wait, WaitFault::None);
        let checker = |_: &Wait, out: &mut [u8]| compare::put(&right, out);
        compare::difference(wait, &checker).is_some()
    };
    let seen = waits.iter().any(differs);
    let seen = seen.then(|| "it differs from the first".into());
    counts.count(seen, "the second reading without a fault");
}

/// The linked library on every wait.
fn generated(waits: &[Wait], from: u64, counts: &mut Counts) {
    if linked::wait(&waits[0], &mut []).is_none() {
        return counts.count(Some("none is linked".into()), "the library");
    }
    for (seed, wait) in (from..).zip(waits) {
        let name = format!("seed {seed}");
        counts.count(told(wait, &library, &format!("seed-{seed}")), &name);
    }
}

fn library(wait: &Wait, out: &mut [u8]) -> usize {
    linked::wait(wait, out).unwrap_or(0)
}

/// How the checker differs on the wait; such a wait is made small and kept.
fn told(wait: &Wait, checker: &impl Checker, name: &str) -> Option<String> {
    let how = compare::difference(wait, checker)?;
    let small = compare::smaller(wait, checker);
    match compare::store(&small, checker, Path::new(FOLDER), name) {
        Ok(path) => Some(format!("{how}; a small one is {}", path.display())),
        Err(error) => Some(format!("{how}; it could not be kept: {error}")),
    }
}

/// The stored cases on the twin, the library and the command.
fn stored(folder: &Path, command: &str, counts: &mut Counts) -> io::Result<()> {
    let mut names = BTreeSet::new();
    for file in fs::read_dir(folder)? {
        let path = file?.path();
        let stem = path.file_stem().and_then(|stem| stem.to_str());
        names.extend(stem.map(str::to_string));
    }
    for name in &names {
        let (wait, expected) = compare::stored(folder, name)?;
        let differs = |report: &[u8]| {
            (report != expected).then(|| {
                let line = twin::compare::first_difference(report, &expected);
                format!("line {line} of the report is another")
            })
        };
        counts.count(
            differs(&check::report(&wait)),
            &format!("{name} on the twin"),
        );
        let mut out = vec![0; expected.len() + 64];
        let length = library(&wait, &mut out).min(out.len());
        counts.count(differs(&out[..length]), &format!("{name} on the library"));
        let files = ["table", "wait"].map(|kind| folder.join(format!("{name}.{kind}")));
        let difference = commanded(command, &files, wait.owner, &expected)?;
        counts.count(difference, &format!("{name} on the command"));
    }
    println!("{} stored cases", names.len());
    Ok(())
}

/// How the command differs from a report: what it prints, with the table and without, and its status.
fn commanded(
    command: &str,
    files: &[impl AsRef<Path>; 2],
    owner: Owner,
    expected: &[u8],
) -> io::Result<Option<String>> {
    let five = expected.split_inclusive(|&byte| byte == b'\n').take(5);
    let five: Vec<u8> = five.flatten().copied().collect();
    let status = match &expected[..expected.iter().position(|&byte| byte == b'\n').unwrap_or(0)] {
        b"answer=0" => 0,
        b"answer=9" => 3,
        _ => 5,
    };
    for (options, printed) in [(&["--table"][..], expected), (&[], &five)] {
        let mut call = Command::new(command);
        call.args(options).args(files.iter().map(AsRef::as_ref));
        if let Some((slot, id)) = owner {
            call.args([slot.to_string(), id.to_string()]);
        }
        let output = call.output()?;
        if output.stdout != printed {
            let line = twin::compare::first_difference(&output.stdout, printed);
            return Ok(Some(format!("{options:?}: line {line} printed is another")));
        }
        if output.status.code() != Some(status) {
            let got = output.status;
            return Ok(Some(format!("{options:?}: ends with {got}, not {status}")));
        }
    }
    Ok(None)
}
