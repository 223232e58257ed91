//! Usage: reading ROOT [write | mend | pin], or reading ROOT refused LOG. Last line but of `pin`: 'N passed, M failed'.

use reading::Reading;
use reading::tree::{Report, Tree};
use std::path::Path;
use std::process::ExitCode;

/// Reads the tree, does what the command says, and gives the reports of its checks by theme.
fn run(root: &str, command: &str, log: &str) -> std::io::Result<Vec<(&'static str, Report)>> {
    let mut reading = Reading::of(Tree::read(Path::new(root))?);
    if command == "mend" {
        reading.mend()?.iter().for_each(|moved| println!("{moved}"));
    }
    if ["mend", "write"].contains(&command) {
        reading.write()?;
    }
    Ok(match command {
        "pin" => {
            print!("{}", reading.pin_text());
            Vec::new()
        }
        "refused" => {
            let mut report = Report::default();
            reading::edits::check_refused(&reading.tree, &reading.edits, Path::new(log), &mut report)?;
            vec![("why each edit was refused", report)]
        }
        _ => reading.check(),
    })
}

fn main() -> ExitCode {
    let words: Vec<String> = std::env::args().skip(1).collect();
    let words: Vec<&str> = words.iter().map(String::as_str).collect();
    let (root, command, log) = match words[..] {
        [root] => (root, "", ""),
        [root, command @ ("write" | "mend" | "pin")] => (root, command, ""),
        [root, "refused", log] => (root, "refused", log),
        _ => {
            eprintln!("usage: reading ROOT [write | mend | pin], or reading ROOT refused LOG");
            return ExitCode::from(2);
        }
    };
    let reports = match run(root, command, log) {
        Ok(reports) => reports,
        Err(e) => {
            eprintln!("reading: {root}: {e}");
            return ExitCode::from(2);
        }
    };
    if command == "pin" {
        return ExitCode::SUCCESS;
    }
    let (mut passed, mut failed) = (0, 0);
    for (theme, report) in reports {
        report.failures.iter().for_each(|f| println!("FAILED {f}"));
        println!("{theme}: {} passed, {} failed", report.passed, report.failures.len());
        passed += report.passed;
        failed += report.failures.len();
    }
    println!("{passed} passed, {failed} failed");
    if failed == 0 && passed > 0 { ExitCode::SUCCESS } else { ExitCode::FAILURE }
}
