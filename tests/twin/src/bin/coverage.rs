//! Counts what the traces of COUNT seeds reach; fails if a cell is missed.

use std::process::ExitCode;
use twin::coverage::Coverage;

fn main() -> ExitCode {
    let arguments: Vec<String> = std::env::args().skip(1).collect();
    let numbers: Vec<u64> = arguments.iter().flat_map(|text| text.parse()).collect();
    let (&[from, count], 2) = (numbers.as_slice(), arguments.len()) else {
        eprintln!("usage: coverage FROM COUNT");
        return ExitCode::from(2);
    };
    let mut coverage = Coverage::new();
    for seed in from..from.saturating_add(count) {
        coverage.add(&twin::generate::generate(seed));
    }
    print!("{coverage}");
    if coverage.is_complete() {
        ExitCode::SUCCESS
    } else {
        ExitCode::FAILURE
    }
}
