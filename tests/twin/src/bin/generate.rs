//! Writes the trace of a seed to standard output.

use std::io::{self, Write};
use std::process::ExitCode;

fn main() -> ExitCode {
    let arguments: Vec<String> = std::env::args().skip(1).collect();
    let [seed] = arguments.as_slice() else {
        eprintln!("usage: generate SEED");
        return ExitCode::from(2);
    };
    let Ok(seed) = seed.parse() else {
        eprintln!("generate: the seed is not a number: {seed}");
        return ExitCode::from(2);
    };
    let trace = twin::generate::generate(seed);
    match io::stdout().lock().write_all(&trace) {
        Ok(()) => ExitCode::SUCCESS,
        Err(_) => ExitCode::FAILURE,
    }
}
