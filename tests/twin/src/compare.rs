//! Comparing the program with the twin, trace by trace.

use crate::generate;
use crate::program::{Failure, Program};
use crate::replay;
use crate::shrink;
use crate::trace;
use std::fs;
use std::io;
use std::path::{Path, PathBuf};

/// The most runs of the program that making a trace small may take.
const SHRINKING_RUNS: usize = 3_000;

/// A trace on which the program differs from the twin.
pub struct Difference {
    pub text: Vec<u8>,
    pub program: Result<Vec<u8>, Failure>,
}

#[derive(Default)]
pub struct Counts {
    pub traces: u64,
    pub records: u64,
}

/// What the program has to print.
pub fn expected(text: &[u8]) -> Vec<u8> {
    let mut output = Vec::new();
    replay::replay(text, &mut output).expect("a Vec takes every byte");
    output
}

/// What a replay into a buffer has to leave there: no second engine is asked.
pub fn answers(text: &[u8]) -> Vec<u8> {
    let mut output = Vec::new();
    replay::answers(text, &mut output).expect("a Vec takes every byte");
    output
}

/// Compares on the trace of a seed, and counts it.
pub fn compare(program: &Program, seed: u64, counts: &mut Counts) -> Result<(), Difference> {
    let text = generate::generate(seed);
    counts.traces += 1;
    counts.records += trace::read(&text).map_or(0, |trace| trace.records.len() as u64);
    let output = program.run(&text);
    match output {
        Ok(output) if output == expected(&text) => Ok(()),
        program => Err(Difference { text, program }),
    }
}

/// A small trace on which the program still differs. One that can't be run or hangs
/// is not tried again and again.
pub fn smaller(program: &Program, difference: Difference) -> Difference {
    if !quickly_differs(&difference.text, &difference.program) {
        return difference;
    }
    let text = shrink::shrink(&difference.text, SHRINKING_RUNS, |text| {
        quickly_differs(text, &program.run(text))
    });
    Difference {
        program: program.run(&text),
        text,
    }
}

fn quickly_differs(text: &[u8], outcome: &Result<Vec<u8>, Failure>) -> bool {
    match outcome {
        Ok(output) => *output != expected(text),
        Err(Failure::Exit(_) | Failure::WritesNothing) => true,
        Err(Failure::CannotRun(_) | Failure::Hangs) => false,
    }
}

/// Writes the trace and both outputs, and answers the trace's path.
pub fn store(difference: &Difference, folder: &Path, name: &str) -> io::Result<PathBuf> {
    fs::create_dir_all(folder)?;
    let path = folder.join(format!("{name}.trace"));
    fs::write(&path, &difference.text)?;
    let twin = expected(&difference.text);
    fs::write(folder.join(format!("{name}.twin")), twin)?;
    if let Ok(output) = &difference.program {
        fs::write(folder.join(format!("{name}.program")), output)?;
    }
    Ok(path)
}

/// The first line in which two outputs differ, counted from 1.
pub fn first_difference(left: &[u8], right: &[u8]) -> usize {
    let newline = |byte: &u8| *byte == b'\n';
    let left_lines = left.split_inclusive(newline);
    let right_lines = right.split_inclusive(newline);
    let same = left_lines
        .zip(right_lines)
        .take_while(|(left, right)| left == right);
    same.count() + 1
}
