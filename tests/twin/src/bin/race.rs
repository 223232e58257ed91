//! Times a program against the plain replay and the one tuned by hand, on traces of about 64 KiB.

use std::hint::black_box;
use std::path::Path;
use std::process::ExitCode;
use std::{fs, io};
use twin::race;
use twin::race_table::{HEADING, Lanes, Row};
use twin::race_traces::{self, RaceTrace};
use twin::{compare, linked, replay, tuned};

const USAGE: &str = "usage: race PROGRAM TOOLS [RUNS]
Times PROGRAM, TOOLS/twin and TOOLS/tuned on the same traces, RUNS times each in turn (default 31).";

/// Where the traces are put for the programs to read.
const FOLDER: &str = "target/race";

fn main() -> ExitCode {
    let arguments: Vec<String> = std::env::args().skip(1).collect();
    let (program, tools, runs) = match arguments.as_slice() {
        [program, tools] => (program, tools, Ok(31)),
        [program, tools, runs] => (program, tools, runs.parse::<usize>()),
        _ => {
            eprintln!("{USAGE}");
            return ExitCode::from(2);
        }
    };
    let Some(runs) = runs.ok().filter(|runs| *runs > 0) else {
        eprintln!("{USAGE}");
        return ExitCode::from(2);
    };
    match inside(runs).and_then(|()| whole_processes(program, tools, runs)) {
        Ok(()) => ExitCode::SUCCESS,
        Err(error) => {
            eprintln!("race: {error}");
            ExitCode::FAILURE
        }
    }
}

const CELLS: &str = "A cell is the median (the least; the quartiles), a ratio that of the medians \
    (of the least).\n";

fn whole_processes(program: &str, tools: &str, runs: usize) -> io::Result<()> {
    println!("\nWhole processes, microseconds, {runs} runs each in turn:");
    println!("standard input is a file, all of standard output is read through a pipe.");
    println!("{CELLS}\n{HEADING}");
    let (plain, tuned) = (format!("{tools}/twin"), format!("{tools}/tuned"));
    fs::create_dir_all(FOLDER)?;
    let mut out = Vec::new();
    for trace in race_traces::all() {
        let file = Path::new(FOLDER).join(format!("{}.trace", trace.name));
        fs::write(&file, &trace.text)?;
        // the tuned replay has no second engine
        let expected = compare::expected(&trace.text);
        let answers = compare::answers(&trace.text);
        let mut lanes = Lanes::default();
        let Lanes {
            plain: plains,
            tuned: tuneds,
            ours,
        } = &mut lanes;
        let ours = ours.insert(Default::default());
        for _ in 0..runs {
            let programs = [
                (&*plain, &mut *plains, &expected),
                (&*tuned, &mut *tuneds, &answers),
                (program, &mut *ours, &expected),
            ];
            for (path, times, expected) in programs {
                times.add(race::whole_process(path, &file, &mut out)?);
                same(&trace, path, &out, expected)?;
            }
        }
        row(&trace, expected.len(), &lanes);
    }
    Ok(())
}

fn inside(runs: usize) -> io::Result<()> {
    println!(
        "Inside one process, microseconds, {runs} runs each in turn: bytes in to bytes out, into buffers"
    );
    println!(
        "prepared before the clock starts: plain a Vec with room, tuned and ours a slice, all of it written."
    );
    println!("{CELLS}\n{HEADING}");
    for trace in race_traces::all() {
        let expected = compare::answers(&trace.text);
        let mut buffers = Buffers::of(expected.len());
        let mut lanes = Lanes::default();
        for _ in 0..runs {
            buffers.run(&trace, &expected, &mut lanes)?;
        }
        row(&trace, expected.len(), &lanes);
    }
    Ok(())
}

/// Where the outputs go; both kinds keep their memory from run to run.
struct Buffers {
    room: Vec<u8>,
    slice: Vec<u8>,
}

impl Buffers {
    fn of(length: usize) -> Buffers {
        Buffers {
            room: Vec::with_capacity(length),
            // the program asks for a record's most room before it writes it, and so does the tuned replay
            slice: vec![1; length + tuned::ROOM.max(65_536)],
        }
    }

    /// Times each once, and compares what it wrote.
    fn run(&mut self, trace: &RaceTrace, expected: &[u8], lanes: &mut Lanes) -> io::Result<()> {
        let Buffers { room, slice } = self;
        // what takes less than the clock can tell is done often
        let turns = if trace.text.len() < 1_024 { 1_000 } else { 1 };
        let mut length = 0;
        lanes.plain.add(race::in_a_row(turns, || {
            room.clear();
            replay::answers(black_box(&trace.text), black_box(&mut *room))
                .expect("memory takes all");
        }));
        same(trace, "plain", room, expected)?;
        lanes.tuned.add(race::in_a_row(turns, || {
            let written = tuned::replay(black_box(&trace.text), black_box(&mut *slice));
            length = written.unwrap_or_default();
        }));
        same(trace, "tuned", &slice[..length], expected)?;
        let mut linked = false;
        let time = race::in_a_row(turns, || {
            let written = linked::replay(black_box(&trace.text), black_box(&mut *slice));
            linked = written.is_some();
            length = written.unwrap_or_default();
        });
        if linked {
            same(trace, "ours", &slice[..length], expected)?;
            lanes.ours.get_or_insert_default().add(time);
        }
        Ok(())
    }
}

fn same(trace: &RaceTrace, who: &str, output: &[u8], expected: &[u8]) -> io::Result<()> {
    if output == expected {
        return Ok(());
    }
    let name = &trace.name;
    Err(io::Error::other(format!(
        "{who} prints otherwise on: {name}"
    )))
}

fn row(trace: &RaceTrace, bytes_out: usize, lanes: &Lanes) {
    let (name, bytes_in) = (&*trace.name, trace.text.len());
    println!(
        "{}",
        Row {
            name,
            bytes_in,
            bytes_out,
            lanes
        }
    );
}
