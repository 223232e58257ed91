//! A program with a fault on demand: the comparison has to tell it from the twin.

use std::io::{self, Read, Write};
use std::process::ExitCode;
use std::time::Duration;
use twin::second::{self, Fault};

const USAGE: &str = "usage: wrong FAULT | wrong --list
FAULT is `none`, a name that --list prints, or one of silent, hangs, fails, cut.";

/// Faults of a program as a whole, with nothing wrong in its answers.
const WHOLE: [&str; 4] = ["silent", "hangs", "fails", "cut"];

fn main() -> ExitCode {
    let arguments: Vec<String> = std::env::args().skip(1).collect();
    let [name] = arguments.as_slice() else {
        eprintln!("{USAGE}");
        return ExitCode::from(2);
    };
    if name == "--list" {
        for fault in Fault::all() {
            println!("{}", fault.name());
        }
        return ExitCode::SUCCESS;
    }
    let whole = WHOLE.contains(&name.as_str());
    let fault = if whole {
        Some(Fault::None)
    } else {
        Fault::named(name)
    };
    match fault.map(|fault| answer(fault, name)) {
        Some(Ok(status)) => status,
        Some(Err(_)) => ExitCode::FAILURE,
        None => {
            eprintln!("wrong: no such fault: {name}");
            ExitCode::from(2)
        }
    }
}

fn answer(fault: Fault, name: &str) -> io::Result<ExitCode> {
    let mut input = Vec::new();
    io::stdin().lock().read_to_end(&mut input)?;
    let mut output = second::output(&input, fault);
    match name {
        "silent" => output.clear(),
        "hangs" => std::thread::sleep(Duration::from_secs(3_600)),
        "cut" => {
            output.pop();
        }
        _ => {}
    }
    io::stdout().lock().write_all(output.as_bytes())?;
    let fails = name == "fails";
    Ok(if fails {
        ExitCode::FAILURE
    } else {
        ExitCode::SUCCESS
    })
}
