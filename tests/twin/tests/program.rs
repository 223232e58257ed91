//! Running programs: each way to fail is told from the others.

use std::time::Duration;
use twin::program::{Failure, Program};

fn wrong(fault: &str) -> Program {
    Program {
        path: env!("CARGO_BIN_EXE_wrong").to_string(),
        arguments: vec![fault.to_string()],
        patience: Duration::from_secs(2),
    }
}

#[test]
fn a_good_program_gives_its_output() {
    let output = wrong("none").run(b"trace=proc-1\n").unwrap();
    assert_eq!(output, b"records=0\n");
}

#[test]
fn failures_are_told_apart() {
    let run = |fault| wrong(fault).run(b"trace=proc-1\n");
    assert!(matches!(run("silent"), Err(Failure::WritesNothing)));
    assert!(matches!(run("hangs"), Err(Failure::Hangs)));
    assert!(matches!(run("fails"), Err(Failure::Exit(_))));
}

#[test]
fn a_program_that_is_not_there_fails() {
    let program = Program {
        path: "no/such/program".to_string(),
        arguments: Vec::new(),
        patience: Duration::from_secs(2),
    };
    assert!(matches!(program.run(b""), Err(Failure::CannotRun(_))));
}

#[test]
fn a_long_input_need_not_be_read() {
    let program = Program {
        path: env!("CARGO_BIN_EXE_twin").to_string(),
        arguments: Vec::new(),
        patience: Duration::from_secs(20),
    };
    let output = program.run(&vec![b'x'; 5_000_000]).unwrap();
    assert_eq!(output, b"answer=9\nat=0\n");
}
