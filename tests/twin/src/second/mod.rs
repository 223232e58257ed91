//! A second reading of the rules, slow, that takes faults on demand. Its text, table and calls are its own; from
//! the twin it takes the number of slots and the ops in their order, from the coverage the orders of checks.
//!
//! Without a fault it has to agree with the twin; with one, the comparison has to notice.

mod call;
mod faults;
mod pins;
mod read;
pub mod waits;

pub use faults::Fault;

use crate::trace::Op;
use call::Second;
use read::TRACE;
use std::fmt::Write;

/// The output for a trace, with a fault: its answers, and whether the same reading without the fault gives them too.
pub fn output(input: &[u8], fault: Fault) -> String {
    let mut out = answers(input, fault);
    let broken = read::items(input, &TRACE, fault).1.is_some();
    let lined = match fault {
        _ if fault.is("agree-under-proc-1") => !broken,
        _ if fault.is("agree-not-under-proc-3") => !broken && input.starts_with(b"trace=proc-2"),
        _ if fault.is("agree-after-9") => !input.starts_with(b"trace=proc-1"),
        _ if fault.is("agree-never-printed") => false,
        _ => !broken && !input.starts_with(b"trace=proc-1"),
    };
    if lined {
        let same = out == answers(input, Fault::None);
        let line = format!("agree={}\n", u8::from(same));
        let place = match fault {
            _ if fault.is("agree-before-records") => out.rfind("records=").unwrap_or(out.len()),
            _ => out.len(),
        };
        out.insert_str(place, &line);
    }
    out
}

/// The answers of a trace and their number, or refusal 9, with a fault.
pub fn answers(input: &[u8], fault: Fault) -> String {
    let (records, broken) = read::items(input, &TRACE, fault);
    let nine = match fault {
        _ if fault.is("holder-not-under-proc-3") => input.starts_with(b"trace=proc-2"),
        _ => !input.starts_with(b"trace=proc-1"),
    };
    let mut out = String::new();
    let mut table = Second::fresh(fault);
    let runs = broken.is_none() || fault.is("runs-before-reading");
    let mut ran = 0;
    for record in records.iter().filter(|_| runs) {
        let answer = table.run(Op::ALL[record.item], record.numbers);
        print(&answer, nine, fault, &mut out);
        ran += 1;
        if fault.is("first-record-only") || fault.is("stops-at-refusal") && answer.numbers[0] != 0 {
            break;
        }
    }
    let count = match fault {
        _ if fault.is("records-one-more") => ran + 1,
        _ if fault.is("records-accepted-only") => table.accepted,
        _ => ran,
    };
    match broken {
        None => writeln!(out, "records={count}").unwrap(),
        Some(line) => {
            write!(out, "answer=9\nat={line}\n").unwrap();
            if fault.is("records-after-9") {
                writeln!(out, "records={count}").unwrap();
            }
        }
    }
    out
}

/// The values of the eight lines but the last, the holder, and the listed ids.
struct Printed {
    numbers: [u128; 7],
    holder: u128,
    list: Vec<u128>,
}

fn print(answer: &Printed, nine: bool, fault: Fault, out: &mut String) {
    let nine = match fault {
        _ if fault.is("holder-never-printed") => false,
        _ if fault.is("holder-under-proc-1") => true,
        _ => nine,
    };
    let holder = if nine {
        format!("holder={}\n", answer.holder)
    } else {
        String::new()
    };
    let early = fault.is("holder-before-count");
    let late = fault.is("holder-after-ids");
    let keys = ["answer", "slot", "id", "seen", "xmin", "xmax", "vacuum"];
    for (key, number) in keys.iter().zip(answer.numbers) {
        writeln!(out, "{key}={number}").unwrap();
    }
    if early {
        out.push_str(&holder);
    }
    writeln!(out, "count={}", answer.list.len()).unwrap();
    if !early && !late {
        out.push_str(&holder);
    }
    for id in &answer.list {
        writeln!(out, "in={id}").unwrap();
    }
    if late {
        out.push_str(&holder);
    }
}
