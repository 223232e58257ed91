//! The two texts of the second reading.

use super::super::read::{self, Grammar, Line6};
use super::WaitFault;
use crate::table::SLOTS;

/// How many pins stand between the slots and the counters.
pub const PINS: usize = 64;

/// The wait's, with the events in their order.
const WAIT: Grammar = Grammar {
    headers: &[("wait=proc-1", 5)],
    keys: ["event=", "slot=", "id=", "xmin=", "clock=", "sample="],
    items: &[
        ("register", [true, true, false, false, false]),
        ("end", [true, false, false, false, false]),
        ("horizon", [true, false, true, false, false]),
        ("reserve", [false, true, false, false, false]),
        ("observe", [false, false, false, true, true]),
    ],
    most: 1_424,
};

/// The same with a trace's header.
const TRACE_HEADED: Grammar = Grammar {
    headers: &[("trace=proc-1", 5)],
    ..WAIT
};

/// The complete events, and the line that breaks a rule if one does.
pub fn events(input: &[u8], fault: WaitFault) -> (Vec<Line6>, Option<usize>) {
    let as_trace = fault.is("trace-header-accepted") && input.starts_with(b"trace=proc-1\n");
    let grammar = if as_trace { &TRACE_HEADED } else { &WAIT };
    read::items(input, grammar, fault.in_text())
}

/// The keys of a table's text after its first line, each with its sign.
pub fn keys(slots: usize) -> Vec<&'static str> {
    let mut keys = ["txid=", "xmin="].repeat(slots);
    keys.extend(["pin="; PINS]);
    keys.extend(["clock=", "sample=", "line="]);
    keys
}

pub fn fresh() -> Vec<u128> {
    let mut numbers = vec![0; 2 * SLOTS + PINS];
    numbers.extend([1; 3]);
    numbers
}

/// The numbers of a table's text, or the line that breaks a rule.
pub fn table(input: &[u8], fault: WaitFault) -> Result<Vec<u128>, usize> {
    let read = judged(input, fault);
    let shift = usize::from(fault.is("table-lines-from-0"));
    read.map_err(|line| line - shift)
}

fn judged(input: &[u8], fault: WaitFault) -> Result<Vec<u128>, usize> {
    let keys = keys(SLOTS);
    let (lines, rest) = read::split(input, fault.in_table());
    let mut numbers = Vec::new();
    for (place, line) in lines.iter().enumerate() {
        if place > keys.len() {
            let rest_is_idle = fault.is("table-tail-ignored");
            return if rest_is_idle {
                Ok(numbers)
            } else {
                Err(place + 1)
            };
        }
        if place == 0 {
            let header = line == b"table=proc-1" || fault.is("table-header-unread");
            header.then_some(()).ok_or(1_usize)?;
            continue;
        }
        let digits = line.strip_prefix(keys[place - 1].as_bytes());
        let number = digits.and_then(|digits| read::decimal(digits, fault.in_table()));
        numbers.push(held(number.ok_or(place + 1)?, fault).ok_or(place + 1)?);
    }
    let short = lines.len() <= keys.len() && !fault.is("table-may-end-early");
    if short || rest && !fault.is("table-tail-ignored") {
        let early = fault.is("table-missing-at-last") && !lines.is_empty() && !rest;
        return Err(lines.len() + 1 - usize::from(early));
    }
    numbers.extend(fresh().split_off(numbers.len()));
    Ok(numbers)
}

/// A number in its range.
fn held(number: u128, fault: WaitFault) -> Option<u128> {
    let top = u128::from(u64::MAX);
    match fault {
        _ if fault.is("table-number-wraps") => Some(number & top),
        _ => Some(number).filter(|number| *number <= top),
    }
}
