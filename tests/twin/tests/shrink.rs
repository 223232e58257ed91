//! Shrinking: what matters stays, the rest goes.

use twin::shrink::shrink;
use twin::trace::{Op, read};
use twin::{generate::generate, replay, table::Table};

/// Whether the trace has a finish refused by 3 with another id in the slot.
fn shows(text: &[u8]) -> bool {
    let Ok(trace) = read(text) else {
        return false;
    };
    let mut table = Table::fresh();
    trace.records.iter().any(|record| {
        let answer = replay::run(&mut table, record);
        record.op == Op::Finish && answer.number == 3 && answer.seen != 0
    })
}

#[test]
fn a_long_trace_becomes_two_records() {
    let seed = (1..).find(|seed| shows(&generate(*seed))).unwrap();
    let text = generate(seed);
    let small = shrink(&text, 10_000, shows);
    assert!(shows(&small));
    assert_eq!(read(&small).unwrap().records.len(), 2);
}

#[test]
fn bytes_go_too() {
    let small = shrink(b"one\ntwo\nthree x four\n", 1_000, |text| {
        text.contains(&b'x')
    });
    assert_eq!(small, b"x");
}

#[test]
fn no_tries_no_change() {
    assert_eq!(shrink(b"abc", 0, |_| true), b"abc");
}
