//! The second reading agrees with the twin, until a fault is put into it.

use twin::compare::expected;
use twin::generate::generate;
use twin::second::{Fault, output};

/// The traces of 2,000 seeds, each with what has to be printed.
fn traces() -> Vec<(Vec<u8>, Vec<u8>)> {
    let texts = (1..=2_000).map(generate);
    texts.map(|text| (text.clone(), expected(&text))).collect()
}

#[test]
fn both_readings_agree() {
    for (seed, (text, expected)) in (1..).zip(traces()) {
        let output = output(&text, Fault::None);
        assert!(output.as_bytes() == expected, "seed {seed}");
    }
}

#[test]
fn every_fault_shows() {
    let (faults, traces) = (Fault::all(), traces());
    assert!(faults.len() > 100);
    for fault in faults {
        let mut traces = traces.iter();
        let shown = traces.any(|(text, expected)| output(text, fault).as_bytes() != expected);
        assert!(shown, "{} shows on no seed", fault.name());
    }
}

/// A call made wrong on purpose, in the same comparison: it doesn't agree where the fault shows.
#[test]
fn a_wrong_call_does_not_agree() {
    let traces = traces();
    for fault in Fault::of_calls() {
        let mut outputs = traces.iter().map(|(text, _)| output(text, fault));
        let seen = outputs.any(|said| said.ends_with("\nagree=0\n"));
        assert!(seen, "{} agrees on every seed", fault.name());
    }
    let right = traces.iter().map(|(text, _)| output(text, Fault::None));
    assert!(right.filter(|said| said.contains("agree=0\n")).count() == 0);
}

#[test]
fn names_are_found_again() {
    for fault in Fault::all() {
        assert_eq!(Fault::named(&fault.name()), Some(fault));
    }
    assert_eq!(Fault::named("no such fault"), None);
}
