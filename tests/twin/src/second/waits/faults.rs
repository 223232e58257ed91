//! The faults that can be put into the second reading of a wait.

use super::super::Fault;
use super::{CONDITIONS, ORDER};
use crate::waits::events::Kind;

#[derive(Clone, Copy, Debug, PartialEq, Eq)]
pub enum WaitFault {
    None,
    Named(&'static str),
    /// The second check is made before the first.
    Order(u8, u8),
    /// A check is left out.
    Skip(u8),
    /// The table check leaves out a condition.
    Unchecked(&'static str),
    /// The wait's text is read with this fault.
    InText(Fault),
    /// The table's text is read with this fault.
    InTable(Fault),
}

/// Faults in the rules of the events.
const STEPS: &[&str] = &[
    "horizon-to-own-id",
    "horizon-to-others",
    "horizon-to-xmins",
    "horizon-to-sample",
    "horizon-below-least",
    "horizon-unbounded",
    "horizon-never-falls",
    "horizon-from-line",
    "horizon-0",
    "horizon-of-empty",
    "horizon-of-owner",
    "horizon-keeps-xmin",
    "horizon-everywhere",
    "horizon-raises-line",
    "horizon-moves-sample",
    "lowest-slot",
    "register-into-taken",
    "register-xmin-0",
    "register-xmin-least",
    "register-keeps-clock",
    "register-clock-itself",
    "register-moves-sample",
    "end-of-empty",
    "end-of-owner",
    "end-keeps-slot",
    "end-keeps-xmin",
    "end-moves-clock",
    "end-raises-line",
    "reserve-keeps-clock",
    "reserve-clock-itself",
    "reserve-takes-slot",
    "number-2-64-accepted",
    "number-clock-refused",
    "number-below-clock",
    "number-too-far-accepted",
    "number-farthest-refused",
    "observe-keeps-clock",
    "observe-keeps-sample",
    "observe-raises-line",
    "clock-takes-sample",
    "clock-below-accepted",
    "clock-same-refused",
    "sample-0-accepted",
    "sample-above-accepted",
    "sample-against-table",
    "sample-never-falls",
    "owner-in-all",
    "nobody-is-slot-0",
    "slot-low-bits",
    "slot-after-last-inside",
    "last-slot-outside",
    "pins-released",
    "end-releases-pin",
    "register-takes-pin",
    "horizon-to-pins",
    "steps-on-entry",
    "first-event-only",
    "last-event-unchecked",
];

/// Faults in the table check, but for a condition left out.
const CHECK: &[&str] = &[
    "twice-by-xmin",
    "twice-among-neighbours",
    "check-sample-below-clock",
    "check-line-below-clock",
    "check-line-to-sample",
    "check-xmin-below-txid",
    "check-line-below-txid",
    "check-line-to-xmin",
    "check-xmin-to-least",
    "check-ids-rise",
    "check-pin-above-line",
    "check-pin-below-clock",
    "check-pin-to-sample",
    "check-pin-to-least",
    "check-pins-free",
    "check-pins-taken",
];

/// Faults in the answer.
const ANSWER: &[&str] = &[
    "steps-from-0",
    "step-is-its-line",
    "last-bad-step",
    "slot-outside-is-2",
    "end-beside-refusal",
    "end-beside-22",
    "entry-on-acceptance",
    "no-table-beside-refusal",
    "no-event-refused",
    "no-event-unchecked",
    "wait-before-table",
    "refusal-2-no-slot",
    "refusal-2-with-id",
    "refusal-3-no-slot",
    "refusal-3-no-seen",
    "refusal-3-swapped",
    "refusal-4-with-slot",
    "one-newline-less",
];

/// Faults in reading the texts, beside those that a trace's reading has too.
const TEXT: &[&str] = &[
    "trace-header-accepted",
    "table-header-unread",
    "table-lines-from-0",
    "table-tail-ignored",
    "table-may-end-early",
    "table-missing-at-last",
    "table-number-wraps",
];

/// Of a trace's faults in reading, those that a table's text can have too.
const OF_TABLES: &[&str] = &[
    "leading-zero",
    "plus-sign",
    "empty-is-0",
    "crlf",
    "trailing-space",
    "upper-case",
    "unterminated",
    "blank-line-skipped",
];

impl WaitFault {
    pub fn all() -> Vec<WaitFault> {
        let names = [STEPS, CHECK, ANSWER, TEXT].concat();
        let mut faults: Vec<WaitFault> = names.into_iter().map(WaitFault::Named).collect();
        faults.extend(CONDITIONS.map(WaitFault::Unchecked));
        faults.extend(Fault::of_texts().into_iter().map(WaitFault::InText));
        let of_tables = OF_TABLES.iter().copied().map(Fault::Named);
        faults.extend(of_tables.map(WaitFault::InTable));
        for kind in Kind::ALL {
            let fields = (1..=5).map(|place| Fault::Field(kind.name(), place));
            faults.extend(fields.map(WaitFault::InText));
        }
        for (place, first) in ORDER.iter().enumerate() {
            faults.push(WaitFault::Skip(*first));
            let later = ORDER[place + 1..].iter();
            faults.extend(later.map(|second| WaitFault::Order(*first, *second)));
        }
        faults
    }

    pub fn name(self) -> String {
        match self {
            WaitFault::None => "none".to_string(),
            WaitFault::Named(name) => name.to_string(),
            WaitFault::Order(first, second) => format!("order-{first}-{second}"),
            WaitFault::Skip(number) => format!("skip-{number}"),
            WaitFault::Unchecked(condition) => format!("unchecked-{condition}"),
            WaitFault::InText(fault) => format!("text-{}", fault.name()),
            WaitFault::InTable(fault) => format!("table-{}", fault.name()),
        }
    }

    /// A name that no list has puts no fault in, and a listed one that is not asked for shows nowhere.
    pub fn is(self, name: &'static str) -> bool {
        self == WaitFault::Named(name)
    }

    pub fn leaves_out(self, condition: &str) -> bool {
        matches!(self, WaitFault::Unchecked(name) if name == condition)
    }

    pub fn in_text(self) -> Fault {
        match self {
            WaitFault::InText(fault) => fault,
            _ => Fault::None,
        }
    }

    pub fn in_table(self) -> Fault {
        match self {
            WaitFault::InTable(fault) => fault,
            _ => Fault::None,
        }
    }

    /// The order of the checks, fault put in.
    pub fn order(self) -> Vec<u8> {
        let mut order = ORDER.to_vec();
        match self {
            WaitFault::Order(first, second) => {
                order.retain(|number| *number != second);
                let place = order.iter().position(|number| *number == first);
                order.insert(place.unwrap_or(0), second);
            }
            WaitFault::Skip(number) => order.retain(|each| *each != number),
            _ => {}
        }
        order
    }
}
