//! The faults that can be put into the second reading.

use crate::grounds;
use crate::trace::Op;

#[derive(Clone, Copy, Debug, PartialEq, Eq)]
pub enum Fault {
    None,
    Named(&'static str),
    /// The op makes the second check before the first.
    Order(Op, u8, u8),
    /// The op leaves a check out.
    Skip(Op, u8),
    /// The named item reads the number at a place, from 1, exactly where it should not.
    Field(&'static str, usize),
}

/// Faults in what the calls do.
const CALLS: &[&str] = &[
    "highest-slot",
    "txid-given-back",
    "xmin-least-active",
    "xmin-raised-with-xmax",
    "xmin-1",
    "xmax-least",
    "xmax-clock",
    "xmax-no-plus-1",
    "snap-raises-line",
    "snap-keeps-xmin",
    "oldest-raises-line",
    "oldest-takes-ids",
    "oldest-is-sample",
    "line-1",
    "line-falls",
    "clock-not-observed",
    "clock-takes-sample",
    "refused-observation-moves-clock",
    "own-keeps-no-xmin",
    "own-keeps-xmin-everywhere",
    "own-keeps-first-xmin",
    "begin-keeps-xmin-0",
    "begin-clock-plus-2",
    "finish-empties-all",
    "finish-ends-before-stamp",
    "finish-keeps-clock",
    "finish-keeps-slot",
    "end-moves-clock",
    "slot-after-last-inside",
    "last-slot-outside",
    "slot-low-bits",
    "number-2-64-accepted",
    "number-clock-refused",
    "jump-limit-refused",
    "jump-limit-plus-1",
    "jump-limit-wraps",
    "jump-from-line",
    "refused-jump-moves-clock",
    "observation-may-not-jump",
    "sample-against-table",
    "holder-highest",
    "holder-of-line",
    "holder-by-id",
    "holder-is-id",
    "holder-not-at-sample",
    "holder-nobody-is-0",
    "list-by-id",
    "list-one-short",
    "ids-32-bits",
];

/// Faults in what the calls do with pins.
const PINS: &[&str] = &[
    "pin-highest",
    "pin-after-the-last",
    "pin-64-taken",
    "pin-63-never-taken",
    "pin-overwrites-when-full",
    "pin-for-the-sample-alone",
    "pin-stores-for-the-sample-alone",
    "pin-shows-for-the-sample-alone",
    "pin-xmax-of-the-sample",
    "pin-for-the-line-alone",
    "pin-for-the-clock",
    "pin-stores-its-sample",
    "pin-stores-xmax",
    "pin-stores-nothing",
    "pin-stores-in-slots-too",
    "pin-raises-line",
    "pin-keeps-clock",
    "refused-pin-moves-clock",
    "unpin-keeps-pin",
    "unpin-releases-all",
    "unpin-releases-the-lowest",
    "unpin-moves-line",
    "unpin-moves-clock",
    "unpin-empties-slot",
    "unpin-by-low-bits",
    "unpin-to-64",
    "unpin-63-refused",
    "unpin-up-to-the-slots",
    "end-releases-pin",
    "oldest-without-pins",
    "vacuum-without-pins",
    "oldest-takes-free-pins",
    "snap-takes-pins",
    "holder-without-pins",
    "holder-prefers-pins",
    "holder-highest-pin",
    "holder-is-the-pin-alone",
    "holder-pin-from-1",
    "holder-after-the-slots",
];

/// Faults in what is printed.
const PRINT: &[&str] = &[
    "records-one-more",
    "records-accepted-only",
    "records-after-9",
    "agree-under-proc-1",
    "agree-never-printed",
    "agree-before-records",
    "agree-after-9",
    "runs-before-reading",
    "first-record-only",
    "stops-at-refusal",
    "holder-never-printed",
    "holder-under-proc-1",
    "holder-before-count",
    "holder-after-ids",
    "holder-elsewhere",
    "holder-on-refusal",
    "vacuum-without-holder",
    "vacuum-in-xmin",
    "vacuum-before",
    "finish-shows-slot",
    "own-shows-id",
    "refusal-1-no-id",
    "refusal-2-no-slot",
    "refusal-3-swapped",
    "refusal-3-no-seen",
    "pin-not-shown",
    "pin-shown-as-id",
    "pin-shown-as-seen",
    "pin-shown-as-holder",
    "pin-lists-none",
    "unpin-shows-pin",
    "refusal-14-shows-64",
    "refusal-15-no-slot",
    "refusal-16-no-slot",
    "refusal-16-as-id",
];

/// Faults in reading the text.
const TEXT: &[&str] = &[
    "leading-zero",
    "plus-sign",
    "empty-is-0",
    "crlf",
    "trailing-space",
    "upper-case",
    "unterminated",
    "unterminated-next-line",
    "missing-at-last-line",
    "blank-line-skipped",
    "number-wraps",
    "slot-wraps",
    "slot-unlimited",
    "unread-ignored",
    "unread-at-op",
    "unknown-op-at-next",
    "op-prefix",
    "header-unread",
    "header-alone-refused",
    "empty-accepted",
    "limit-65535",
    "limit-65537",
    "limit-after-header",
    "lines-from-0",
    "most-refused",
];

/// Faults in the versions of a trace; a wait has one version.
const VERSIONS: &[&str] = &[
    "proc-2-refused",
    "proc-3-refused",
    "proc-4-accepted",
    "pins-under-proc-1",
    "pins-under-proc-2",
    "pins-nowhere",
    "holder-not-under-proc-3",
    "agree-not-under-proc-3",
];

const NAMED: [&[&str]; 5] = [CALLS, PINS, PRINT, TEXT, VERSIONS];

impl Fault {
    /// Those of the calls themselves: what a wrong call of a table does.
    pub fn of_calls() -> Vec<Fault> {
        let names = CALLS.iter().chain(PINS);
        names.copied().map(Fault::Named).collect()
    }

    pub fn all() -> Vec<Fault> {
        let names = NAMED.concat();
        let mut faults: Vec<Fault> = names.into_iter().map(Fault::Named).collect();
        for op in Op::ALL {
            let order = grounds::order(op);
            faults.extend(order.iter().map(|number| Fault::Skip(op, *number)));
            for pair in order.windows(2) {
                faults.push(Fault::Order(op, pair[0], pair[1]));
            }
        }
        faults.push(Fault::Order(Op::Pin, 7, 14));
        for op in [Op::Pin, Op::Unpin] {
            faults.extend((1..=5).map(|place| Fault::Field(op.name(), place)));
        }
        // A begin on a full table has nothing else to do than to refuse, nor has a pin where none is free.
        let none = [Fault::Skip(Op::Begin, 1), Fault::Skip(Op::Pin, 14)];
        faults.retain(|fault| !none.contains(fault));
        faults
    }

    /// The faults in reading a text, whatever its items are.
    pub fn of_texts() -> Vec<Fault> {
        TEXT.iter().copied().map(Fault::Named).collect()
    }

    pub fn named(name: &str) -> Option<Fault> {
        if name == "none" {
            return Some(Fault::None);
        }
        Fault::all().into_iter().find(|fault| fault.name() == name)
    }

    pub fn name(self) -> String {
        match self {
            Fault::None => "none".to_string(),
            Fault::Named(name) => name.to_string(),
            Fault::Order(op, first, second) => format!("order-{}-{first}-{second}", op.name()),
            Fault::Skip(op, number) => format!("skip-{}-{number}", op.name()),
            Fault::Field(item, place) => format!("field-{item}-{place}"),
        }
    }

    pub fn is(self, name: &'static str) -> bool {
        debug_assert!(
            NAMED.iter().any(|list| list.contains(&name)),
            "no such fault: {name}"
        );
        self == Fault::Named(name)
    }

    /// The order of the op's checks, fault put in.
    pub fn order(self, op: Op) -> Vec<u8> {
        let mut order = grounds::order(op).to_vec();
        match self {
            Fault::Order(faulty, first, second) if faulty == op => {
                let place = |number| order.iter().position(|each| *each == number);
                if let (Some(first), Some(second)) = (place(first), place(second)) {
                    order.swap(first, second);
                }
            }
            Fault::Skip(faulty, number) if faulty == op => order.retain(|each| *each != number),
            _ => {}
        }
        order
    }
}
