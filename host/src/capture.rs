//! A run as it was made, kept as the numbers of each call and written as a trace (docs/TRACE.md, docs/SPEC.md, 9).
#![forbid(unsafe_code)]

use crate::{PinNo, Registration, Stamp};
use std::fmt::Write;

/// A trace has at most so many bytes, and so at most so many records.
const LONGEST: usize = 65_536;
const MOST: usize = 1_489;

/// A call with what it was handed.
#[derive(Clone, Copy)]
pub(crate) enum Call {
    Begin(Stamp),
    End(Registration),
    Snapshot(u64),
    TransactionSnapshot(Registration, u64),
    Oldest(u64),
    /// clock and sample
    Vacuum(u64, u64),
    Stamp(Stamp),
    Finish(Registration, Stamp),
    Pin(u64),
    Unpin(PinNo),
}

/// The name of an op, then slot, id, stamp, clock and sample.
type Row = (&'static str, [u64; 5]);

impl Call {
    /// A clock stands for its sample too, where it has no other.
    fn row(self) -> Row {
        let registered = |of: Registration| (u64::from(of.slot.0), of.id.0);
        match self {
            Call::Begin(number) => ("begin", [0, 0, number.0, 0, 0]),
            Call::End(of) => {
                let (slot, id) = registered(of);
                ("end", [slot, id, 0, 0, 0])
            }
            Call::Snapshot(clock) => ("snap", [0, 0, 0, clock, clock]),
            Call::TransactionSnapshot(of, clock) => {
                let (slot, id) = registered(of);
                ("own", [slot, id, 0, clock, clock])
            }
            Call::Oldest(clock) => ("oldest", [0, 0, 0, clock, clock]),
            Call::Vacuum(clock, sample) => ("vacuum", [0, 0, 0, clock, sample]),
            Call::Stamp(number) => ("stamp", [0, 0, number.0, 0, 0]),
            Call::Finish(of, number) => {
                let (slot, id) = registered(of);
                ("finish", [slot, id, number.0, 0, 0])
            }
            Call::Pin(clock) => ("pin", [0, 0, 0, clock, clock]),
            Call::Unpin(pin) => ("unpin", [pin.0.into(), 0, 0, 0, 0]),
        }
    }
}

/// The calls of a run from its beginning on, as many as a trace may have.
#[derive(Clone)]
pub(crate) struct Capture(Vec<Call>);

impl Capture {
    /// All its room is made here, so that keeping a call allocates nothing.
    pub(crate) fn new() -> Self {
        Capture(Vec::with_capacity(MOST))
    }

    /// What has no room is not kept: the beginning of a run is a run, its end is not.
    #[inline]
    pub(crate) fn keep(&mut self, call: Call) {
        if self.0.len() < MOST {
            self.0.push(call);
        }
    }

    /// Six lines a call, as long as they have room in a trace.
    pub(crate) fn text(&self) -> String {
        let mut text = String::from("trace=proc-3\n");
        for call in &self.0 {
            let whole = text.len();
            let (op, [slot, id, stamp, clock, sample]) = call.row();
            let _ = write!(
                text,
                "op={op}\nslot={slot}\nid={id}\nstamp={stamp}\nclock={clock}\nsample={sample}\n"
            );
            if text.len() > LONGEST {
                text.truncate(whole);
                break;
            }
        }
        text
    }
}
