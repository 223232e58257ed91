//! The second reading of a wait: all grounds for a refusal first, and then the order chooses among them.
//!
//! A table is one list of numbers here, as its text has them: each slot's two, then the pins, then clock, sample and line.

mod faults;
mod passes;
mod read;
mod steps;

pub use faults::WaitFault;
pub use passes::CONDITIONS;

use crate::table;
use crate::waits::check::{Owner, Wait};
use std::fmt::Write;
use steps::Ran;

/// The order of the checks, SPEC 3.2.
pub const ORDER: [u8; 6] = [9, 21, 2, 4, 3, 22];

/// The report on a wait, with a fault.
pub fn report(wait: &Wait, fault: WaitFault) -> Vec<u8> {
    let (events, broken) = read::events(&wait.text, fault);
    let entry = match read::table(&wait.table, fault) {
        Ok(entry) => entry,
        Err(_) if fault.is("wait-before-table") && broken.is_some() => read::fresh(),
        Err(line) => return printed([9, 0, 0, 0, line as u128], None, fault),
    };
    let ran = steps::run(&entry, wait.owner, &events, fault);
    let grounds = Grounds {
        entry: &entry,
        owner: wait.owner,
        broken,
        events: events.len(),
        ran: &ran,
        fault,
    };
    let order = fault.order();
    let refusal = order.into_iter().find_map(|number| grounds.refusal(number));
    let table = match refusal {
        None if fault.is("entry-on-acceptance") => Some(&entry),
        None => Some(&ran.table),
        Some(_) if fault.is("no-table-beside-refusal") => None,
        Some(_) if fault.is("end-beside-refusal") => Some(&ran.table),
        Some([22, ..]) if fault.is("end-beside-22") => Some(&ran.table),
        Some(_) => Some(&entry),
    };
    printed(refusal.unwrap_or_default(), table, fault)
}

struct Grounds<'a> {
    entry: &'a [u128],
    owner: Owner,
    broken: Option<usize>,
    events: usize,
    ran: &'a Ran,
    fault: WaitFault,
}

impl Grounds<'_> {
    /// The five numbers of a refusal where its ground holds, whatever else holds.
    fn refusal(&self, number: u8) -> Option<[u128; 5]> {
        let fault = self.fault;
        let (slot, id) = self.owner.unwrap_or_default();
        let (slot, id) = (u128::from(slot), u128::from(id));
        let owned = self.owner.is_some();
        let idle = fault.is("no-event-unchecked") && self.events == 0;
        let held = self.held(slot);
        let unless = |name, number| if fault.is(name) { 0 } else { number };
        match number {
            9 => self.broken.map(|line| [9, 0, 0, 0, line as u128]),
            _ if idle => None,
            21 => (!passes::passes(self.entry, fault)).then_some([21, 0, 0, 0, 0]),
            2 => {
                let shown = if fault.is("refusal-2-with-id") { id } else { 0 };
                let outside = owned && slot >= table::SLOTS as u128;
                outside.then_some([2, unless("refusal-2-no-slot", slot), shown, 0, 0])
            }
            4 => {
                let shown = if fault.is("refusal-4-with-slot") {
                    slot
                } else {
                    0
                };
                (owned && id == 0).then_some([4, shown, 0, 0, 0])
            }
            3 => {
                let (wanted, seen) = match fault {
                    _ if fault.is("refusal-3-swapped") => (held, id),
                    _ => (id, unless("refusal-3-no-seen", held)),
                };
                let slot = unless("refusal-3-no-slot", slot);
                (owned && held != id).then_some([3, slot, wanted, seen, 0])
            }
            _ => self.step(),
        }
    }

    /// What the slot holds; one outside the table holds none.
    fn held(&self, slot: u128) -> u128 {
        let inside = slot < table::SLOTS as u128;
        if inside {
            self.entry[2 * slot as usize]
        } else {
            0
        }
    }

    fn step(&self) -> Option<[u128; 5]> {
        let fault = self.fault;
        let none = fault.is("no-event-refused") && self.events == 0;
        let step = match fault {
            _ if fault.is("last-bad-step") => self.ran.bad.last(),
            _ => self.ran.bad.first(),
        };
        let step = step.copied().or(none.then_some(0))? as u128;
        let told = match fault {
            _ if fault.is("steps-from-0") => step - 1,
            _ if fault.is("step-is-its-line") => 6 * step - 4,
            _ => step,
        };
        match self.ran.outside {
            Some(slot) if fault.is("slot-outside-is-2") => Some([2, slot, 0, 0, 0]),
            _ => Some([22, 0, 0, 0, told]),
        }
    }
}

fn printed(numbers: [u128; 5], table: Option<&Vec<u128>>, fault: WaitFault) -> Vec<u8> {
    let mut out = String::new();
    let keys = ["answer", "slot", "id", "seen", "at"];
    for (key, number) in keys.iter().zip(numbers) {
        writeln!(out, "{key}={number}").unwrap();
    }
    if let Some(table) = table {
        out.push_str("table=proc-1\n");
        for (key, number) in read::keys(table::SLOTS).iter().zip(table) {
            writeln!(out, "{key}{number}").unwrap();
        }
    }
    if fault.is("one-newline-less") {
        out.pop();
    }
    out.into_bytes()
}
