//! What a call has to answer and to leave, by the twin's table and SPEC 20 alone.

use crate::runs::Runs;
use twin::replay::{self, Answer};
use twin::table::Table;
use twin::trace::Record;

/// The words of a table, SPEC 20.1.
pub fn words(table: &Table) -> Vec<u64> {
    let slots = table.slots();
    let txids = slots.iter().map(|slot| slot.txid);
    let xmins = slots.iter().map(|slot| slot.snapshot_xmin);
    let pins = table.pins().iter().copied();
    let counters = [table.clock(), table.sampled_clock(), table.vacuum_line()];
    txids.chain(xmins).chain(pins).chain(counters).collect()
}

/// The number, and all runs after the call.
pub struct Expected {
    pub number: u64,
    pub runs: Runs,
    pub told: Answer,
}

impl Expected {
    /// Makes the call on the twin's table; `before` are the runs as the library will be lent them.
    pub fn of(table: &mut Table, record: &Record, before: &Runs) -> Expected {
        let told = replay::run(table, record);
        let mut runs = before.clone();
        runs.table_mut().copy_from_slice(&words(table));
        let numbers = [
            told.slot,
            told.id,
            told.seen,
            told.xmin,
            told.xmax,
            told.vacuum,
            told.in_flight.len() as u64,
            told.holder,
        ];
        runs.out_mut()[..8].copy_from_slice(&numbers);
        runs.ids_mut()[..told.in_flight.len()].copy_from_slice(&told.in_flight);
        Expected {
            number: told.number.into(),
            runs,
            told,
        }
    }
}
