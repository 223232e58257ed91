//! Plain Rust: the twin's table behind `&mut self`, with a `Vec` in a snapshot; and what only the benchmark asks of it.

#[allow(dead_code)] // it does not make every call
#[path = "../../tests/twin/src/table.rs"]
mod table;

pub use table::{Refusal, SLOTS, Table};

/// The snapshot for hosts that may not allocate: the ids in an array.
pub struct FixedSnapshot {
    pub xmin: u64,
    pub xmax: u64,
    pub ids: [u64; SLOTS],
    pub count: usize,
}

pub fn snapshot_in_array(
    table: &mut Table,
    clock: u64,
    sample: u64,
) -> Result<FixedSnapshot, Refusal> {
    table.observe(clock, sample)?;
    let mut ids = [0; SLOTS];
    let mut count = 0;
    let mut xmin = sample;
    let mut xmax = sample;
    for slot in table.slots() {
        if slot.txid != 0 {
            ids[count] = slot.txid;
            count += 1;
            xmin = xmin.min(slot.txid);
            xmax = xmax.max(slot.txid.saturating_add(1));
        }
    }
    Ok(FixedSnapshot {
        xmin,
        xmax,
        ids,
        count,
    })
}
