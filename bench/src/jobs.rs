//! The rounds of each job over plain Rust, with the checksums that crates/bench makes over the proved calls.

use crate::plain::{SLOTS, Table, snapshot_in_array};

/// All slots begin in order, then those end that the layout leaves empty.
fn half_full(layout: u64) -> Table {
    let mut table = Table::fresh();
    for id in 1..=SLOTS as u64 {
        table.begin(id).unwrap();
    }
    for at in 0..SLOTS {
        let taken = if layout == 0 {
            at < SLOTS / 2
        } else {
            at % 2 == 0
        };
        if !taken {
            table.end(at as u16, at as u64 + 1).unwrap();
        }
    }
    table
}

#[inline(never)]
pub extern "C" fn begin_end(layout: u64, rounds: u64) -> u64 {
    let mut table = half_full(layout);
    let mut sum = 0u64;
    for _ in 0..rounds {
        let txid = table.clock();
        let Ok(slot) = table.begin(txid) else {
            continue;
        };
        if table.end(slot as u16, txid).is_ok() {
            sum = sum.wrapping_add(slot as u64).wrapping_add(txid);
        }
    }
    sum
}

#[inline(never)]
pub extern "C" fn snapshot(layout: u64, rounds: u64) -> u64 {
    let mut table = half_full(layout);
    let mut sum = 0u64;
    for round in 1..=rounds {
        let clock = table.clock().saturating_add(1);
        let Ok(s) = table.snapshot(clock, clock) else {
            continue;
        };
        let place = s.in_flight.get(round as usize % SLOTS);
        sum = sum
            .wrapping_add(s.xmin)
            .wrapping_add(s.xmax)
            .wrapping_add(s.in_flight.len() as u64)
            .wrapping_add(place.copied().unwrap_or(0));
    }
    sum
}

#[inline(never)]
pub extern "C" fn fixed_snapshot(layout: u64, rounds: u64) -> u64 {
    let mut table = half_full(layout);
    let mut sum = 0u64;
    for round in 1..=rounds {
        let clock = table.clock().saturating_add(1);
        let Ok(s) = snapshot_in_array(&mut table, clock, clock) else {
            continue;
        };
        let place = s.ids[round as usize % SLOTS];
        sum = sum
            .wrapping_add(s.xmin)
            .wrapping_add(s.xmax)
            .wrapping_add(s.count as u64)
            .wrapping_add(place);
    }
    sum
}

#[inline(never)]
pub extern "C" fn oldest(layout: u64, rounds: u64) -> u64 {
    let mut table = half_full(layout);
    let mut sum = 0u64;
    for _ in 0..rounds {
        let clock = table.clock().saturating_add(1);
        let Ok(oldest) = table.oldest_snapshot_xmin(clock, clock) else {
            continue;
        };
        sum = sum.wrapping_add(oldest.xmin).wrapping_add(oldest.holder);
    }
    sum
}
