//! The grounds of each refusal taken one by one, and the order that decides among them.

use crate::table::{FARTHEST, PINS, SLOTS, Table};
use crate::trace::{Op, Record};

/// The order of checks of each op, as SPEC 3.2 lists it.
pub fn order(op: Op) -> &'static [u8] {
    match op {
        Op::Begin => &[5, 6, 13, 1],
        Op::End => &[2, 4, 3],
        Op::Own => &[2, 4, 3, 7, 8],
        Op::Snap | Op::Oldest | Op::Vacuum => &[7, 8],
        Op::Stamp => &[5, 6, 13],
        Op::Finish => &[2, 4, 3, 5, 6, 13],
        Op::Pin => &[7, 8, 14],
        Op::Unpin => &[15, 16],
    }
}

/// Whether both grounds can hold at once: no number is above a clock of 2^64 - 1.
pub fn together(first: u8, second: u8) -> bool {
    (first, second) != (5, 13)
}

/// The refusals of the op whose ground holds, whether or not an earlier one does too.
pub fn holding(table: &Table, record: &Record) -> Vec<u8> {
    let numbers = order(record.op).iter().copied();
    numbers
        .filter(|&number| holds(number, table, record))
        .collect()
}

fn holds(number: u8, table: &Table, record: &Record) -> bool {
    let slot = usize::from(record.slot);
    match number {
        1 => table.slots().iter().all(|slot| slot.txid != 0),
        2 => slot >= SLOTS,
        // A slot outside the table holds none.
        3 => {
            let held = table.slots().get(slot).map_or(0, |slot| slot.txid);
            held == 0 || held != record.id
        }
        4 => record.id == 0,
        5 => table.clock() == u64::MAX,
        6 => {
            let fit = table.clock().max(1)..u64::MAX;
            !fit.contains(&record.stamp)
        }
        7 => record.clock < table.clock(),
        8 => !(1..=record.clock).contains(&record.sample),
        13 => u128::from(record.stamp) > u128::from(table.clock()) + u128::from(FARTHEST),
        14 => table.pins().iter().all(|xmin| *xmin != 0),
        15 => slot >= PINS,
        // A pin outside the table holds nothing.
        16 => table.pins().get(slot).is_none_or(|xmin| *xmin == 0),
        _ => unreachable!("no op gives refusal {number}"),
    }
}
