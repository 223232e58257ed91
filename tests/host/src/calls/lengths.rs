//! Runs of other lengths: 18 for the table's, then 12 for the answer's or the ids'; and nothing is written.

use crate::cells::Cells;
use crate::plain;
use crate::runs::Runs;
use twin::random::Random;
use twin::table::{SLOTS, Table};
use twin::trace::{Op, Record};

/// One length too short or too long, or two.
fn other(length: usize, random: &mut Random) -> usize {
    random.pick(&[length - 1, length + 1, 0, 1, 3, length / 2, 2 * length])
}

fn less(length: usize, random: &mut Random) -> usize {
    random.pick(&[length - 1, 0, 1, length / 2])
}

/// Whether a call with runs of other lengths answers as SPEC 20.2 has it.
pub fn refused(before: &Runs, record: &Record, random: &mut Random, cells: &mut Cells) -> bool {
    let shows = matches!(record.op, Op::Snap | Op::Own | Op::Pin);
    let mut table = before.table().to_vec();
    let (bad_table, bad_out) = (random.once_in(2), random.once_in(2));
    let bad_ids = shows && random.once_in(2);
    if bad_table {
        table.resize(other(table.len(), random), 3);
    }
    let out = if bad_out { less(8, random) } else { 8 };
    let ids = if bad_ids { less(SLOTS, random) } else { SLOTS };
    let expected = match (bad_table, bad_out, bad_ids) {
        (true, _, _) => 18,
        (false, false, false) => return true,
        _ => 12,
    };
    cells.put(match (bad_table, bad_out, bad_ids) {
        (true, false, false) => "18 alone",
        (true, ..) => "18 before 12",
        (false, true, false) => "12 for out",
        (false, false, true) => "12 for ids",
        _ => "12 for both",
    });
    let mut runs = Runs::with(&table, out, ids);
    let kept = runs.clone();
    runs.call(record) == expected && runs == kept
}

/// Whether the fresh table and the check answer as SPEC 20.3 has it.
pub fn checks(runs: &Runs, passes: bool, random: &mut Random) -> bool {
    let mut made = runs.clone();
    let mut expected = runs.clone();
    expected
        .table_mut()
        .copy_from_slice(&plain::words(&Table::fresh()));
    let checked = runs.check() == passes.into() && made.fresh() == 0 && made == expected;
    let mut table = runs.table().to_vec();
    table.resize(other(table.len(), random), 3);
    let mut short = Runs::with(&table, 8, SLOTS);
    let kept = short.clone();
    checked && short.check() == 18 && short.fresh() == 18 && short == kept
}
