//! What the batches reach: every kind of version, every refusal, every pair that the order decides.

use super::{Batch, decide, fault, goes};
use std::collections::BTreeMap;

/// How often each cell was reached; a cell that is 0 fails.
pub struct Cells {
    pub counts: BTreeMap<&'static str, u64>,
}

/// A cell by its name, and whether a batch reaches it.
type Cell = (&'static str, fn(&Batch) -> bool);

const ALL: [Cell; 27] = [
    ("goes", |b| good(b, |line, [_, e]| goes(line, e))),
    ("goes, ended by its maker", |b| {
        good(b, |line, [m, e]| e == m && e < line)
    }),
    ("goes, one below the line", |b| {
        good(b, |line, [_, e]| e != 0 && e.checked_add(1) == Some(line))
    }),
    ("stays, alive", |b| good(b, |_, [_, e]| e == 0)),
    ("stays, alive and made below the line", |b| {
        good(b, |line, [m, e]| e == 0 && m < line)
    }),
    ("stays, ended at the line", |b| {
        good(b, |line, [_, e]| e == line && line != 0)
    }),
    ("stays, ended above the line", |b| {
        good(b, |line, [_, e]| e > line)
    }),
    ("stays, ended above, made below the line", |b| {
        good(b, |line, [m, e]| m < line && e >= line)
    }),
    ("stays, ended by its maker", |b| {
        good(b, |line, [m, e]| e == m && e >= line)
    }),
    ("numbers on both sides of 2^63", |b| {
        good(b, |line, [_, e]| e != 0 && (e >> 63) != (line >> 63))
    }),
    ("line 0", |b| good(b, |line, _| line == 0)),
    ("line 1", |b| good(b, |line, _| line == 1)),
    ("the largest line", |b| good(b, |line, _| line == u64::MAX)),
    ("no versions", |b| b.versions.is_empty()),
    ("a run exactly as long", |b| {
        decide(b).is_ok() && b.room == b.versions.len() && b.room > 0
    }),
    ("places past the versions", |b| {
        decide(b).is_ok() && b.room > b.versions.len() && !b.versions.is_empty()
    }),
    ("12, all good", |b| {
        short(b) && b.versions.iter().all(|&v| fault(v).is_none())
    }),
    ("12 before 4", |b| short(b) && has(b, 0, 4)),
    ("12 before 17", |b| short(b) && has(b, 0, 17)),
    ("12 by one place", |b| b.room + 1 == b.versions.len()),
    ("4 at the first place", |b| decide(b) == Err((4, 0))),
    ("17 at the first place", |b| decide(b) == Err((17, 0))),
    ("4 with an ender", |b| {
        refused(b, 4).is_some_and(|i| b.versions[i][1] != 0)
    }),
    ("4 before a later 17", |b| {
        refused(b, 4).is_some_and(|i| has(b, i + 1, 17))
    }),
    ("17 before a later 4", |b| {
        refused(b, 17).is_some_and(|i| has(b, i + 1, 4))
    }),
    ("one bad version before another of its kind", |b| {
        [4, 17]
            .into_iter()
            .any(|n| refused(b, n).is_some_and(|i| has(b, i + 1, n)))
    }),
    ("a refusal after versions that would go", |b| {
        let place = refused(b, 4).or(refused(b, 17)).unwrap_or(0);
        b.versions[..place].iter().any(|&[_, e]| goes(b.line, e))
    }),
];

/// The batch is decided, and some version of it is of this kind.
fn good(batch: &Batch, kind: fn(u64, [u64; 2]) -> bool) -> bool {
    decide(batch).is_ok() && batch.versions.iter().any(|&v| kind(batch.line, v))
}

fn short(batch: &Batch) -> bool {
    batch.room < batch.versions.len()
}

/// Some version from this place on is bad by this number.
fn has(batch: &Batch, from: usize, number: u64) -> bool {
    batch.versions[from..]
        .iter()
        .any(|&v| fault(v) == Some(number))
}

/// The place of the version by which the batch is refused.
fn refused(batch: &Batch, number: u64) -> Option<usize> {
    match decide(batch) {
        Err((given, place)) if given == number => Some(place),
        _ => None,
    }
}

impl Default for Cells {
    fn default() -> Self {
        Cells {
            counts: ALL.iter().map(|&(name, _)| (name, 0)).collect(),
        }
    }
}

impl Cells {
    pub fn count(&mut self, batch: &Batch) {
        for (name, reaches) in ALL {
            if reaches(batch) {
                *self.counts.entry(name).or_default() += 1;
            }
        }
    }
}
