//! Entry tables: reached by calls, written so that they pass the check, and damaged in one of its conditions.

use crate::generate;
use crate::random::Random;
use crate::table::{PINS, SLOTS, Slot, Table};

/// A table that passes the check.
pub fn good(random: &mut Random) -> Table {
    match random.below(8) {
        0 => Table::fresh(),
        1..=3 => generate::table(random),
        4 => vacated(random),
        _ => written(random),
    }
}

/// A table in the making.
struct Draft {
    slots: [Slot; SLOTS],
    pins: [u64; PINS],
    clock: u64,
    sample: u64,
    line: u64,
}

impl Draft {
    fn of(table: &Table) -> Draft {
        let mut slots = [Slot::default(); SLOTS];
        slots.copy_from_slice(table.slots());
        let mut pins = [0; PINS];
        pins.copy_from_slice(table.pins());
        Draft {
            slots,
            pins,
            clock: table.clock(),
            sample: table.sampled_clock(),
            line: table.vacuum_line(),
        }
    }

    fn table(&self) -> Table {
        let Draft { slots, pins, .. } = *self;
        Table::of(slots, pins, self.clock, self.sample, self.line)
    }

    /// Places of the slots that are taken, or of those that are not.
    fn places(&self, taken: bool) -> Vec<usize> {
        let fits = |place: &usize| (self.slots[*place].txid != 0) == taken;
        (0..SLOTS).filter(fits).collect()
    }
}

/// All slots empty, and the counters at their edges; pins at theirs.
fn vacated(random: &mut Random) -> Table {
    let clock = random.pick(&[1, 2, 5, 1 << 32, u64::MAX - 1, u64::MAX]);
    let sample = random.pick(&[1, clock, clock.div_ceil(2)]);
    let line = random.pick(&[1, clock, clock.div_ceil(2)]);
    let draft = Draft {
        slots: [Slot::default(); SLOTS],
        pins: pins(line, clock, random),
        clock,
        sample,
        line,
    };
    draft.table()
}

/// A table that passes and that calls need not lead to: any slots, ids in any order, xmins of no snapshot.
fn written(random: &mut Random) -> Table {
    // From the last of these on there is room for the ids of a full table.
    let line = random.pick(&[1, 1, 7, 100, 1 << 32, u64::MAX - 4 * SLOTS as u64]);
    let count = match random.below(6) {
        0 => SLOTS,
        1 => 1,
        _ => random.place(9),
    };
    let mut id = line - random.below(2);
    let mut slots = [Slot::default(); SLOTS];
    for place in places(count, random) {
        id += random.between(1, 3);
        let snapshot_xmin = random.pick(&[1, id, id, line, id.div_ceil(2)]);
        slots[place] = Slot {
            txid: id,
            snapshot_xmin,
        };
    }
    let clock = (id + 1)
        .max(line)
        .saturating_add(random.pick(&[0, 0, 1, 50, u64::MAX]));
    let sample = random.pick(&[1, clock, line, id.max(1)]);
    let draft = Draft {
        slots,
        pins: pins(line, clock, random),
        clock,
        sample,
        line,
    };
    draft.table()
}

/// None taken, all, some, or one; each from the line to the clock, often at an edge.
fn pins(line: u64, clock: u64, random: &mut Random) -> [u64; PINS] {
    let free_of_ten = random.pick(&[0, 1, 5, 9, 10, 10]);
    let mut pins = [0; PINS];
    for pin in &mut pins {
        let any = random.between(line, clock);
        let xmin = random.pick(&[line, clock, any]);
        if random.below(10) >= free_of_ten {
            *pin = xmin;
        }
    }
    if random.once_in(8) {
        pins = [0; PINS];
        pins[random.pick(&EDGES)] = random.pick(&[line, clock]);
    }
    pins
}

/// So many different places, in no order; often the last one.
fn places(count: usize, random: &mut Random) -> Vec<usize> {
    let mut all: Vec<usize> = (0..SLOTS).collect();
    for place in 0..count {
        let other = random.between(place as u64, SLOTS as u64 - 1) as usize;
        all.swap(place, other);
    }
    if random.once_in(4) {
        let last = all.iter().position(|place| *place == SLOTS - 1);
        all.swap(0, last.expect("the last slot is among all"));
    }
    all.truncate(count);
    all
}

type Damage = fn(&mut Draft, &mut Random);

/// One for each condition of the check, one for any counters, and one for the longest text.
const DAMAGE: &[Damage] = &[
    |draft, _| draft.sample = 0,
    |draft, random| {
        draft.clock = draft.clock.min(u64::MAX - 1);
        draft.sample = random.pick(&[draft.clock + 1, u64::MAX]);
    },
    |draft, _| draft.line = 0,
    |draft, random| {
        if random.once_in(2) {
            draft.slots = [Slot::default(); SLOTS];
            draft.pins = [0; PINS];
        }
        draft.clock = draft.clock.min(u64::MAX - 1);
        draft.sample = draft.sample.min(draft.clock);
        draft.line = draft.clock + 1;
    },
    |draft, random| {
        let xmin = random.pick(&[1, draft.clock, u64::MAX]);
        at(draft, random, false, |slot| slot.snapshot_xmin = xmin);
    },
    |draft, random| at(draft, random, true, |slot| slot.snapshot_xmin = 0),
    |draft, random| {
        let far = random.once_in(2);
        at(draft, random, true, |slot| {
            slot.snapshot_xmin = if far {
                u64::MAX
            } else {
                slot.txid.saturating_add(1)
            };
        });
    },
    |draft, random| {
        let id = random.pick(&[draft.clock, u64::MAX]);
        at(draft, random, true, |slot| slot.txid = id);
    },
    |draft, random| {
        let ids = draft.slots.iter().map(|slot| slot.txid);
        let least = ids.filter(|id| *id != 0).min();
        match least.filter(|least| *least > 1) {
            Some(least) if random.once_in(2) => draft.line = least.saturating_add(1),
            _ => at(draft, random, true, |slot| slot.txid = 1),
        }
    },
    twice,
    |draft, random| {
        let below = random.pick(&[1, draft.line.saturating_sub(1)]);
        if below < draft.line && below > 0 {
            draft.pins[random.pick(&EDGES)] = below;
        }
    },
    |draft, random| {
        draft.clock = draft.clock.min(u64::MAX - 1);
        draft.sample = draft.sample.min(draft.clock);
        draft.pins[random.pick(&EDGES)] = random.pick(&[draft.clock + 1, u64::MAX]);
    },
    |draft, random| {
        let any = [0, 1, draft.clock, u64::MAX, random.draw()];
        draft.clock = random.pick(&any);
        draft.sample = random.pick(&any);
        draft.line = random.pick(&any);
    },
    |draft, _| {
        *draft = Draft {
            slots: [Slot {
                txid: u64::MAX,
                snapshot_xmin: u64::MAX,
            }; SLOTS],
            pins: [u64::MAX; PINS],
            clock: u64::MAX,
            sample: u64::MAX,
            line: u64::MAX,
        }
    },
];

/// The first pins, the last one, and one between.
const EDGES: [usize; 4] = [0, 1, 40, PINS - 1];

/// Changes a slot that is taken, or one that is not, if there is one.
fn at(draft: &mut Draft, random: &mut Random, taken: bool, change: impl FnOnce(&mut Slot)) {
    let places = draft.places(taken);
    if !places.is_empty() {
        change(&mut draft.slots[random.pick(&places)]);
    }
}

/// One id in two slots, side by side or far apart.
fn twice(draft: &mut Draft, random: &mut Random) {
    let taken = draft.places(true);
    if taken.len() < 2 {
        return;
    }
    let first = random.place(taken.len());
    let second = match random.below(3) {
        0 => (first + 1) % taken.len(),
        _ => random.place(taken.len()),
    };
    let txid = draft.slots[taken[first]].txid;
    let slot = &mut draft.slots[taken[second]];
    *slot = Slot {
        txid,
        snapshot_xmin: slot.snapshot_xmin.min(txid),
    };
}

/// The table with one condition of the check broken where it has room for that, rarely two.
pub fn damaged(table: &Table, random: &mut Random) -> Table {
    let mut draft = Draft::of(table);
    for _ in 0..if random.once_in(6) { 2 } else { 1 } {
        random.pick(DAMAGE)(&mut draft, random);
    }
    draft.table()
}
