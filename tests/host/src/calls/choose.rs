//! The next call, chosen with the table in view: mostly one that is accepted, now and then one with a ground for a refusal or two.

use twin::random::Random;
use twin::table::{FARTHEST, PINS, SLOTS, Table};
use twin::trace::{Op, Record};

/// Which ops are wanted for a while.
const MOODS: [&[Op]; 5] = [
    &[Op::Begin],
    &[Op::Begin, Op::Begin, Op::Own, Op::Snap, Op::Vacuum, Op::Pin],
    &[Op::End, Op::Finish, Op::Unpin, Op::Vacuum, Op::Oldest],
    &[Op::Pin, Op::Pin, Op::Pin, Op::Unpin, Op::Vacuum],
    &Op::ALL,
];

pub struct Chooser {
    mood: &'static [Op],
    left: u64,
    /// Whether numbers may run far ahead.
    far: bool,
}

impl Chooser {
    pub fn new(random: &mut Random) -> Chooser {
        let far = random.once_in(4);
        Chooser {
            mood: MOODS[4],
            left: 0,
            far,
        }
    }

    pub fn record(&mut self, table: &Table, random: &mut Random) -> Record {
        if self.left == 0 {
            self.mood = random.pick(&MOODS);
            self.left = random.pick(&[20, 90, 300, 1_400]);
        }
        self.left -= 1;
        // begins alone fill the table, if little comes between them
        let others = if self.mood.len() == 1 { 16 } else { 3 };
        let op = if random.once_in(others) {
            random.pick(&Op::ALL)
        } else {
            random.pick(self.mood)
        };
        let mut record = Record {
            op,
            slot: 0,
            id: 0,
            stamp: 0,
            clock: 0,
            sample: 0,
        };
        if op.reads_registration() {
            (record.slot, record.id) = registration(table, random);
        } else if op.reads_slot() {
            record.slot = pin(table, random);
        }
        if op.reads_stamp() {
            record.stamp = self.number(table, random);
        }
        if op.reads_clock() {
            record.clock = self.clock(table, random);
            record.sample = sample(table, record.clock, random);
        }
        record
    }

    fn number(&self, table: &Table, random: &mut Random) -> u64 {
        let clock = table.clock();
        match random.below(24) {
            0 => random.pick(&[0, u64::MAX, clock.wrapping_sub(1)]),
            1 if self.far => clock.saturating_add(random.pick(&[FARTHEST, FARTHEST + 1, 1 << 20])),
            1 => clock.saturating_add(random.pick(&[FARTHEST + 1, FARTHEST + 9])),
            2 => random.pick(&[u64::MAX - 1, 1, clock / 2]),
            _ => clock.saturating_add(random.pick(&[0, 0, 0, 1, 2])),
        }
    }

    fn clock(&self, table: &Table, random: &mut Random) -> u64 {
        let clock = table.clock();
        match random.below(24) {
            0 => clock.wrapping_sub(1),
            1 => random.pick(&[0, clock / 2]),
            2 if self.far && random.once_in(8) => u64::MAX - random.below(3),
            _ => clock.saturating_add(random.pick(&[0, 0, 0, 1, 3])),
        }
    }
}

fn sample(table: &Table, clock: u64, random: &mut Random) -> u64 {
    match random.below(16) {
        0 => 0,
        1 => clock.saturating_add(1),
        2 => u64::MAX,
        3 => 1,
        4 => table.vacuum_line(),
        5 => table.vacuum_line().saturating_sub(1),
        6 => clock.saturating_sub(random.below(40)),
        _ => clock,
    }
}

/// From a place on, round the run, the first slot that is taken, or is empty.
fn slot(table: &Table, taken: bool, random: &mut Random) -> usize {
    let from = random.place(SLOTS);
    let places = (0..SLOTS).map(|step| (from + step) % SLOTS);
    let fits = |place: &usize| (table.slots()[*place].txid != 0) == taken;
    places.into_iter().find(fits).unwrap_or(from)
}

fn registration(table: &Table, random: &mut Random) -> (u16, u64) {
    let place = slot(table, !random.once_in(12), random);
    let (mut slot, mut id) = (place as u16, table.slots()[place].txid);
    match random.below(24) {
        0 => id = 0,
        1 => id = id.wrapping_add(random.pick(&[1, u64::MAX])),
        2 => id = random.pick(&[1, 5, u64::MAX]),
        _ => {}
    }
    if random.once_in(20) {
        slot = random.pick(&[SLOTS as u16, u16::MAX, SLOTS as u16 | slot]);
    }
    (slot, id)
}

fn pin(table: &Table, random: &mut Random) -> u16 {
    let taken = !random.once_in(8);
    let from = random.place(PINS);
    let places = (0..PINS).map(|step| (from + step) % PINS);
    let fits = |place: &usize| (table.pins()[*place] != 0) == taken;
    let pin = places.into_iter().find(fits).unwrap_or(from) as u16;
    match random.below(16) {
        0 => random.pick(&[PINS as u16, u16::MAX, PINS as u16 | pin, 2_000 + pin]),
        _ => pin,
    }
}
