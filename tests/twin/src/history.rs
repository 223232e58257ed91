//! A history in the making: records chosen with the table's state in view.

use crate::random::Random;
use crate::replay;
use crate::table::{FARTHEST, FIRST_PIN, PINS, SLOTS, Table};
use crate::text;
use crate::trace::{LIMIT, Op, Record, Version};

/// How far reserved numbers and clocks run ahead; a reserved number no farther than it may, but by a fault.
#[derive(Clone, Copy, Debug, PartialEq, Eq)]
pub enum Stride {
    /// A few at a time, so that ids stay dense.
    Short,
    /// Jumps to the neighbourhood of 2^32 and of other powers of two.
    Wide,
    /// Jumps to the last numbers below 2^64.
    Last,
}

/// Which refusals a record should have a ground for; several may hold at once.
#[derive(Clone, Copy, Debug, Default)]
pub struct Faults {
    /// A slot or a pin that no table has.
    pub slot: bool,
    pub zero_id: bool,
    /// An id that the slot doesn't hold, or a pin that is free.
    pub other_id: bool,
    pub number: bool,
    pub far: bool,
    pub clock: bool,
    pub sample: bool,
}

pub struct History {
    pub version: Version,
    pub random: Random,
    pub records: Vec<Record>,
    table: Table,
    stride: Stride,
    /// Whether a fault may take a reserved number too far above the clock.
    jumps: bool,
    length: usize,
}

impl History {
    pub fn new(version: Version, random: Random, stride: Stride, jumps: bool) -> Self {
        History {
            version,
            random,
            records: Vec::new(),
            table: Table::fresh(),
            stride,
            jumps,
            length: text::HEADER_LENGTH,
        }
    }

    /// Adds a record and runs it; says no, and adds nothing, where the text is full.
    pub fn push(&mut self, record: Record) -> bool {
        let length = self.length + text::of_record(&record).len();
        if length > LIMIT {
            return false;
        }
        self.length = length;
        replay::run(&mut self.table, &record);
        self.records.push(record);
        true
    }

    pub fn text(&self) -> Vec<u8> {
        text::of_records(self.version, &self.records)
    }

    /// The table after all records.
    pub fn table(&self) -> &Table {
        &self.table
    }

    /// Begins until `count` slots have been filled, ids close together.
    pub fn fill(&mut self, count: usize) {
        for _ in 0..count {
            let ahead = self.random.below(3);
            let stamp = self.table.clock().saturating_add(ahead);
            self.push(plain(Op::Begin).with_stamp(stamp));
        }
    }

    /// Takes `count` pins: with good samples, so that the line may rise; or with any, and slots and vacuums between them.
    pub fn fill_pins(&mut self, count: usize) {
        let mixed = self.random.once_in(2);
        for _ in 0..count {
            if mixed && self.random.once_in(3) {
                let between = [Op::Begin, Op::Vacuum, Op::End, Op::Own, Op::Stamp];
                let op = self.random.pick(&between);
                let record = self.record(op, Faults::default());
                self.push(record);
            }
            let mut record = self.record(Op::Pin, Faults::default());
            if !mixed {
                record.sample = record.clock;
            }
            self.push(record);
        }
    }

    /// Releases the pins from 0 on, this many of them.
    pub fn release_pins(&mut self, count: usize) {
        for pin in 0..count as u16 {
            self.push(Record {
                slot: pin,
                ..plain(Op::Unpin)
            });
        }
    }

    /// One of these ops that the version allows.
    pub fn op(&mut self, ops: &[Op]) -> Op {
        let mut allowed = ops.to_vec();
        allowed.retain(|op| self.version.allows(*op));
        self.random.pick(&allowed)
    }

    /// Leaves `left` numbers (or none) to be reserved. An observation takes the clock there: no reservation could.
    pub fn use_up(&mut self, left: u64) {
        let clock = (u64::MAX - left).max(self.table.clock());
        self.push(plain(Op::Oldest).with_clock(clock, 1));
    }

    pub fn faults(&mut self, once_in: u64) -> Faults {
        let mut one = || self.random.once_in(once_in);
        Faults {
            slot: one(),
            zero_id: one(),
            other_id: one(),
            number: one(),
            far: one() && self.jumps,
            clock: one(),
            sample: one(),
        }
    }

    /// A record of `op`, with grounds for the refusals that `faults` names.
    pub fn record(&mut self, op: Op, faults: Faults) -> Record {
        let mut record = plain(op);
        if op.reads_registration() {
            (record.slot, record.id) = self.registration(faults);
        } else if op.reads_slot() {
            record.slot = self.pin(faults);
        }
        if op.reads_stamp() {
            record.stamp = if faults.number {
                self.bad_number()
            } else if faults.far {
                self.far_number()
            } else {
                self.next_number()
            };
        }
        if op.reads_clock() {
            record.clock = self.clock(faults.clock);
            record.sample = self.sample(record.clock, faults.sample);
        }
        record
    }

    fn registration(&mut self, faults: Faults) -> (u16, u64) {
        let (mut slot, mut id) = self.someone();
        if faults.other_id {
            (slot, id) = self.mismatch(slot, id);
        }
        if faults.zero_id {
            id = 0;
        }
        if faults.slot {
            slot = self.slot_outside(slot);
        }
        (slot, id)
    }

    /// A registered transaction where there is one.
    fn someone(&mut self) -> (u16, u64) {
        let slots = self.table.slots().iter().enumerate();
        let taken: Vec<_> = slots.filter(|(_, slot)| slot.txid != 0).collect();
        if taken.is_empty() {
            return (self.random.below(4) as u16, self.random.between(1, 9));
        }
        let place = match self.random.below(8) {
            0 => taken.len() - 1,
            _ => self.random.place(taken.len()),
        };
        let (slot, held) = taken[place];
        (slot as u16, held.txid)
    }

    fn mismatch(&mut self, slot: u16, id: u64) -> (u16, u64) {
        let elsewhere = self.random.below(SLOTS as u64) as u16;
        match self.random.below(6) {
            0 => (slot, id.saturating_add(1)),
            1 => (slot, (id - 1).max(1)),
            2 => (slot, self.someone().1),
            3 => (slot, self.random.pick(&[u64::MAX, 1 << 32, 1])),
            4 => (SLOTS as u16 - 1, id),
            _ => (elsewhere, id),
        }
    }

    /// A slot number outside the table, often one that ends in the same bits.
    fn slot_outside(&mut self, slot: u16) -> u16 {
        let size = SLOTS as u16;
        match self.random.below(5) {
            0 => size,
            1 => u16::MAX,
            2 => size + slot,
            3 => (size * self.random.between(1, 65_535 / SLOTS as u64) as u16) | slot,
            _ => self.random.between(SLOTS as u64, 65_535) as u16,
        }
    }

    /// A pin that is taken, where there is one.
    fn pin(&mut self, faults: Faults) -> u16 {
        let taken = !faults.other_id;
        let pins = (0..).zip(self.table.pins());
        let places: Vec<u16> = pins
            .filter(|(_, xmin)| (**xmin != 0) == taken)
            .map(|(pin, _)| pin)
            .collect();
        let pin = match (places.first(), places.last()) {
            (Some(first), Some(last)) => {
                let any = self.random.pick(&places);
                self.random.pick(&[*first, *last, any, any])
            }
            _ => self.random.below(PINS as u64) as u16,
        };
        if faults.slot {
            self.pin_outside(pin)
        } else {
            pin
        }
    }

    /// A pin outside the table: one that ends in the same bits, one that is a slot's number, one as a holder is printed.
    fn pin_outside(&mut self, pin: u16) -> u16 {
        let size = PINS as u16;
        let slot = self.random.between(PINS as u64, SLOTS as u64 - 1) as u16;
        let any = self.random.between(PINS as u64, 65_535) as u16;
        let printed = FIRST_PIN as u16 + pin;
        let outside = [size, u16::MAX, size + pin, slot, printed, any];
        self.random.pick(&outside)
    }

    fn next_number(&mut self) -> u64 {
        let farthest = self.table.clock().saturating_add(FARTHEST);
        self.ahead_of_clock().min(farthest).min(u64::MAX - 1)
    }

    /// A number too far above the clock, where there is one below 2^64 - 1.
    fn far_number(&mut self) -> u64 {
        let past = self.table.clock().saturating_add(FARTHEST + 1);
        let far = match self.random.below(4) {
            0 => past,
            1 => past.saturating_add(self.random.below(9)),
            2 => u64::MAX,
            _ => self.random.between(past, u64::MAX),
        };
        far.min(u64::MAX - 1)
    }

    fn ahead_of_clock(&mut self) -> u64 {
        let clock = self.table.clock();
        let few = self.random.pick(&[0, 0, 0, 1, 1, 2, 3, 9]);
        let near = clock.saturating_add(few);
        if !self.random.once_in(8) {
            return near;
        }
        let far = match self.stride {
            Stride::Short => near,
            Stride::Wide => {
                let power = 1 << self.random.pick(&[8, 16, 31, 32, 32, 33, 48, 63]);
                self.random.between(power - 2, power + 2)
            }
            Stride::Last => u64::MAX - self.random.below(12),
        };
        far.max(near)
    }

    fn bad_number(&mut self) -> u64 {
        let clock = self.table.clock();
        match self.random.below(5) {
            0 => 0,
            1 => u64::MAX,
            2 => self.random.below(clock),
            _ => clock - 1,
        }
    }

    fn clock(&mut self, bad: bool) -> u64 {
        let clock = self.table.clock();
        if !bad {
            return self.ahead_of_clock();
        }
        match self.random.below(4) {
            0 => 0,
            1 => self.random.below(clock),
            _ => clock - 1,
        }
    }

    fn sample(&mut self, given: u64, bad: bool) -> u64 {
        if bad {
            let above = given.saturating_add(1);
            let far = self.random.between(given, u64::MAX);
            return self.random.pick(&[0, above, far, u64::MAX]);
        }
        let wanted = match self.random.below(8) {
            0 => 1,
            1 | 2 => given,
            3 => self.random.below(given.saturating_add(1)),
            4 => self.table.vacuum_line(),
            5 => self.table.sampled_clock(),
            6 => self.kept_xmin(),
            _ => self.someone().1,
        };
        let step = self.random.below(3);
        let near = (wanted.saturating_add(step)).saturating_sub(1);
        near.clamp(1, given.max(1))
    }

    /// The xmin of some slot or of some pin.
    fn kept_xmin(&mut self) -> u64 {
        let (slot, pin) = (self.random.place(SLOTS), self.random.place(PINS));
        let of_slot = self.table.slots()[slot].snapshot_xmin;
        let of_pin = self.table.pins()[pin];
        if of_pin != 0 && self.random.once_in(2) {
            of_pin
        } else {
            of_slot
        }
    }
}

/// A record of `op` with all fields 0.
pub fn plain(op: Op) -> Record {
    Record {
        op,
        slot: 0,
        id: 0,
        stamp: 0,
        clock: 0,
        sample: 0,
    }
}

impl Record {
    pub fn with_stamp(self, stamp: u64) -> Record {
        Record { stamp, ..self }
    }

    pub fn with_registration(self, slot: u16, id: u64) -> Record {
        Record { slot, id, ..self }
    }

    pub fn with_clock(self, clock: u64, sample: u64) -> Record {
        Record {
            clock,
            sample,
            ..self
        }
    }
}
