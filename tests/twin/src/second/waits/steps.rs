//! The events of the second reading, on a map of the taken slots.

use super::super::read::Line6;
use super::WaitFault;
use super::read::PINS;
use crate::table;
use crate::waits::check::Owner;
use std::collections::BTreeMap;

const TOP: u128 = u64::MAX as u128;
const SLOTS: u128 = table::SLOTS as u128;
const FAR: u128 = 0x1_0000_0000;

/// What came of the events: those that broke a rule, from 1, the slot of the first where it is outside the table, and
/// the table, on which they did nothing.
pub struct Ran {
    pub bad: Vec<usize>,
    pub outside: Option<u128>,
    pub table: Vec<u128>,
}

pub fn run(entry: &[u128], owner: Owner, events: &[Line6], fault: WaitFault) -> Ran {
    let before = Steps::of(entry, owner, fault);
    let mut steps = before.clone();
    let mut bad = Vec::new();
    let mut outside = None;
    for (number, event) in (1..).zip(events) {
        let numbers = steps.seen(event.numbers);
        let judge = if fault.is("steps-on-entry") {
            &before
        } else {
            &steps
        };
        let unchecked = number > 1 && fault.is("first-event-only")
            || number == events.len() && fault.is("last-event-unchecked");
        let broken = !unchecked && judge.breaks(event.item, numbers);
        if broken {
            let first = bad.is_empty() && event.item <= HORIZON && numbers[0] >= SLOTS;
            outside = outside.or(first.then_some(numbers[0]));
            bad.push(number);
        } else {
            steps.happen(event.item, numbers);
        }
    }
    Ran {
        bad,
        outside,
        table: steps.numbers(entry),
    }
}

const REGISTER: usize = 0;
const END: usize = 1;
const HORIZON: usize = 2;
const RESERVE: usize = 3;

#[derive(Clone)]
struct Steps {
    taken: BTreeMap<u128, (u128, u128)>,
    /// As they were; a fault alone moves them.
    pins: Vec<u128>,
    clock: u128,
    sample: u128,
    line: u128,
    owner: Option<u128>,
    fault: WaitFault,
}

impl Steps {
    fn of(entry: &[u128], owner: Owner, fault: WaitFault) -> Steps {
        let pairs = entry[..2 * table::SLOTS].chunks(2);
        let pairs = (0..).zip(pairs.map(|pair| (pair[0], pair[1])));
        let nobody = fault.is("nobody-is-slot-0").then_some(0);
        let (pins, counters) = entry[2 * table::SLOTS..].split_at(PINS);
        Steps {
            taken: pairs.filter(|(_, pair)| pair.0 > 0).collect(),
            pins: pins.to_vec(),
            clock: counters[0],
            sample: counters[1],
            line: counters[2],
            owner: owner.map(|owner| owner.0.into()).or(nobody),
            fault,
        }
    }

    /// The list again. An empty slot has 0 twice where an event emptied it, else what it had.
    fn numbers(&self, entry: &[u128]) -> Vec<u128> {
        let mut numbers = entry.to_vec();
        for (slot, pair) in numbers[..2 * table::SLOTS].chunks_mut(2).enumerate() {
            let was_taken = pair[0] > 0;
            match self.taken.get(&(slot as u128)) {
                Some((txid, xmin)) => pair.copy_from_slice(&[*txid, *xmin]),
                None if was_taken && self.fault.is("end-keeps-xmin") => pair[0] = 0,
                None if was_taken => pair.fill(0),
                None => {}
            }
        }
        numbers.truncate(2 * table::SLOTS);
        numbers.extend(&self.pins);
        numbers.extend([self.clock, self.sample, self.line]);
        if self.fault.is("pins-released") {
            numbers[2 * table::SLOTS..][..PINS].fill(0);
        }
        numbers
    }

    /// The event's numbers as they are understood.
    fn seen(&self, mut numbers: [u128; 5]) -> [u128; 5] {
        if self.fault.is("slot-low-bits") {
            numbers[0] %= SLOTS;
        }
        numbers
    }

    fn limit(&self) -> u128 {
        match self.fault {
            _ if self.fault.is("slot-after-last-inside") => SLOTS + 1,
            _ if self.fault.is("last-slot-outside") => SLOTS - 1,
            _ => SLOTS,
        }
    }

    fn breaks(&self, kind: usize, numbers: [u128; 5]) -> bool {
        let [slot, id, xmin, clock, sample] = numbers;
        let taken = self.taken.contains_key(&slot);
        let place = kind <= HORIZON && (slot >= self.limit() || self.is_owners(kind, slot))
            || self.fault.is("owner-in-all") && self.owner == Some(slot);
        let own = match kind {
            REGISTER => self.no_place(slot) || self.unfit(id),
            END => !taken && !self.fault.is("end-of-empty"),
            HORIZON => self.no_horizon(slot, xmin),
            RESERVE => self.unfit(id),
            _ => self.unseen(clock, sample),
        };
        place || own
    }

    fn is_owners(&self, kind: usize, slot: u128) -> bool {
        let left_out = kind == END && self.fault.is("end-of-owner")
            || kind == HORIZON && self.fault.is("horizon-of-owner");
        self.owner == Some(slot) && !left_out
    }

    fn no_place(&self, slot: u128) -> bool {
        let free = |slot: &u128| !self.taken.contains_key(slot);
        match self.fault {
            _ if self.fault.is("lowest-slot") => (0..SLOTS).find(free) != Some(slot),
            _ if self.fault.is("register-into-taken") => false,
            _ => !free(&slot),
        }
    }

    /// Refusals 5 and 6.
    fn unfit(&self, id: u128) -> bool {
        let fault = self.fault;
        let top = id == TOP && !fault.is("number-2-64-accepted");
        let own = id == self.clock && fault.is("number-clock-refused");
        let low = id < self.clock && !fault.is("number-below-clock");
        let exhausted = self.clock == TOP && !fault.is("number-2-64-accepted");
        let farthest = id == self.clock + FAR && fault.is("number-farthest-refused");
        let far = id > self.clock + FAR && !fault.is("number-too-far-accepted");
        exhausted || id == 0 || low || top || own || farthest || far
    }

    fn no_horizon(&self, slot: u128, xmin: u128) -> bool {
        let fault = self.fault;
        let Some(&(own, former)) = self.taken.get(&slot) else {
            return !fault.is("horizon-of-empty");
        };
        let least = self.taken.values().map(|pair| pair.0).min().unwrap_or(own);
        let others = self.taken.iter().filter(|(place, _)| **place != slot);
        let bound = match fault {
            _ if fault.is("horizon-to-own-id") => own,
            _ if fault.is("horizon-to-others") => {
                others.map(|(_, pair)| pair.0).min().unwrap_or(own)
            }
            _ if fault.is("horizon-to-xmins") => {
                self.taken.values().map(|pair| pair.1).min().unwrap_or(own)
            }
            _ if fault.is("horizon-to-sample") => least.min(self.sample),
            _ if fault.is("horizon-to-pins") => {
                let pins = self.pins.iter().copied().filter(|xmin| *xmin > 0);
                pins.min().unwrap_or(least).min(least)
            }
            _ if fault.is("horizon-below-least") => least - 1,
            _ if fault.is("horizon-unbounded") => TOP,
            _ => least,
        };
        let falls = fault.is("horizon-never-falls") && xmin < former;
        let behind = fault.is("horizon-from-line") && xmin < self.line;
        xmin == 0 && !fault.is("horizon-0") || xmin > bound || falls || behind
    }

    /// Refusals 7 and 8.
    fn unseen(&self, clock: u128, sample: u128) -> bool {
        let fault = self.fault;
        let late = clock < self.clock && !fault.is("clock-below-accepted");
        let same = clock == self.clock && fault.is("clock-same-refused");
        let against_table = fault.is("sample-against-table");
        let most = if against_table { self.clock } else { clock };
        let zero = sample == 0 && !fault.is("sample-0-accepted");
        let above = sample > most && !fault.is("sample-above-accepted");
        let falls = sample < self.sample && fault.is("sample-never-falls");
        late || same || zero || above || falls
    }

    fn happen(&mut self, kind: usize, numbers: [u128; 5]) {
        let [slot, id, xmin, clock, sample] = numbers;
        match kind {
            REGISTER => self.register(slot, id),
            END => self.end(slot),
            HORIZON => self.horizon(slot, xmin),
            RESERVE if self.fault.is("reserve-keeps-clock") => {}
            RESERVE if self.fault.is("reserve-takes-slot") => self.register(slot, id),
            RESERVE => self.clock = id + u128::from(!self.fault.is("reserve-clock-itself")),
            _ => self.observe(clock, sample),
        }
    }

    fn register(&mut self, slot: u128, id: u128) {
        let fault = self.fault;
        let least = self.taken.values().map(|pair| pair.0).min().unwrap_or(id);
        let xmin = match fault {
            _ if fault.is("register-xmin-0") => 0,
            _ if fault.is("register-xmin-least") => least,
            _ => id,
        };
        self.taken.insert(slot, (id, xmin));
        if !fault.is("register-keeps-clock") {
            self.clock = id + u128::from(!fault.is("register-clock-itself"));
        }
        if fault.is("register-moves-sample") {
            self.sample = self.clock;
        }
        if let Some(free) = self.pins.iter().position(|xmin| *xmin == 0)
            && fault.is("register-takes-pin")
        {
            self.pins[free] = id;
        }
    }

    fn end(&mut self, slot: u128) {
        if !self.fault.is("end-keeps-slot") {
            self.taken.remove(&slot);
        }
        if self.fault.is("end-moves-clock") {
            self.clock = (self.clock + 1).min(TOP);
        }
        if let Some(pin) = self.pins.get_mut(slot as usize)
            && self.fault.is("end-releases-pin")
        {
            *pin = 0;
        }
        if self.fault.is("end-raises-line") {
            let least = self.taken.values().map(|pair| pair.1).min();
            self.line = self.line.max(least.unwrap_or(self.sample));
        }
    }

    fn horizon(&mut self, slot: u128, xmin: u128) {
        let fault = self.fault;
        for (place, pair) in &mut self.taken {
            if *place == slot && !fault.is("horizon-keeps-xmin") || fault.is("horizon-everywhere") {
                pair.1 = xmin;
            }
        }
        if fault.is("horizon-raises-line") {
            self.line = self.line.max(xmin);
        }
        if fault.is("horizon-moves-sample") {
            self.sample = xmin;
        }
    }

    fn observe(&mut self, clock: u128, sample: u128) {
        let fault = self.fault;
        if fault.is("observe-raises-line") {
            let least = self.taken.values().map(|pair| pair.1).min();
            self.line = self.line.max(sample.min(least.unwrap_or(sample)));
        }
        self.clock = match fault {
            _ if fault.is("observe-keeps-clock") => self.clock,
            _ if fault.is("clock-takes-sample") => sample,
            _ => clock,
        };
        if !fault.is("observe-keeps-sample") {
            self.sample = sample;
        }
    }
}
