//! The calls of the second reading, on a map of the taken slots.

use super::{Fault, Printed};
use crate::table;
use crate::trace::Op;
use std::collections::BTreeMap;

const TOP: u128 = u64::MAX as u128;
const SLOTS: u128 = table::SLOTS as u128;
/// A reserved number may lie so far above the clock.
const REACH: u128 = 4_294_967_296;
const NOBODY: u128 = 65_535;
pub(super) const PINS: u128 = 64;

/// A taken slot: txid and snapshot_xmin.
type Taken = (u128, u128);

pub struct Second {
    pub(super) taken: BTreeMap<u128, Taken>,
    /// The pins that are taken, and their xmins.
    pub(super) pins: BTreeMap<u128, u128>,
    pub(super) clock: u128,
    pub(super) line: u128,
    pub(super) fault: Fault,
    pub accepted: usize,
}

impl Second {
    pub fn fresh(fault: Fault) -> Self {
        Second {
            taken: BTreeMap::new(),
            pins: BTreeMap::new(),
            clock: 1,
            line: 1,
            fault,
            accepted: 0,
        }
    }

    pub fn run(&mut self, op: Op, mut numbers: [u128; 5]) -> Printed {
        if self.fault.is("slot-low-bits") {
            numbers[0] %= SLOTS;
        }
        if self.fault.is("ids-32-bits") {
            numbers[1] &= 0xffff_ffff;
        }
        let before = self.line;
        let order = self.fault.order(op);
        let refusal = order.into_iter().find(|check| self.holds(*check, &numbers));
        let mut answer = match refusal {
            Some(refusal) => self.refuse(refusal, op, &numbers),
            None => {
                self.accepted += 1;
                self.accept(op, &numbers)
            }
        };
        let early = self.fault.is("vacuum-before");
        answer.numbers[6] = if early { before } else { self.line };
        let asks = matches!(op, Op::Oldest | Op::Vacuum);
        if !asks && self.fault.is("holder-elsewhere")
            || refusal.is_some() && self.fault.is("holder-on-refusal")
        {
            answer.holder = NOBODY;
        }
        answer
    }

    fn limit(&self) -> u128 {
        match self.fault {
            _ if self.fault.is("slot-after-last-inside") => SLOTS + 1,
            _ if self.fault.is("last-slot-outside") => SLOTS - 1,
            _ => SLOTS,
        }
    }

    fn holds(&self, check: u8, numbers: &[u128; 5]) -> bool {
        let [slot, id, number, clock, sample] = *numbers;
        let held = self.taken.get(&slot).map_or(0, |taken| taken.0);
        match check {
            14..=16 => self.pin_holds(check, slot),
            1 => self.taken.len() == table::SLOTS,
            2 => slot >= self.limit(),
            3 => held != id,
            4 => id == 0,
            5 => self.clock == TOP,
            6 => {
                let top = number == TOP && !self.fault.is("number-2-64-accepted");
                let own = number == self.clock && self.fault.is("number-clock-refused");
                number == 0 || number < self.clock || top || own
            }
            7 => {
                clock < self.clock
                    || self.too_far(clock) && self.fault.is("observation-may-not-jump")
            }
            13 => self.too_far(number),
            _ => {
                let against_table = self.fault.is("sample-against-table");
                let most = if against_table { self.clock } else { clock };
                sample == 0 || sample > most
            }
        }
    }

    fn too_far(&self, number: u128) -> bool {
        let fault = self.fault;
        let from = if fault.is("jump-from-line") {
            self.line
        } else {
            self.clock
        };
        let farthest = match fault {
            _ if fault.is("jump-limit-refused") => from + REACH - 1,
            _ if fault.is("jump-limit-plus-1") => from + REACH + 1,
            _ if fault.is("jump-limit-wraps") => (from + REACH) % (TOP + 1),
            _ => from + REACH,
        };
        number > farthest
    }

    fn refuse(&mut self, refusal: u8, op: Op, numbers: &[u128; 5]) -> Printed {
        let [slot, _, number, clock, _] = *numbers;
        let fault = self.fault;
        match refusal {
            1 if !fault.is("txid-given-back") => self.clock = number + 1,
            5 | 6 | 13 if op == Op::Finish && fault.is("finish-ends-before-stamp") => {
                self.taken.remove(&slot);
            }
            8 if fault.is("refused-observation-moves-clock") => self.clock = clock,
            13 if fault.is("refused-jump-moves-clock") => self.clock = number + 1,
            14 if fault.is("refused-pin-moves-clock") => self.clock = clock,
            _ => {}
        }
        self.refused(refusal, numbers)
    }

    fn refused(&self, refusal: u8, numbers: &[u128; 5]) -> Printed {
        let [slot, id, number, _, _] = *numbers;
        let held = self.taken.get(&slot).map_or(0, |taken| taken.0);
        let unless = |name, value| if self.fault.is(name) { 0 } else { value };
        let (slot, id, seen) = match refusal {
            1 => (0, unless("refusal-1-no-id", number), 0),
            2 => (unless("refusal-2-no-slot", slot), 0, 0),
            3 if self.fault.is("refusal-3-swapped") => (slot, held, id),
            3 => (slot, id, unless("refusal-3-no-seen", held)),
            14 if self.fault.is("refusal-14-shows-64") => (PINS, 0, 0),
            15 => (unless("refusal-15-no-slot", slot), 0, 0),
            16 if self.fault.is("refusal-16-as-id") => (0, slot, 0),
            16 => (unless("refusal-16-no-slot", slot), 0, 0),
            _ => (0, 0, 0),
        };
        shown([refusal.into(), slot, id, seen, 0, 0])
    }

    fn accept(&mut self, op: Op, numbers: &[u128; 5]) -> Printed {
        let [slot, id, number, clock, sample] = *numbers;
        if matches!(op, Op::Snap | Op::Own | Op::Oldest | Op::Vacuum | Op::Pin) {
            self.observe(op, clock, sample);
        }
        match op {
            Op::Begin => self.begin(number),
            Op::Snap => self.snap(None, clock, sample),
            Op::Own => self.snap(Some((slot, id)), clock, sample),
            Op::Oldest | Op::Vacuum => self.oldest(op, sample),
            Op::Stamp => {
                self.clock = number + 1;
                shown([0, 0, number, 0, 0, 0])
            }
            Op::End => {
                self.taken.remove(&slot);
                if self.fault.is("end-moves-clock") {
                    self.clock = (self.clock + 1).min(TOP);
                }
                if self.fault.is("end-releases-pin") {
                    self.pins.remove(&slot);
                }
                shown([0; 6])
            }
            Op::Finish => self.finish(slot, number),
            Op::Pin => self.pin(clock, sample),
            Op::Unpin => self.unpin(slot),
        }
    }

    fn observe(&mut self, op: Op, clock: u128, sample: u128) {
        self.clock = match self.fault {
            _ if self.fault.is("clock-not-observed") => self.clock,
            _ if op == Op::Pin && self.fault.is("pin-keeps-clock") => self.clock,
            _ if self.fault.is("clock-takes-sample") => sample,
            _ => clock,
        };
    }

    fn begin(&mut self, number: u128) -> Printed {
        let free = |slot: &u128| !self.taken.contains_key(slot);
        let slot = match self.fault {
            _ if self.fault.is("highest-slot") => (0..SLOTS).rev().find(free),
            _ => (0..SLOTS).find(free),
        };
        let slot = slot.expect("refusal 1 was tested");
        let xmin = if self.fault.is("begin-keeps-xmin-0") {
            0
        } else {
            number
        };
        self.taken.insert(slot, (number, xmin));
        self.clock = number + 1 + u128::from(self.fault.is("begin-clock-plus-2"));
        shown([0, slot, number, 0, 0, 0])
    }

    fn finish(&mut self, slot: u128, number: u128) -> Printed {
        if self.fault.is("finish-empties-all") {
            self.taken.clear();
        }
        if !self.fault.is("finish-keeps-slot") {
            self.taken.remove(&slot);
        }
        if !self.fault.is("finish-keeps-clock") {
            self.clock = number + 1;
        }
        let shown_slot = if self.fault.is("finish-shows-slot") {
            slot
        } else {
            0
        };
        shown([0, shown_slot, number, 0, 0, 0])
    }

    pub(super) fn snap(&mut self, owner: Option<Taken>, clock: u128, sample: u128) -> Printed {
        let mut list: Vec<u128> = self.taken.values().map(|taken| taken.0).collect();
        let pinned = self.pins.values().copied();
        let pinned = pinned.filter(|_| self.fault.is("snap-takes-pins"));
        let least = list.iter().copied().chain(pinned).min().unwrap_or(sample);
        let after = list.iter().copied().max().map_or(sample, |id| id + 1);
        let fault = self.fault;
        let xmin = match fault {
            _ if fault.is("xmin-least-active") => least,
            _ if fault.is("xmin-raised-with-xmax") && sample < after => after.min(least),
            _ if fault.is("xmin-1") => 1,
            _ => sample.min(least),
        };
        let xmax = match fault {
            _ if fault.is("xmax-least") => sample.min(after),
            _ if fault.is("xmax-clock") => clock,
            _ if fault.is("xmax-no-plus-1") && !list.is_empty() => sample.max(after - 1),
            _ => sample.max(after),
        };
        self.keep_xmin(owner.map(|owner| owner.0), xmin);
        if fault.is("snap-raises-line") {
            self.line = self.line.max(xmin);
        }
        if fault.is("list-by-id") {
            list.sort();
        }
        if fault.is("list-one-short") {
            list.truncate(table::SLOTS - 1);
        }
        let shows_id = owner.filter(|_| fault.is("own-shows-id"));
        let mut answer = shown([0, 0, shows_id.map_or(0, |owner| owner.1), 0, xmin, xmax]);
        answer.list = list;
        answer
    }

    fn keep_xmin(&mut self, owner: Option<u128>, xmin: u128) {
        let fault = self.fault;
        let everywhere = fault.is("own-keeps-xmin-everywhere") && owner.is_some()
            || fault.is("snap-keeps-xmin") && owner.is_none();
        for (slot, taken) in &mut self.taken {
            let owns = owner == Some(*slot) && !fault.is("own-keeps-no-xmin");
            let later = fault.is("own-keeps-first-xmin") && taken.1 != taken.0;
            if (owns || everywhere) && !later {
                taken.1 = xmin;
            }
        }
    }

    fn oldest(&mut self, op: Op, sample: u128) -> Printed {
        let fault = self.fault;
        let kept = |taken: &Taken| {
            if fault.is("oldest-takes-ids") {
                taken.0
            } else {
                taken.1
            }
        };
        let mut all: Vec<u128> = self.taken.values().map(kept).collect();
        all.extend(self.pins_asked(op));
        let least = all.iter().copied().min().unwrap_or(sample);
        let oldest = if fault.is("oldest-is-sample") {
            sample
        } else {
            least.min(sample)
        };
        if op == Op::Vacuum || fault.is("oldest-raises-line") {
            self.line = match fault {
                _ if fault.is("line-1") => 1,
                _ if fault.is("line-falls") => oldest,
                _ => self.line.max(oldest),
            };
        }
        let hidden = op == Op::Vacuum && !fault.is("vacuum-in-xmin");
        let mut answer = shown([0, 0, 0, 0, if hidden { 0 } else { oldest }, 0]);
        if op == Op::Oldest || !fault.is("vacuum-without-holder") {
            answer.holder = self.holder(oldest, sample);
        }
        answer
    }

    /// The lowest slot of those that are kept back to `oldest`.
    fn holder(&self, oldest: u128, sample: u128) -> u128 {
        let fault = self.fault;
        let sought = if fault.is("holder-of-line") {
            self.line
        } else {
            oldest
        };
        let holds = |taken: &Taken| {
            if fault.is("holder-by-id") {
                taken.0 == sought
            } else {
                taken.1 == sought
            }
        };
        if let Some(pin) = self
            .pin_holder(sought)
            .filter(|_| fault.is("holder-prefers-pins"))
        {
            return pin;
        }
        let mut slots = self.taken.iter().filter(|(_, taken)| holds(taken));
        let found = if fault.is("holder-highest") {
            slots.next_back()
        } else {
            slots.next()
        };
        let nobody = if fault.is("holder-nobody-is-0") {
            0
        } else {
            NOBODY
        };
        match found {
            Some((_, taken)) if fault.is("holder-is-id") => taken.0,
            Some(_) if fault.is("holder-not-at-sample") && oldest == sample => nobody,
            Some((slot, _)) => *slot,
            None => self.pin_holder(sought).unwrap_or(nobody),
        }
    }
}

/// An answer without a list; the line is filled in later.
pub(super) fn shown(numbers: [u128; 6]) -> Printed {
    let mut all = [0; 7];
    all[..6].copy_from_slice(&numbers);
    Printed {
        numbers: all,
        holder: 0,
        list: Vec::new(),
    }
}
