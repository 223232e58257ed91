//! The pins of the second reading, on a map of those that are taken.

use super::Printed;
use super::call::{PINS, Second, shown};
use crate::table;
use crate::trace::Op;

impl Second {
    /// Refusals 14, 15 and 16.
    pub(super) fn pin_holds(&self, check: u8, pin: u128) -> bool {
        let fault = self.fault;
        let limit = match fault {
            _ if fault.is("unpin-to-64") => PINS + 1,
            _ if fault.is("unpin-63-refused") => PINS - 1,
            _ if fault.is("unpin-up-to-the-slots") => table::SLOTS as u128,
            _ if fault.is("unpin-by-low-bits") => u128::MAX,
            _ => PINS,
        };
        match check {
            14 => self.free_pin().is_none(),
            15 => pin >= limit,
            _ => !self.pins.contains_key(&self.meant(pin)),
        }
    }

    fn meant(&self, pin: u128) -> u128 {
        if self.fault.is("unpin-by-low-bits") {
            pin % PINS
        } else {
            pin
        }
    }

    /// The pin that would be taken.
    fn free_pin(&self) -> Option<u128> {
        let fault = self.fault;
        let count = match fault {
            _ if fault.is("pin-64-taken") => PINS + 1,
            _ if fault.is("pin-63-never-taken") => PINS - 1,
            _ => PINS,
        };
        let free = |pin: &u128| !self.pins.contains_key(pin);
        let after = self.pins.keys().next_back().map_or(0, |last| last + 1);
        match fault {
            _ if fault.is("pin-highest") => (0..count).rev().find(free),
            _ if fault.is("pin-after-the-last") && after < count => Some(after),
            _ if fault.is("pin-overwrites-when-full") => (0..count).find(free).or(Some(0)),
            _ => (0..count).find(free),
        }
    }

    pub(super) fn pin(&mut self, clock: u128, sample: u128) -> Printed {
        let fault = self.fault;
        let pin = self.free_pin().expect("refusal 14 was tested");
        let alone = self.snap(None, clock, sample);
        let raised = match fault {
            _ if fault.is("pin-for-the-sample-alone") => sample,
            _ if fault.is("pin-for-the-line-alone") => self.line,
            _ if fault.is("pin-for-the-clock") => clock,
            _ => sample.max(self.line),
        };
        let mut answer = self.snap(None, clock, raised);
        let [.., xmin, xmax, _] = answer.numbers;
        let stored = match fault {
            _ if fault.is("pin-stores-for-the-sample-alone") => alone.numbers[4],
            _ if fault.is("pin-stores-its-sample") => raised,
            _ if fault.is("pin-stores-xmax") => xmax,
            _ => xmin,
        };
        if !fault.is("pin-stores-nothing") {
            self.pins.insert(pin, stored);
        }
        if fault.is("pin-stores-in-slots-too") {
            let slots = self.taken.values_mut();
            slots.for_each(|taken| taken.1 = xmin);
        }
        if fault.is("pin-raises-line") {
            self.line = self.line.max(xmin);
        }
        if fault.is("pin-shows-for-the-sample-alone") {
            answer.numbers = alone.numbers;
        }
        if fault.is("pin-xmax-of-the-sample") {
            answer.numbers[5] = alone.numbers[5];
        }
        self.shown_pin(pin, answer)
    }

    fn shown_pin(&self, pin: u128, mut answer: Printed) -> Printed {
        let fault = self.fault;
        match fault {
            _ if fault.is("pin-not-shown") => {}
            _ if fault.is("pin-shown-as-id") => answer.numbers[2] = pin,
            _ if fault.is("pin-shown-as-seen") => answer.numbers[3] = pin,
            _ => answer.numbers[1] = pin,
        }
        if fault.is("pin-shown-as-holder") {
            answer.holder = 2_000 + pin;
        }
        if fault.is("pin-lists-none") {
            answer.list.clear();
        }
        answer
    }

    pub(super) fn unpin(&mut self, pin: u128) -> Printed {
        let fault = self.fault;
        let lowest = self.pins.keys().next().copied();
        match fault {
            _ if fault.is("unpin-keeps-pin") => {}
            _ if fault.is("unpin-releases-all") => self.pins.clear(),
            _ if fault.is("unpin-releases-the-lowest") => {
                self.pins.remove(&lowest.unwrap_or(pin));
            }
            _ => {
                self.pins.remove(&self.meant(pin));
            }
        }
        if fault.is("unpin-moves-line") {
            let slots = self.taken.values().map(|taken| taken.1);
            let least = slots.chain(self.pins.values().copied()).min();
            self.line = self.line.max(least.unwrap_or(self.clock));
        }
        if fault.is("unpin-moves-clock") {
            self.clock = (self.clock + 1).min(u64::MAX.into());
        }
        if fault.is("unpin-empties-slot") {
            self.taken.remove(&pin);
        }
        let slot = if fault.is("unpin-shows-pin") { pin } else { 0 };
        shown([0, slot, 0, 0, 0, 0])
    }

    /// The xmins of the pins that oldest, or vacuum, takes in.
    pub(super) fn pins_asked(&self, op: Op) -> Vec<u128> {
        let fault = self.fault;
        let left_out =
            fault.is("oldest-without-pins") || fault.is("vacuum-without-pins") && op == Op::Vacuum;
        let free = (self.pins.len() as u128) < PINS && fault.is("oldest-takes-free-pins");
        let mut xmins: Vec<u128> = self.pins.values().copied().collect();
        if left_out {
            xmins.clear();
        }
        if free {
            xmins.push(0);
        }
        xmins
    }

    /// The lowest pin that is kept back to `xmin`, as it is printed.
    pub(super) fn pin_holder(&self, xmin: u128) -> Option<u128> {
        let fault = self.fault;
        let mut pins = self.pins.iter().filter(|(_, held)| **held == xmin);
        let found = if fault.is("holder-highest-pin") {
            pins.next_back()
        } else {
            pins.next()
        };
        let pin = *found?.0;
        match fault {
            _ if fault.is("holder-without-pins") => None,
            _ if fault.is("holder-is-the-pin-alone") => Some(pin),
            _ if fault.is("holder-pin-from-1") => Some(2_001 + pin),
            _ if fault.is("holder-after-the-slots") => Some(table::SLOTS as u128 + pin),
            _ => Some(2_000 + pin),
        }
    }
}
