//! Who can retain an xmin: a slot, or a pin.

use std::fmt;

#[derive(Clone, Copy, Debug, PartialEq, Eq, PartialOrd, Ord)]
pub enum Place {
    Slot(u64),
    Pin(u64),
}

/// The holder's number where nobody holds what was found, and the one of pin 0 (SPEC 4.2).
const NOBODY: u64 = 65_535;
const PIN_0: u64 = 2_000;

/// Whom a holder's number names; without pins every other number than nobody's is a slot's.
pub fn named(holder: u64, pins: bool) -> Option<Place> {
    match holder {
        NOBODY => None,
        _ if pins && holder >= PIN_0 => Some(Place::Pin(holder - PIN_0)),
        _ => Some(Place::Slot(holder)),
    }
}

impl fmt::Display for Place {
    fn fmt(&self, to: &mut fmt::Formatter) -> fmt::Result {
        match self {
            Place::Slot(number) => write!(to, "slot {number}"),
            Place::Pin(number) => write!(to, "pin {number}"),
        }
    }
}

#[cfg(test)]
mod tests {
    use super::*;

    #[test]
    fn a_number_names_a_slot_a_pin_or_nobody() {
        assert_eq!(named(0, false), Some(Place::Slot(0)));
        assert_eq!(named(1_023, true), Some(Place::Slot(1_023)));
        assert_eq!(named(2_003, true), Some(Place::Pin(3)));
        assert_eq!(named(2_003, false), Some(Place::Slot(2_003)));
        assert_eq!(named(65_535, false), None);
        assert_eq!(named(65_535, true), None);
    }

    #[test]
    fn pins_stand_after_the_slots() {
        assert!(Place::Slot(1_023) < Place::Pin(0));
        assert_eq!(Place::Pin(3).to_string(), "pin 3");
    }
}
