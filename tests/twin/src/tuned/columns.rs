//! The table as columns, SPEC 2, and the tests of SPEC 4.

use super::calls::{Observed, Registration};
use crate::table::SLOTS;

/// Number of pins.
pub const PINS: usize = 64;

/// How far above the clock a reserved number may lie.
const FARTHEST: u64 = 1 << 32;

/// Slot i is the pair of `txids[i]` and `xmins[i]`; an empty one is 0 in both, as a fresh table's are and every call keeps
/// it. A pin is its xmin, 0 where it is free. The sampled clock is left out: no call reads it.
pub struct Table {
    pub txids: [u64; SLOTS],
    pub xmins: [u64; SLOTS],
    pub pins: [u64; PINS],
    pub clock: u64,
    pub line: u64,
}

/// A refusal's number, and what it carries.
pub struct Refused {
    pub number: u64,
    pub slot: u64,
    pub id: u64,
    pub seen: u64,
}

impl Refused {
    pub fn by(number: u64) -> Refused {
        Refused::at(number, 0)
    }

    /// One that carries the slot, or the pin.
    pub fn at(number: u64, slot: u16) -> Refused {
        Refused {
            number,
            slot: slot.into(),
            id: 0,
            seen: 0,
        }
    }
}

impl Table {
    pub fn fresh() -> Table {
        Table {
            txids: [0; SLOTS],
            xmins: [0; SLOTS],
            pins: [0; PINS],
            clock: 1,
            line: 1,
        }
    }

    pub fn put(&mut self, slot: usize, txid: u64, xmin: u64) {
        self.txids[slot] = txid;
        self.xmins[slot] = xmin;
    }

    /// The slot of a registration, SPEC 4.5.
    pub fn owned(&self, owner: Registration) -> Result<usize, Refused> {
        let slot = usize::from(owner.slot);
        if slot >= SLOTS {
            return Err(Refused::at(2, owner.slot));
        }
        if owner.id == 0 {
            return Err(Refused::by(4));
        }
        let seen = self.txids[slot];
        if seen != owner.id {
            return Err(Refused {
                id: owner.id,
                seen,
                ..Refused::at(3, owner.slot)
            });
        }
        Ok(slot)
    }

    /// SPEC 4.3.
    pub fn reserve(&mut self, number: u64) -> Result<(), Refused> {
        if self.clock == u64::MAX {
            return Err(Refused::by(5));
        }
        // the clock is 1 at least, so that a number from it on is not 0
        if number < self.clock || number == u64::MAX {
            return Err(Refused::by(6));
        }
        if number - self.clock > FARTHEST {
            return Err(Refused::by(13));
        }
        self.clock = number + 1;
        Ok(())
    }

    /// Whether an observation would be accepted, SPEC 4.4; it moves the clock alone.
    pub fn observable(&self, observed: Observed) -> Result<(), Refused> {
        if observed.clock < self.clock {
            return Err(Refused::by(7));
        }
        if observed.sample == 0 || observed.sample > observed.clock {
            return Err(Refused::by(8));
        }
        Ok(())
    }

    pub fn observe(&mut self, observed: Observed) -> Result<(), Refused> {
        self.observable(observed)?;
        self.clock = observed.clock;
        Ok(())
    }
}
