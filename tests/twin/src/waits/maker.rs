//! Events in the making: chosen with the table's state in view, good ones and such as break one rule.

use super::check::{self, Owner};
use super::events::{Event, Kind};
use crate::random::Random;
use crate::table::{FARTHEST, SLOTS, Table};

/// How an event breaks its rule.
#[derive(Clone, Copy, Debug, PartialEq, Eq)]
pub enum Flaw {
    /// The slot is taken where it should be empty, or empty where it should be taken.
    Held,
    Outside,
    Owners,
    Number,
    Xmin,
    Clock,
    Sample,
}

impl Flaw {
    /// The flaws that an event can have.
    pub fn of(kind: Kind) -> &'static [Flaw] {
        match kind {
            Kind::Register => &[Flaw::Held, Flaw::Outside, Flaw::Owners, Flaw::Number],
            Kind::End => &[Flaw::Held, Flaw::Outside, Flaw::Owners],
            Kind::Horizon => &[
                Flaw::Held,
                Flaw::Outside,
                Flaw::Owners,
                Flaw::Xmin,
                Flaw::Xmin,
            ],
            Kind::Reserve => &[Flaw::Number],
            Kind::Observe => &[Flaw::Clock, Flaw::Sample],
        }
    }
}

pub struct Maker<'a> {
    pub events: Vec<Event>,
    random: &'a mut Random,
    table: Table,
    owner: Owner,
}

impl<'a> Maker<'a> {
    pub fn new(table: &Table, owner: Owner, random: &'a mut Random) -> Self {
        Maker {
            events: Vec::new(),
            random,
            table: table.clone(),
            owner,
        }
    }

    pub fn push(&mut self, event: Event) {
        if let Some(table) = check::step(&self.table, self.owner, &event) {
            self.table = table;
        }
        self.events.push(event);
    }

    /// Adds so many good events of any kind; fewer where the table has no room for the kind drawn.
    pub fn good(&mut self, count: u64) {
        for _ in 0..count {
            let kind = self.random.pick(&Kind::ALL);
            if let Some(event) = self.event(kind) {
                self.push(event);
            }
        }
    }

    /// Adds an event that breaks a rule, if the table lets one be found.
    pub fn bad(&mut self) {
        for _ in 0..20 {
            let kind = self.random.pick(&Kind::ALL);
            let flaw = self.random.pick(Flaw::of(kind));
            if let Some(event) = self.flawed(kind, flaw) {
                return self.push(event);
            }
        }
    }

    /// An event that keeps its rule, if there is one.
    fn event(&mut self, kind: Kind) -> Option<Event> {
        Some(match kind {
            Kind::Register => Event::register(self.slot(false)?, self.number()?),
            Kind::End => Event::end(self.slot(true)?),
            Kind::Horizon => {
                let slot = self.slot(true)?;
                Event::horizon(slot, self.xmin(slot))
            }
            Kind::Reserve => Event::reserve(self.number()?),
            Kind::Observe => {
                let clock = self.ahead();
                Event::observe(clock, self.sample(clock))
            }
        })
    }

    fn flawed(&mut self, kind: Kind, flaw: Flaw) -> Option<Event> {
        let wants_taken = kind != Kind::Register;
        let exhausted = self.table.clock() == u64::MAX;
        let mut event = match kind {
            Kind::Register => Event::register(0, if exhausted { 0 } else { self.number()? }),
            Kind::Observe => self.event(Kind::Observe)?,
            Kind::Horizon => Event::horizon(0, self.xmin(0)),
            _ => Event::plain(kind),
        };
        if kind.reads_slot() {
            event.slot = match flaw {
                Flaw::Held => self.slot(!wants_taken)?,
                Flaw::Outside => self.outside(),
                Flaw::Owners => self.owner?.0,
                _ => self.slot(wants_taken)?,
            };
        }
        match flaw {
            Flaw::Number => event.id = self.bad_number(),
            Flaw::Xmin => event.xmin = self.bad_xmin(event.slot),
            Flaw::Clock => {
                event.clock = self.bad_clock();
                event.sample = self.sample(event.clock);
            }
            Flaw::Sample => {
                let above = event.clock.saturating_add(1);
                event.sample = self.random.pick(&[0, above, u64::MAX]);
            }
            _ => {}
        }
        Some(event)
    }

    /// A slot that is taken, or one that is not, and not the owner's: often the first or the last of them.
    fn slot(&mut self, taken: bool) -> Option<u16> {
        let slots = self.table.slots().iter().zip(0..);
        let fits = slots.filter(|(slot, _)| (slot.txid != 0) == taken);
        let owners = self.owner.map(|owner| owner.0);
        let places: Vec<u16> = fits
            .map(|(_, place)| place)
            .filter(|place| Some(*place) != owners)
            .collect();
        let (first, last) = (*places.first()?, *places.last()?);
        let any = self.random.pick(&places);
        Some(self.random.pick(&[first, last, any, any]))
    }

    /// A slot number outside the table, often one that ends in the bits of a slot that would do.
    fn outside(&mut self) -> u16 {
        let taken = self.random.once_in(2);
        let inside = self.slot(taken).unwrap_or(0);
        let size = SLOTS as u16;
        self.random
            .pick(&[size, u16::MAX, size + inside, 2 * size + inside])
    }

    /// A number from the clock on, most often close to it.
    fn ahead(&mut self) -> u64 {
        let few = self.random.pick(&[0, 0, 0, 1, 1, 2, 9]);
        let near = self.table.clock().saturating_add(few);
        let far = [1 << 16, 1 << 32, (1 << 32) + 1, 1 << 63];
        match self.random.below(24) {
            0 => near.max(self.random.pick(&far)),
            1 => near.max(u64::MAX - self.random.below(4)),
            _ => near,
        }
    }

    /// A number fit for reservation, often the last one that is.
    fn number(&mut self) -> Option<u64> {
        let clock = self.table.clock();
        let last = clock.saturating_add(FARTHEST).min(u64::MAX - 1);
        let number = match self.random.below(16) {
            0 => last,
            _ => self.ahead().min(last),
        };
        (clock <= number).then_some(number)
    }

    fn bad_number(&mut self) -> u64 {
        let clock = self.table.clock();
        let below = self.random.below(clock.max(1));
        let near = clock.saturating_sub(1);
        let far = clock.saturating_add(FARTHEST + 1);
        let wild = far.max(1 << 63);
        self.random
            .pick(&[0, u64::MAX, below, near, near, far, far, wild])
    }

    /// From 1 to the least active id, most often at an edge.
    fn xmin(&mut self, slot: u16) -> u64 {
        let least = check::least_active(&self.table).unwrap_or(1);
        let slots = self.table.slots();
        let former = slots[usize::from(slot)].snapshot_xmin;
        let any = self.random.between(1, least);
        let line = self.table.vacuum_line();
        let wanted = [1, least, least, least - 1, former, line, any];
        self.random.pick(&wanted).clamp(1, least)
    }

    /// Above the least active id, up to the slot's own and beyond it, or 0.
    fn bad_xmin(&mut self, slot: u16) -> u64 {
        let least = check::least_active(&self.table).unwrap_or(1);
        let held = self.table.slots()[usize::from(slot)];
        let next = least.saturating_add(1);
        let own = held.txid.max(next);
        let kept = held.snapshot_xmin.max(next);
        self.random.pick(&[0, next, own, own, kept, u64::MAX])
    }

    fn bad_clock(&mut self) -> u64 {
        let clock = self.table.clock();
        let below = self.random.below(clock.max(1));
        let near = clock.saturating_sub(1);
        self.random.pick(&[0, below, near, near])
    }

    /// From 1 to the clock, if that is not 0.
    fn sample(&mut self, clock: u64) -> u64 {
        let former = self.table.sampled_clock();
        let any = self.random.below(clock.saturating_add(1));
        let wanted = [1, clock, former, former.saturating_add(1), any];
        self.random.pick(&wanted).clamp(1, clock.max(1))
    }
}
