//! The five events, and which fields each of them reads.

#[derive(Clone, Copy, Debug, PartialEq, Eq, PartialOrd, Ord)]
pub enum Kind {
    Register,
    End,
    Horizon,
    Reserve,
    Observe,
}

impl Kind {
    pub const ALL: [Kind; 5] = [
        Kind::Register,
        Kind::End,
        Kind::Horizon,
        Kind::Reserve,
        Kind::Observe,
    ];

    pub fn name(self) -> &'static str {
        match self {
            Kind::Register => "register",
            Kind::End => "end",
            Kind::Horizon => "horizon",
            Kind::Reserve => "reserve",
            Kind::Observe => "observe",
        }
    }

    pub fn from_name(name: &[u8]) -> Option<Kind> {
        Kind::ALL
            .into_iter()
            .find(|kind| kind.name().as_bytes() == name)
    }

    pub fn reads_slot(self) -> bool {
        matches!(self, Kind::Register | Kind::End | Kind::Horizon)
    }

    pub fn reads_id(self) -> bool {
        matches!(self, Kind::Register | Kind::Reserve)
    }

    pub fn reads_xmin(self) -> bool {
        self == Kind::Horizon
    }

    /// Whether the event reads `clock` and `sample`.
    pub fn reads_clock(self) -> bool {
        self == Kind::Observe
    }

    /// Whether the event reads slot, id, xmin, clock and sample.
    pub fn reads(self) -> [bool; 5] {
        let clock = self.reads_clock();
        [
            self.reads_slot(),
            self.reads_id(),
            self.reads_xmin(),
            clock,
            clock,
        ]
    }
}

#[derive(Clone, Copy, Debug, PartialEq, Eq)]
pub struct Event {
    pub kind: Kind,
    pub slot: u16,
    pub id: u64,
    pub xmin: u64,
    pub clock: u64,
    pub sample: u64,
}

impl Event {
    /// An event with all fields 0.
    pub fn plain(kind: Kind) -> Event {
        Event {
            kind,
            slot: 0,
            id: 0,
            xmin: 0,
            clock: 0,
            sample: 0,
        }
    }

    pub fn register(slot: u16, id: u64) -> Event {
        Event {
            slot,
            id,
            ..Event::plain(Kind::Register)
        }
    }

    pub fn end(slot: u16) -> Event {
        Event {
            slot,
            ..Event::plain(Kind::End)
        }
    }

    pub fn horizon(slot: u16, xmin: u64) -> Event {
        Event {
            slot,
            xmin,
            ..Event::plain(Kind::Horizon)
        }
    }

    pub fn reserve(id: u64) -> Event {
        Event {
            id,
            ..Event::plain(Kind::Reserve)
        }
    }

    pub fn observe(clock: u64, sample: u64) -> Event {
        Event {
            clock,
            sample,
            ..Event::plain(Kind::Observe)
        }
    }
}
