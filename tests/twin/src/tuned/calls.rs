//! A record, and what the first line says of it, SPEC 9.

#[derive(Clone, Copy, PartialEq, Eq)]
pub enum Header {
    Proc1,
    Proc2,
    Proc3,
}

impl Header {
    pub fn prints_holder(self) -> bool {
        self != Header::Proc1
    }

    pub fn has_pins(self) -> bool {
        self == Header::Proc3
    }
}

/// A record: its op, and the fields that the op reads.
#[derive(Clone, Copy)]
pub enum Call {
    Begin(u64),
    End(Registration),
    Snap(Observed),
    Own(Registration, Observed),
    Oldest(Observed),
    Vacuum(Observed),
    Stamp(u64),
    Finish(Registration, u64),
    Pin(Observed),
    Unpin(u16),
}

#[derive(Clone, Copy)]
pub struct Registration {
    pub slot: u16,
    pub id: u64,
}

#[derive(Clone, Copy)]
pub struct Observed {
    pub clock: u64,
    pub sample: u64,
}
