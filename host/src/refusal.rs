use crate::{PinNo, SlotNo, Txid};
use std::fmt;

/// Why a call or a question was refused, with what the refusal carries. The numbers are those of docs/SPEC.md, 3.1.
#[derive(Clone, Copy, Debug, PartialEq, Eq, Hash)]
#[non_exhaustive]
pub enum Refusal {
    /// 1: every slot is taken. The number is used up all the same.
    NoFreeSlot { id: Txid },
    /// 2: no slot has this number.
    InvalidSlot { slot: SlotNo },
    /// 3: the slot holds another transaction; 0 for none.
    SlotOwnershipMismatch {
        slot: SlotNo,
        expected: Txid,
        observed: Txid,
    },
    /// 4: the id is 0, which no transaction has.
    ZeroTxid,
    /// 4: the maker of the version at this place is 0.
    ZeroMaker { place: usize },
    /// 5: the clock has no number left.
    ClockExhausted,
    /// 6: the reserved number is 0, below the clock, or the largest of all.
    BadReservation,
    /// 7: the clock handed in is below the table's.
    BadClock,
    /// 8: the sample is 0 or above the clock handed in.
    BadSample,
    /// 10: the list has more ids than a table has slots.
    BadSnapshot,
    /// 12: a run of decisions is shorter than the versions.
    NoRoom,
    /// 13: the reserved number lies too far above the clock.
    WildJump,
    /// 14: every pin is taken.
    NoFreePin,
    /// 15: no pin has this number.
    InvalidPin { pin: PinNo },
    /// 16: the pin is free.
    FreePin { pin: PinNo },
    /// 17: the ender of the version at this place is below its maker.
    EndedBefore { place: usize },
    /// 18: the bytes have the length of no list, or of no image; the words have that of no table.
    BadImage,
}

impl Refusal {
    pub fn number(self) -> u64 {
        match self {
            Refusal::NoFreeSlot { .. } => 1,
            Refusal::InvalidSlot { .. } => 2,
            Refusal::SlotOwnershipMismatch { .. } => 3,
            Refusal::ZeroTxid | Refusal::ZeroMaker { .. } => 4,
            Refusal::ClockExhausted => 5,
            Refusal::BadReservation => 6,
            Refusal::BadClock => 7,
            Refusal::BadSample => 8,
            Refusal::BadSnapshot => 10,
            Refusal::NoRoom => 12,
            Refusal::WildJump => 13,
            Refusal::NoFreePin => 14,
            Refusal::InvalidPin { .. } => 15,
            Refusal::FreePin { .. } => 16,
            Refusal::EndedBefore { .. } => 17,
            Refusal::BadImage => 18,
        }
    }

    /// Of a question, whose refusals carry nothing.
    #[cold]
    pub(crate) fn of(number: u64) -> Refusal {
        Refusal::told(number, 0, 0, 0)
    }

    /// Of a batch, with the place of its bad version.
    #[cold]
    pub(crate) fn of_batch(number: u64, place: usize) -> Refusal {
        match number {
            4 => Refusal::ZeroMaker { place },
            12 => Refusal::NoRoom,
            17 => Refusal::EndedBefore { place },
            other => unreachable!("the proved library never answers {other}"),
        }
    }

    /// Of a call, with the numbers that it told.
    #[cold]
    pub(crate) fn told(number: u64, slot: u64, id: u64, seen: u64) -> Refusal {
        let (slot, pin) = (SlotNo(slot as u16), PinNo(slot as u16));
        match number {
            1 => Refusal::NoFreeSlot { id: Txid(id) },
            2 => Refusal::InvalidSlot { slot },
            3 => Refusal::SlotOwnershipMismatch {
                slot,
                expected: Txid(id),
                observed: Txid(seen),
            },
            4 => Refusal::ZeroTxid,
            5 => Refusal::ClockExhausted,
            6 => Refusal::BadReservation,
            7 => Refusal::BadClock,
            8 => Refusal::BadSample,
            10 => Refusal::BadSnapshot,
            13 => Refusal::WildJump,
            14 => Refusal::NoFreePin,
            15 => Refusal::InvalidPin { pin },
            16 => Refusal::FreePin { pin },
            18 => Refusal::BadImage,
            other => unreachable!("the proved library never answers {other}"),
        }
    }
}

impl fmt::Display for Refusal {
    fn fmt(&self, f: &mut fmt::Formatter<'_>) -> fmt::Result {
        write!(f, "refusal {}: ", self.number())?;
        match self {
            Refusal::NoFreeSlot { id } => write!(f, "no slot is free for {}", id.0),
            Refusal::InvalidSlot { slot } => write!(f, "no slot is number {}", slot.0),
            Refusal::SlotOwnershipMismatch {
                slot,
                expected,
                observed,
            } => write!(
                f,
                "slot {} holds {}, not {}",
                slot.0, observed.0, expected.0
            ),
            Refusal::ZeroTxid => f.write_str("the id is 0"),
            Refusal::ZeroMaker { place } => write!(f, "the maker of version {place} is 0"),
            Refusal::ClockExhausted => f.write_str("the clock has no number left"),
            Refusal::BadReservation => f.write_str("the number may not be reserved"),
            Refusal::BadClock => f.write_str("the clock is below the table's"),
            Refusal::BadSample => f.write_str("the sample is 0 or above the clock"),
            Refusal::BadSnapshot => f.write_str("more ids than slots"),
            Refusal::NoRoom => f.write_str("fewer decisions than versions"),
            Refusal::WildJump => f.write_str("the number lies too far above the clock"),
            Refusal::NoFreePin => f.write_str("no pin is free"),
            Refusal::InvalidPin { pin } => write!(f, "no pin is number {}", pin.0),
            Refusal::FreePin { pin } => write!(f, "pin {} is free", pin.0),
            Refusal::EndedBefore { place } => {
                write!(f, "the ender of version {place} is below its maker")
            }
            Refusal::BadImage => f.write_str("bytes of another length"),
        }
    }
}

impl std::error::Error for Refusal {}
