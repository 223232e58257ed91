//! The same calls through the Rust crate; what it gives, as the twin tells it.

use crate::plain;
use sockhurdle::{Holder, PinNo, Refusal, Registration, SlotNo, Snapshot, Stamp, Table, Txid};
use twin::replay::Answer;
use twin::trace::{Op, Record};

/// The table as the crate takes it over, where it passes the check.
pub fn adopted(table: &twin::table::Table) -> Option<Table> {
    let adopted = Table::adopt(plain::words(table).into());
    adopted.expect("the words of a table")
}

fn holder(told: Holder) -> u64 {
    match told {
        Holder::Slot(slot) => slot.0.into(),
        Holder::Pin(pin) => 2_000 + u64::from(pin.0),
        Holder::Nobody => 65_535,
    }
}

/// What the crate gives. The line is told by vacuum alone, and read from the words else.
pub fn told(table: &mut Table, record: &Record) -> Answer {
    let mut answer = given(table, record).unwrap_or_else(refused);
    if record.op != Op::Vacuum || answer.number != 0 {
        answer.vacuum = table.line();
    }
    answer
}

fn given(table: &mut Table, record: &Record) -> Result<Answer, Refusal> {
    let of = Registration {
        slot: SlotNo(record.slot),
        id: Txid(record.id),
    };
    let (number, clock, sample) = (Stamp(record.stamp), record.clock, record.sample);
    let mut answer = Answer::default();
    match record.op {
        Op::Begin => {
            let given = table.begin(number)?;
            (answer.slot, answer.id) = (given.slot.0.into(), given.id.0);
        }
        Op::End => table.end(of)?,
        Op::Snap => show(&mut answer, &table.snapshot(clock, sample)?),
        Op::Own => show(&mut answer, &table.transaction_snapshot(of, clock, sample)?),
        Op::Oldest => {
            let (xmin, by) = table.oldest(clock, sample)?;
            (answer.xmin, answer.holder) = (xmin, holder(by));
        }
        Op::Vacuum => {
            let (line, by) = table.vacuum(clock, sample)?;
            (answer.vacuum, answer.holder) = (line, holder(by));
        }
        Op::Stamp => answer.id = table.stamp(number)?.0,
        Op::Finish => answer.id = table.finish(of, number)?.0,
        Op::Pin => {
            let (pin, seen) = table.pin(clock, sample)?;
            answer.slot = pin.0.into();
            show(&mut answer, &seen);
        }
        Op::Unpin => table.unpin(PinNo(record.slot))?,
    }
    Ok(answer)
}

fn show(answer: &mut Answer, seen: &Snapshot) {
    (answer.xmin, answer.xmax) = (seen.xmin(), seen.xmax());
    answer.in_flight = seen.in_flight().to_vec();
}

fn refused(refusal: Refusal) -> Answer {
    let mut answer = Answer {
        number: refusal.number() as u8,
        ..Answer::default()
    };
    match refusal {
        Refusal::NoFreeSlot { id } => answer.id = id.0,
        Refusal::InvalidSlot { slot } => answer.slot = slot.0.into(),
        Refusal::SlotOwnershipMismatch {
            slot,
            expected,
            observed,
        } => (answer.slot, answer.id, answer.seen) = (slot.0.into(), expected.0, observed.0),
        Refusal::InvalidPin { pin } | Refusal::FreePin { pin } => answer.slot = pin.0.into(),
        _ => {}
    }
    answer
}
