//! Replaying a trace: each record is run on one table and its answer printed.

use crate::second::{self, Fault};
use crate::table::{Refusal, Snapshot, Table};
use crate::trace::{self, Op, Record, Trace, Version};
use std::io::{self, Write};

/// What a record prints; unused values are 0.
#[derive(Clone, Debug, Default, PartialEq, Eq)]
pub struct Answer {
    pub number: u8,
    pub slot: u64,
    pub id: u64,
    pub seen: u64,
    pub xmin: u64,
    pub xmax: u64,
    pub vacuum: u64,
    pub holder: u64,
    pub in_flight: Vec<u64>,
}

/// What the program prints: the answers, and where the header has the line, whether the second reading says the same.
pub fn replay(input: &[u8], out: &mut impl Write) -> io::Result<()> {
    let mut said = Vec::new();
    answers(input, &mut said)?;
    out.write_all(&said)?;
    if trace::read(input).is_ok_and(|trace| trace.version.prints_agree()) {
        let same = said == second::answers(input, Fault::None).as_bytes();
        writeln!(out, "agree={}", u8::from(same))?;
    }
    Ok(())
}

/// The answers of a trace and their number, or refusal 9: what a replay into a buffer leaves there.
pub fn answers(input: &[u8], out: &mut impl Write) -> io::Result<()> {
    let Trace { version, records } = match trace::read(input) {
        Ok(trace) => trace,
        Err(broken) => {
            writeln!(out, "answer=9")?;
            return writeln!(out, "at={}", broken.line);
        }
    };
    let mut table = Table::fresh();
    for record in &records {
        print(version, &run(&mut table, record), out)?;
    }
    writeln!(out, "records={}", records.len())
}

/// Runs one record on the table.
pub fn run(table: &mut Table, record: &Record) -> Answer {
    let mut answer = accepted(table, record).unwrap_or_else(refused);
    answer.vacuum = table.vacuum_line();
    answer
}

fn accepted(table: &mut Table, record: &Record) -> Result<Answer, Refusal> {
    let Record {
        op,
        slot,
        id,
        stamp,
        clock,
        sample,
    } = *record;
    let mut answer = Answer::default();
    match op {
        Op::Begin => {
            answer.slot = table.begin(stamp)? as u64;
            answer.id = stamp;
        }
        Op::End => table.end(slot, id)?,
        Op::Snap => answer.show(table.snapshot(clock, sample)?),
        Op::Own => answer.show(table.transaction_snapshot(slot, id, clock, sample)?),
        Op::Oldest => {
            let oldest = table.oldest_snapshot_xmin(clock, sample)?;
            answer.xmin = oldest.xmin;
            answer.holder = oldest.holder;
        }
        Op::Vacuum => answer.holder = table.vacuum(clock, sample)?,
        Op::Stamp => answer.id = table.stamp(stamp)?,
        Op::Finish => answer.id = table.finish(slot, id, stamp)?,
        Op::Pin => {
            let (pin, snapshot) = table.pin(clock, sample)?;
            answer.slot = pin as u64;
            answer.show(snapshot);
        }
        Op::Unpin => table.unpin(slot)?,
    }
    Ok(answer)
}

fn refused(refusal: Refusal) -> Answer {
    let mut answer = Answer {
        number: refusal.number(),
        ..Answer::default()
    };
    match refusal {
        Refusal::NoFreeSlot { txid } => answer.id = txid,
        Refusal::InvalidSlot { slot } => answer.slot = slot.into(),
        Refusal::InvalidPin { pin } | Refusal::FreePin { pin } => answer.slot = pin.into(),
        Refusal::SlotOwnershipMismatch {
            slot,
            expected,
            observed,
        } => {
            answer.slot = slot.into();
            answer.id = expected;
            answer.seen = observed;
        }
        _ => {}
    }
    answer
}

impl Answer {
    fn show(&mut self, snapshot: Snapshot) {
        self.xmin = snapshot.xmin;
        self.xmax = snapshot.xmax;
        self.in_flight = snapshot.in_flight;
    }
}

fn print(version: Version, answer: &Answer, out: &mut impl Write) -> io::Result<()> {
    let Answer {
        number,
        slot,
        id,
        seen,
        xmin,
        xmax,
        vacuum,
        holder,
        in_flight,
    } = answer;
    let count = in_flight.len();
    // one call, for each has its cost
    write!(
        out,
        "answer={number}\nslot={slot}\nid={id}\nseen={seen}\nxmin={xmin}\nxmax={xmax}\nvacuum={vacuum}\ncount={count}\n"
    )?;
    if version.prints_holder() {
        writeln!(out, "holder={holder}")?;
    }
    for id in in_flight {
        writeln!(out, "in={id}")?;
    }
    Ok(())
}
