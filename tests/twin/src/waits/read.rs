//! The texts of a wait and of a table: read, or the first line that breaks a rule; and written.

use super::events::{Event, Kind};
use crate::table::{PINS, SLOTS, Slot, Table};
use crate::trace::{BadTrace, LIMIT, Lines};
use std::fmt::Write;

pub const WAIT_HEADER: &str = "wait=proc-1\n";
pub const TABLE_HEADER: &str = "table=proc-1\n";

/// The events of a wait's text.
pub fn events(text: &[u8]) -> Result<Vec<Event>, BadTrace> {
    if text.len() > LIMIT {
        return Err(BadTrace { line: 0 });
    }
    let mut lines = Lines::of(text);
    header(&mut lines, b"wait=proc-1")?;
    let mut events = Vec::new();
    while !lines.is_empty() {
        events.push(event(&mut lines)?);
    }
    Ok(events)
}

fn header(lines: &mut Lines, wanted: &[u8]) -> Result<(), BadTrace> {
    if lines.line()? == wanted {
        Ok(())
    } else {
        Err(lines.broken())
    }
}

fn event(lines: &mut Lines) -> Result<Event, BadTrace> {
    let name = lines.value(b"event=")?;
    let kind = Kind::from_name(name).ok_or(lines.broken())?;
    let slot = lines.field(b"slot=", u16::MAX.into(), kind.reads_slot())?;
    Ok(Event {
        kind,
        slot: slot as u16,
        id: lines.field(b"id=", u64::MAX, kind.reads_id())?,
        xmin: lines.field(b"xmin=", u64::MAX, kind.reads_xmin())?,
        clock: lines.field(b"clock=", u64::MAX, kind.reads_clock())?,
        sample: lines.field(b"sample=", u64::MAX, kind.reads_clock())?,
    })
}

/// The table that a text tells: every slot in order, then every pin, then clock, sample and line, and nothing more.
pub fn table(text: &[u8]) -> Result<Table, BadTrace> {
    let mut lines = Lines::of(text);
    header(&mut lines, b"table=proc-1")?;
    let mut number = |key: &[u8]| lines.field(key, u64::MAX, true);
    let mut slots = [Slot::default(); SLOTS];
    for slot in &mut slots {
        slot.txid = number(b"txid=")?;
        slot.snapshot_xmin = number(b"xmin=")?;
    }
    let mut pins = [0; PINS];
    for pin in &mut pins {
        *pin = number(b"pin=")?;
    }
    let (clock, sample, line) = (number(b"clock=")?, number(b"sample=")?, number(b"line=")?);
    if lines.is_empty() {
        return Ok(Table::of(slots, pins, clock, sample, line));
    }
    let after = lines.broken().line + 1;
    Err(BadTrace { line: after })
}

pub fn text_of_event(event: &Event) -> String {
    format!(
        "event={}\nslot={}\nid={}\nxmin={}\nclock={}\nsample={}\n",
        event.kind.name(),
        event.slot,
        event.id,
        event.xmin,
        event.clock,
        event.sample
    )
}

pub fn text_of_events(events: &[Event]) -> Vec<u8> {
    let mut text = String::from(WAIT_HEADER);
    text.extend(events.iter().map(text_of_event));
    text.into_bytes()
}

pub fn text_of_table(table: &Table) -> String {
    let mut text = String::from(TABLE_HEADER);
    for slot in table.slots() {
        let Slot {
            txid,
            snapshot_xmin,
        } = slot;
        writeln!(text, "txid={txid}\nxmin={snapshot_xmin}").expect("a String takes every byte");
    }
    for pin in table.pins() {
        writeln!(text, "pin={pin}").expect("a String takes every byte");
    }
    let (clock, sample) = (table.clock(), table.sampled_clock());
    let line = table.vacuum_line();
    text + &format!("clock={clock}\nsample={sample}\nline={line}\n")
}
