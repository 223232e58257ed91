//! What a record prints, SPEC 10.2: few shapes, each a row of spans with its numbers between.

use super::columns::Refused;
use super::page::Page;
use crate::table::SLOTS;

/// More than a record prints: its nine lines, and a line for each id.
pub const ROOM: usize = 252 + 24 * SLOTS;

/// The lines up to `xmax`, of an accepted record that sets none of them.
pub fn nothing(page: &mut Page) {
    page.span(b"answer=0\nslot=0\nid=0\nseen=0\nxmin=0\nxmax=0");
}

/// Of one that answers a stamp.
pub fn stamped(page: &mut Page, stamp: u64) {
    page.span(b"answer=0\nslot=0\nid=");
    page.number(stamp);
    page.span(b"\nseen=0\nxmin=0\nxmax=0");
}

/// Of an accepted begin.
pub fn begun(page: &mut Page, slot: usize, txid: u64) {
    page.span(b"answer=0\nslot=");
    page.number(slot as u64);
    page.span(b"\nid=");
    page.number(txid);
    page.span(b"\nseen=0\nxmin=0\nxmax=0");
}

/// Of one that answers an xmin.
pub fn shown(page: &mut Page, slot: usize, xmin: u64, xmax: u64) {
    page.span(b"answer=0\nslot=");
    page.number(slot as u64);
    page.span(b"\nid=0\nseen=0\nxmin=");
    page.number(xmin);
    page.span(b"\nxmax=");
    page.number(xmax);
}

pub fn refused(page: &mut Page, refused: &Refused) {
    page.span(b"answer=");
    page.number(refused.number);
    page.span(b"\nslot=");
    page.number(refused.slot);
    page.span(b"\nid=");
    page.number(refused.id);
    page.span(b"\nseen=");
    page.number(refused.seen);
    page.span(b"\nxmin=0\nxmax=0");
}

/// The lines after `xmax`; `holder` where the header has that line.
pub fn close(page: &mut Page, line: u64, count: usize, holder: Option<u64>) {
    page.span(b"\nvacuum=");
    page.number(line);
    page.span(b"\ncount=");
    page.number(count as u64);
    if let Some(holder) = holder {
        page.span(b"\nholder=");
        page.number(holder);
    }
    page.span(b"\n");
}

/// A line for each of the first `count` active ids.
pub fn list(page: &mut Page, txids: &[u64], count: usize) {
    let active = txids.iter().filter(|txid| **txid != 0);
    for txid in active.take(count) {
        page.span(b"in=");
        page.number(*txid);
        page.span(b"\n");
    }
}

pub fn end(page: &mut Page, records: usize) {
    page.span(b"records=");
    page.number(records as u64);
    page.span(b"\n");
}

/// Refusal 9, SPEC 10.4.
pub fn broken(page: &mut Page, line: usize) {
    page.span(b"answer=9\nat=");
    page.number(line as u64);
    page.span(b"\n");
}
