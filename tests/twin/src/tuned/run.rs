//! A record run on the table, SPEC 5, and its answer written.

use super::answers;
use super::calls::{Call, Observed, Registration};
use super::columns::{Refused, Table};
use super::page::Page;
use super::scans;

/// What an accepted record still has to write once its lines up to `xmax` stand there.
#[derive(Default)]
struct Rest {
    count: usize,
    holder: u64,
}

type Accepted = Result<Rest, Refused>;

pub fn run(table: &mut Table, call: Call, prints_holder: bool, page: &mut Page) {
    let rest = match call {
        Call::Begin(stamp) => begin(table, stamp, page),
        Call::End(owner) => end(table, owner, page),
        Call::Snap(observed) => snap(table, observed, page),
        Call::Own(owner, observed) => own(table, owner, observed, page),
        Call::Oldest(observed) => oldest(table, observed, page),
        Call::Vacuum(observed) => vacuum(table, observed, page),
        Call::Stamp(stamp) => reserve(table, stamp, page),
        Call::Finish(owner, stamp) => finish(table, owner, stamp, page),
        Call::Pin(observed) => pin(table, observed, page),
        Call::Unpin(number) => unpin(table, number, page),
    };
    let rest = rest.unwrap_or_else(|refused| {
        answers::refused(page, &refused);
        Rest::default()
    });
    let holder = prints_holder.then_some(rest.holder);
    answers::close(page, table.line, rest.count, holder);
    answers::list(page, &table.txids, rest.count);
}

fn begin(table: &mut Table, stamp: u64, page: &mut Page) -> Accepted {
    table.reserve(stamp)?;
    let Some(slot) = scans::place_of(&table.txids, 0) else {
        return Err(Refused {
            id: stamp,
            ..Refused::by(1)
        });
    };
    table.put(slot, stamp, stamp);
    answers::begun(page, slot, stamp);
    Ok(Rest::default())
}

fn end(table: &mut Table, owner: Registration, page: &mut Page) -> Accepted {
    let slot = table.owned(owner)?;
    table.put(slot, 0, 0);
    answers::nothing(page);
    Ok(Rest::default())
}

fn snap(table: &mut Table, observed: Observed, page: &mut Page) -> Accepted {
    table.observe(observed)?;
    let tally = scans::tally(&table.txids, observed.sample);
    answers::shown(page, 0, tally.xmin, tally.xmax);
    Ok(listing(tally.count))
}

fn own(table: &mut Table, owner: Registration, observed: Observed, page: &mut Page) -> Accepted {
    let slot = table.owned(owner)?;
    table.observe(observed)?;
    let tally = scans::tally(&table.txids, observed.sample);
    table.xmins[slot] = tally.xmin;
    answers::shown(page, 0, tally.xmin, tally.xmax);
    Ok(listing(tally.count))
}

fn oldest(table: &mut Table, observed: Observed, page: &mut Page) -> Accepted {
    table.observe(observed)?;
    let oldest = scans::oldest(table, observed.sample);
    answers::shown(page, 0, oldest.xmin, 0);
    Ok(held(oldest.holder))
}

fn vacuum(table: &mut Table, observed: Observed, page: &mut Page) -> Accepted {
    table.observe(observed)?;
    let oldest = scans::oldest(table, observed.sample);
    table.line = table.line.max(oldest.xmin);
    answers::nothing(page);
    Ok(held(oldest.holder))
}

fn reserve(table: &mut Table, stamp: u64, page: &mut Page) -> Accepted {
    table.reserve(stamp)?;
    answers::stamped(page, stamp);
    Ok(Rest::default())
}

fn finish(table: &mut Table, owner: Registration, stamp: u64, page: &mut Page) -> Accepted {
    let slot = table.owned(owner)?;
    table.reserve(stamp)?;
    table.put(slot, 0, 0);
    answers::stamped(page, stamp);
    Ok(Rest::default())
}

/// A snapshot for the larger of the sample and the line, whose xmin is kept in the lowest free pin.
fn pin(table: &mut Table, observed: Observed, page: &mut Page) -> Accepted {
    table.observable(observed)?;
    let pin = scans::place_of(&table.pins, 0).ok_or(Refused::by(14))?;
    table.clock = observed.clock;
    let tally = scans::tally(&table.txids, observed.sample.max(table.line));
    table.pins[pin] = tally.xmin;
    answers::shown(page, pin, tally.xmin, tally.xmax);
    Ok(listing(tally.count))
}

fn unpin(table: &mut Table, number: u16, page: &mut Page) -> Accepted {
    match table.pins.get_mut(usize::from(number)) {
        None => return Err(Refused::at(15, number)),
        Some(0) => return Err(Refused::at(16, number)),
        Some(pin) => *pin = 0,
    }
    answers::nothing(page);
    Ok(Rest::default())
}

fn listing(count: usize) -> Rest {
    Rest { count, holder: 0 }
}

fn held(holder: u64) -> Rest {
    Rest { count: 0, holder }
}
