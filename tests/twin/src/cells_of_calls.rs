//! Coverage of the calls: answers, orders of refusals, and the ways a value comes about.

use crate::coverage::Coverage;
use crate::grounds;
use crate::replay::{self, Answer};
use crate::table::{FARTHEST, FIRST_PIN, NOBODY, PINS, SLOTS, Slot, Table};
use crate::trace::{self, Op, Record, Trace, Version};

pub fn required() -> Vec<String> {
    let mut cells = Vec::new();
    for op in Op::ALL {
        let name = op.name();
        let order = grounds::order(op);
        cells.push(format!("{name} answers 0"));
        for (place, first) in order.iter().enumerate() {
            cells.push(format!("{name} answers {first}"));
            let later = order[place + 1..].iter();
            for second in later.filter(|second| grounds::together(*first, **second)) {
                cells.push(format!("{name} {first} before {second}"));
            }
        }
        for version in Version::ALL.into_iter().filter(|v| v.allows(op)) {
            let header = version.header();
            cells.push(format!("{name} accepted, {header}"));
            cells.push(format!("{name} refused, {header}"));
        }
        for way in ways(op) {
            cells.push(format!("{name}: {way}"));
        }
    }
    cells
}

fn ways(op: Op) -> Vec<&'static str> {
    let mut ways = Vec::new();
    if op.reads_registration() {
        ways.extend(REGISTRATION_WAYS);
    }
    if op.reads_stamp() {
        ways.extend(NUMBER_WAYS);
    }
    if op.reads_clock() {
        ways.extend(CLOCK_WAYS);
    }
    match op {
        Op::Begin => ways.push("below a taken slot"),
        Op::Snap | Op::Own => ways.extend(SNAPSHOT_WAYS),
        Op::Oldest => ways.extend(["sample is least", "kept xmin is least"]),
        Op::Vacuum => ways.extend(VACUUM_WAYS),
        Op::Pin => ways.extend([&SNAPSHOT_WAYS[..], &PIN_WAYS].concat()),
        Op::Unpin => ways.extend(UNPIN_WAYS),
        _ => {}
    }
    if matches!(op, Op::Oldest | Op::Vacuum) {
        ways.extend(HOLDER_WAYS);
    }
    if matches!(op, Op::Snap | Op::Pin) {
        ways.push("lists none");
    }
    ways
}

const REGISTRATION_WAYS: [&str; 8] = [
    "3 for an empty slot",
    "3 for another id",
    "4 at an empty slot",
    "4 at a taken slot",
    "2 with the low bits of the owned slot",
    "slot just inside",
    "slot just outside",
    "slot 65535",
];

const NUMBER_WAYS: [&str; 9] = [
    "6 for 0",
    "6 just below clock",
    "6 for 2^64 - 1",
    "accepts the clock itself",
    "accepts above 2^32",
    "accepts 2^64 - 2",
    "accepts 2^32 above the clock",
    "13 one past 2^32 above the clock",
    "13 for 2^64 - 2",
];

const CLOCK_WAYS: [&str; 3] = [
    "8 for sample 0",
    "8 for sample above clock",
    "accepts a clock more than 2^32 on",
];

const SNAPSHOT_WAYS: [&str; 7] = [
    "xmin is a stale sample",
    "xmin is the least id",
    "xmax is the sample",
    "xmax is the largest id + 1",
    "xmax is 2^64 - 1",
    "lists all slots",
    "lists ids out of order",
];

/// Seen in a ninth line.
const HOLDER_WAYS: [&str; 14] = [
    "names nobody",
    "names slot 0",
    "names another slot",
    "names the lowest of several",
    "names a slot above an empty one",
    "names a slot as low as the sample",
    "names nobody, though pins are held",
    "names a slot, though a pin has the xmin too",
    "names pin 0",
    "names the last pin",
    "names the lowest of several pins",
    "names a pin above a free one",
    "names a pin as low as the sample",
    "names a pin, slots are taken",
];

const VACUUM_WAYS: [&str; 8] = [
    "line raised",
    "line kept above the oldest",
    "line kept, a slot named",
    "line kept, nobody named",
    "line raised to a pin's xmin",
    "line raised, all pins held",
    "line raised below every pin",
    "line kept by a pin at it",
];

const PIN_WAYS: [&str; 10] = [
    "takes pin 0",
    "takes the last pin",
    "takes a pin below a taken one",
    "sample below the line, an id in flight",
    "sample below the line, none in flight",
    "sample at the line",
    "sample above the line",
    "keeps another xmin than a pin before it",
    "keeps the xmin of a pin before it",
    "a slot is taken, of the pin's number",
];

const UNPIN_WAYS: [&str; 10] = [
    "15 just outside",
    "15 for 65535",
    "15 with the low bits of a taken pin",
    "15 for the number of a taken slot",
    "15 for the number of a holder",
    "16 below a taken pin",
    "16 where all pins are free",
    "16 for the number of a taken slot",
    "releases the last pin",
    "releases what held the line",
];

pub fn count(text: &[u8], coverage: &mut Coverage) {
    let Ok(Trace { version, records }) = trace::read(text) else {
        return;
    };
    coverage.items += records.len() as u64;
    let mut table = Table::fresh();
    for record in &records {
        let before = table.clone();
        let answer = replay::run(&mut table, record);
        count_order(&before, record, &answer, coverage);
        count_version(version, record, &answer, coverage);
        let mut hit = |condition: bool, way: &str| {
            coverage.hit_if(condition, &format!("{}: {way}", record.op.name()));
        };
        registration_ways(&before, record, &answer, &mut hit);
        number_ways(&before, record, &answer, &mut hit);
        snapshot_ways(&before, record, &answer, &mut hit);
        other_ways(&before, record, &answer, &mut hit);
        match record.op {
            Op::Pin if answer.number == 0 => pin_ways(&before, record, &answer, &mut hit),
            Op::Unpin => unpin_ways(&before, record, &answer, &mut hit),
            _ => {}
        }
        if version.prints_holder() && answer.number == 0 {
            holder_ways(&before, record, &answer, &mut hit);
        }
    }
}

fn count_version(version: Version, record: &Record, answer: &Answer, coverage: &mut Coverage) {
    let (name, header) = (record.op.name(), version.header());
    let how = if answer.number == 0 {
        "accepted"
    } else {
        "refused"
    };
    coverage.hit(&format!("{name} {how}, {header}"));
}

/// Of an accepted oldest or vacuum; the cells of other ops don't name these ways.
fn holder_ways(before: &Table, record: &Record, answer: &Answer, hit: &mut impl FnMut(bool, &str)) {
    let taken = |slot: &&Slot| slot.txid != 0;
    let slots = before.slots().iter().filter(taken);
    let xmins = slots.map(|slot| slot.snapshot_xmin);
    let pins = before.pins().iter().copied().filter(|pin| *pin != 0);
    let least = xmins
        .clone()
        .chain(pins.clone())
        .fold(record.sample, u64::min);
    let several = xmins.filter(|xmin| *xmin == least).count() > 1;
    let nobody = answer.holder == NOBODY;
    let named = answer.holder < SLOTS as u64;
    let below = before.slots().iter().take(answer.holder as usize);
    let kept = answer.vacuum > least;
    let at_sample = least == record.sample;
    hit(nobody, "names nobody");
    hit(answer.holder == 0, "names slot 0");
    hit(named && answer.holder != 0, "names another slot");
    hit(named && several, "names the lowest of several");
    hit(
        named && below.clone().any(|slot| slot.txid == 0),
        "names a slot above an empty one",
    );
    hit(named && at_sample, "names a slot as low as the sample");
    hit(kept && named, "line kept, a slot named");
    hit(kept && nobody, "line kept, nobody named");
    let as_low = pins.clone().filter(|pin| *pin == least).count();
    hit(
        nobody && pins.clone().count() > 0,
        "names nobody, though pins are held",
    );
    hit(
        named && as_low > 0,
        "names a slot, though a pin has the xmin too",
    );
    vacuum_ways(before, answer, hit);
    if let Some(pin) = answer.holder.checked_sub(FIRST_PIN).filter(|_| !nobody) {
        let below = &before.pins()[..pin as usize];
        hit(pin == 0, "names pin 0");
        hit(pin as usize == PINS - 1, "names the last pin");
        hit(as_low > 1, "names the lowest of several pins");
        hit(below.contains(&0), "names a pin above a free one");
        hit(at_sample, "names a pin as low as the sample");
        hit(
            before.slots().iter().any(|slot| slot.txid != 0),
            "names a pin, slots are taken",
        );
    }
}

/// How the line fares where pins are held.
fn vacuum_ways(before: &Table, answer: &Answer, hit: &mut impl FnMut(bool, &str)) {
    let (former, line) = (before.vacuum_line(), answer.vacuum);
    let pins = before.pins().iter().copied().filter(|pin| *pin != 0);
    let Some(least) = pins.clone().min() else {
        return;
    };
    let raised = line > former;
    hit(raised && line == least, "line raised to a pin's xmin");
    hit(raised && pins.count() == PINS, "line raised, all pins held");
    hit(raised && line < least, "line raised below every pin");
    hit(!raised && least == line, "line kept by a pin at it");
}

/// Of an accepted pin.
fn pin_ways(before: &Table, record: &Record, answer: &Answer, hit: &mut impl FnMut(bool, &str)) {
    let (pin, line) = (answer.slot as usize, before.vacuum_line());
    let (sample, idle) = (record.sample, answer.in_flight.is_empty());
    let pins = before.pins();
    let mut held = pins[..pin].iter().filter(|xmin| **xmin != 0);
    hit(pin == 0, "takes pin 0");
    hit(pin == PINS - 1, "takes the last pin");
    hit(
        pins[pin..].iter().any(|xmin| *xmin != 0),
        "takes a pin below a taken one",
    );
    hit(
        sample < line && !idle,
        "sample below the line, an id in flight",
    );
    hit(
        sample < line && idle,
        "sample below the line, none in flight",
    );
    hit(sample == line, "sample at the line");
    hit(sample > line, "sample above the line");
    hit(
        held.clone().any(|xmin| *xmin != answer.xmin),
        "keeps another xmin than a pin before it",
    );
    hit(
        held.any(|xmin| *xmin == answer.xmin),
        "keeps the xmin of a pin before it",
    );
    hit(
        before.slots()[pin].txid != 0,
        "a slot is taken, of the pin's number",
    );
}

fn unpin_ways(before: &Table, record: &Record, answer: &Answer, hit: &mut impl FnMut(bool, &str)) {
    let pin = usize::from(record.slot);
    let pins = before.pins();
    let (outside, free) = (answer.number == 15, answer.number == 16);
    let slot_taken = before.slots().get(pin).is_some_and(|slot| slot.txid != 0);
    let printed = pin.checked_sub(FIRST_PIN as usize);
    hit(outside && pin == PINS, "15 just outside");
    hit(outside && pin == 65_535, "15 for 65535");
    hit(
        outside && pins[pin % PINS] != 0,
        "15 with the low bits of a taken pin",
    );
    hit(outside && slot_taken, "15 for the number of a taken slot");
    hit(
        outside && printed.is_some_and(|pin| pins.get(pin).is_some_and(|xmin| *xmin != 0)),
        "15 for the number of a holder",
    );
    hit(
        free && pins[pin..].iter().any(|xmin| *xmin != 0),
        "16 below a taken pin",
    );
    hit(
        free && pins.iter().all(|xmin| *xmin == 0),
        "16 where all pins are free",
    );
    hit(free && slot_taken, "16 for the number of a taken slot");
    let released = answer.number == 0;
    hit(released && pin == PINS - 1, "releases the last pin");
    hit(
        released && pins[pin] == before.vacuum_line() && before.vacuum_line() > 1,
        "releases what held the line",
    );
}

fn count_order(before: &Table, record: &Record, answer: &Answer, coverage: &mut Coverage) {
    let name = record.op.name();
    let holding = grounds::holding(before, record);
    if holding.first().copied().unwrap_or(0) != answer.number {
        coverage.out_of_order();
    }
    coverage.hit(&format!("{name} answers {}", answer.number));
    for second in holding.iter().skip(1) {
        coverage.hit(&format!("{name} {} before {second}", holding[0]));
    }
}

fn registration_ways(
    before: &Table,
    record: &Record,
    answer: &Answer,
    hit: &mut impl FnMut(bool, &str),
) {
    let slot = usize::from(record.slot);
    let same_bits = before.slots()[slot % SLOTS].txid;
    let number = answer.number;
    hit(number == 3 && answer.seen == 0, "3 for an empty slot");
    hit(number == 3 && answer.seen != 0, "3 for another id");
    hit(number == 4 && same_bits == 0, "4 at an empty slot");
    hit(number == 4 && same_bits != 0, "4 at a taken slot");
    hit(
        number == 2 && record.id != 0 && same_bits == record.id,
        "2 with the low bits of the owned slot",
    );
    hit(number == 0 && slot == SLOTS - 1, "slot just inside");
    hit(number == 2 && slot == SLOTS, "slot just outside");
    hit(number == 2 && slot == 65_535, "slot 65535");
}

fn number_ways(before: &Table, record: &Record, answer: &Answer, hit: &mut impl FnMut(bool, &str)) {
    let stamp = record.stamp;
    let clock = before.clock();
    let bad = answer.number == 6;
    let fit = answer.number == 0;
    hit(bad && stamp == 0, "6 for 0");
    hit(
        bad && stamp != 0 && stamp == clock - 1,
        "6 just below clock",
    );
    hit(bad && stamp == u64::MAX, "6 for 2^64 - 1");
    hit(fit && stamp == clock, "accepts the clock itself");
    hit(fit && stamp > 1 << 32, "accepts above 2^32");
    hit(fit && stamp == u64::MAX - 1, "accepts 2^64 - 2");
    let above = stamp.checked_sub(clock);
    hit(
        fit && above == Some(FARTHEST),
        "accepts 2^32 above the clock",
    );
    let wild = answer.number == 13;
    hit(
        wild && above == Some(FARTHEST + 1),
        "13 one past 2^32 above the clock",
    );
    hit(wild && stamp == u64::MAX - 1, "13 for 2^64 - 2");
}

fn snapshot_ways(
    before: &Table,
    record: &Record,
    answer: &Answer,
    hit: &mut impl FnMut(bool, &str),
) {
    if answer.number != 0 {
        return;
    }
    let sample = match record.op {
        Op::Pin => record.sample.max(before.vacuum_line()),
        _ => record.sample,
    };
    let ids = &answer.in_flight;
    hit(ids.is_empty(), "lists none");
    let (Some(&least), Some(&largest)) = (ids.iter().min(), ids.iter().max()) else {
        return;
    };
    hit(sample < least, "xmin is a stale sample");
    hit(least < sample, "xmin is the least id");
    hit(sample > largest + 1, "xmax is the sample");
    hit(sample < largest + 1, "xmax is the largest id + 1");
    hit(largest == u64::MAX - 1, "xmax is 2^64 - 1");
    hit(ids.len() == SLOTS, "lists all slots");
    hit(!ids.is_sorted(), "lists ids out of order");
}

fn other_ways(before: &Table, record: &Record, answer: &Answer, hit: &mut impl FnMut(bool, &str)) {
    let sample = record.sample;
    hit(answer.number == 8 && sample == 0, "8 for sample 0");
    hit(
        answer.number == 8 && sample != 0,
        "8 for sample above clock",
    );
    if answer.number != 0 {
        return;
    }
    let on = record.clock.saturating_sub(before.clock());
    hit(on > FARTHEST, "accepts a clock more than 2^32 on");
    let taken = before.slots().iter().filter(|slot| slot.txid != 0);
    let xmins = taken.map(|slot| slot.snapshot_xmin);
    let pins = before.pins().iter().copied().filter(|pin| *pin != 0);
    let kept = xmins.chain(pins).min();
    let least = kept.map_or(sample, |xmin| xmin.min(sample));
    let slot = answer.slot as usize;
    let above = &before.slots()[slot..];
    hit(
        above.iter().any(|slot| slot.txid != 0),
        "below a taken slot",
    );
    hit(kept.is_some_and(|xmin| sample < xmin), "sample is least");
    hit(kept.is_some_and(|xmin| xmin < sample), "kept xmin is least");
    hit(answer.vacuum > before.vacuum_line(), "line raised");
    hit(answer.vacuum > least, "line kept above the oldest");
}
