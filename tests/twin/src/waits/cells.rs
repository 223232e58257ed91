//! Coverage of the waits: every event, every rule broken, every refusal, every pair that the order decides.

use super::check::{self, Wait};
use super::events::Kind;
use super::grounds::{self, Found};
use super::{cells_of_texts, read, ways};
use crate::coverage::Coverage;
use crate::table::{PINS, SLOTS, Table};

const ORDER: [u64; 6] = [9, 21, 2, 4, 3, 22];

const CONDITIONS: [&str; 12] = [
    "sample 0",
    "sample above clock",
    "line 0",
    "line above clock",
    "empty slot with xmin",
    "xmin 0",
    "xmin above txid",
    "txid from clock",
    "txid below line",
    "txid twice",
    "pin below line",
    "pin above clock",
];

const PASSING: [&str; 14] = [
    "all slots empty",
    "all slots taken",
    "an xmin above the least id",
    "an xmin below the line",
    "the line at the clock",
    "the sample at the clock",
    "the line at an id",
    "clock 2^64 - 1",
    "all pins free",
    "all pins taken",
    "a pin at the line",
    "a pin at the clock",
    "a pin above the least id",
    "the last pin alone is taken",
];

const ANSWERS: [&str; 15] = [
    "0 with no event and nobody",
    "0 with no event and an owner",
    "0 with events and nobody",
    "0 with events and an owner",
    "2 just outside",
    "2 at 65535",
    "2 with the low bits of the held slot",
    "3 at an empty slot",
    "3 at another id",
    "4 at an empty slot",
    "4 at a taken slot",
    "22 at 1",
    "22 at the last of several",
    "22 after steps that changed the table",
    "22 with another bad step after it",
];

fn required() -> Vec<String> {
    let mut cells: Vec<String> = Vec::new();
    for (place, first) in ORDER.iter().enumerate() {
        cells.push(format!("answers {first}"));
        let later = ORDER[place + 1..].iter();
        cells.extend(later.map(|second| format!("{first} before {second}")));
    }
    cells.push("the table's 9 before the wait's".into());
    cells.push("21 with the longest text of a table".into());
    cells.extend(ANSWERS.map(|answer| format!("answers {answer}")));
    cells.extend(CONDITIONS.map(|name| format!("21 by {name} alone")));
    cells.extend(PASSING.map(|name| format!("entry: {name}")));
    for kind in Kind::ALL {
        let name = kind.name();
        let (rules, kept, broken) = (ways::rules(kind), ways::kept(kind), ways::broken(kind));
        cells.extend(
            rules
                .iter()
                .map(|rule| format!("{name} breaks {rule} alone")),
        );
        cells.extend(kept.iter().map(|way| format!("{name} kept: {way}")));
        cells.extend(broken.iter().map(|way| format!("{name} broken: {way}")));
    }
    cells
}

/// All cells that waits have to hit, each with count 0.
pub fn coverage() -> Coverage {
    let cells = [required(), cells_of_texts::required()];
    Coverage::of(cells.concat(), ["waits", "events"])
}

pub fn add(wait: &Wait, coverage: &mut Coverage) {
    coverage.texts += 1;
    cells_of_texts::count_table(&wait.table, coverage);
    cells_of_texts::count_wait(&wait.text, coverage);
    match grounds::of(wait) {
        Some(found) => count(wait, &found, coverage),
        None => {
            let both = read::events(&wait.text).is_err();
            coverage.hit_if(both, "the table's 9 before the wait's");
        }
    }
}

fn count(wait: &Wait, found: &Found, coverage: &mut Coverage) {
    let (told, _) = check::check(&found.entry, wait.owner, &wait.text);
    let first = found.holding.first().copied().unwrap_or(0);
    if told.answer != first {
        coverage.out_of_order();
    }
    coverage.items += found.events.len() as u64;
    coverage.hit(&format!("answers {}", told.answer));
    for second in found.holding.iter().skip(1) {
        coverage.hit(&format!("{first} before {second}"));
    }
    count_entry(&found.entry, coverage);
    count_owner(wait, found, told.answer, coverage);
    if matches!(told.answer, 0 | 22) {
        count_events(wait, found, coverage);
    }
}

fn count_entry(entry: &Table, coverage: &mut Coverage) {
    let longest = entry
        .slots()
        .iter()
        .all(|slot| slot.snapshot_xmin == u64::MAX);
    coverage.hit_if(longest, "21 with the longest text of a table");
    if let [condition] = grounds::entry(entry)[..] {
        coverage.hit(&format!("21 by {condition} alone"));
    }
    if !entry.passes() {
        return;
    }
    let least = check::least_active(entry);
    let (clock, line) = (entry.clock(), entry.vacuum_line());
    let taken: Vec<_> = entry.slots().iter().filter(|slot| slot.txid != 0).collect();
    let pins: Vec<u64> = entry.pins().iter().copied().filter(|x| *x != 0).collect();
    let xmins = || taken.iter().map(|slot| slot.snapshot_xmin);
    let found = [
        taken.is_empty(),
        taken.len() == SLOTS,
        xmins().any(|xmin| Some(xmin) > least),
        xmins().any(|xmin| xmin < line),
        line == clock,
        entry.sampled_clock() == clock,
        taken.iter().any(|slot| slot.txid == line),
        clock == u64::MAX,
        pins.is_empty(),
        pins.len() == PINS,
        pins.contains(&line),
        pins.contains(&clock),
        least.is_some_and(|least| pins.iter().any(|xmin| *xmin > least)),
        pins.len() == 1 && entry.pins()[PINS - 1] != 0,
    ];
    for (name, found) in PASSING.iter().zip(found) {
        coverage.hit_if(found, &format!("entry: {name}"));
    }
}

fn count_owner(wait: &Wait, found: &Found, answer: u64, coverage: &mut Coverage) {
    let (slot, id) = wait.owner.unwrap_or_default();
    let slot = usize::from(slot);
    let same_bits = found.entry.slots()[slot % SLOTS].txid;
    let (owned, idle) = (wait.owner.is_some(), found.events.is_empty());
    let (bad, last) = (&found.bad, found.events.len());
    let first = bad.first().copied().unwrap_or(0);
    let holds = [
        answer == 0 && idle && !owned,
        answer == 0 && idle && owned,
        answer == 0 && !idle && !owned,
        answer == 0 && !idle && owned,
        answer == 2 && slot == SLOTS,
        answer == 2 && slot == 65_535,
        answer == 2 && id != 0 && same_bits == id,
        answer == 3 && same_bits == 0,
        answer == 3 && same_bits != 0,
        answer == 4 && same_bits == 0,
        answer == 4 && same_bits != 0,
        answer == 22 && first == 1,
        answer == 22 && first > 1 && first == last,
        answer == 22 && changed(wait, found, first),
        answer == 22 && bad.len() > 1,
    ];
    for (name, holds) in ANSWERS.iter().zip(holds) {
        coverage.hit_if(holds, &format!("answers {name}"));
    }
}

/// Whether the events before the step leave another table than the entry.
fn changed(wait: &Wait, found: &Found, step: usize) -> bool {
    let before = found.events[..step.saturating_sub(1)].iter();
    let after = before.fold(found.entry.clone(), |table, event| {
        check::step(&table, wait.owner, event).unwrap_or(table)
    });
    after != found.entry
}

/// The events up to the first that breaks a rule.
fn count_events(wait: &Wait, found: &Found, coverage: &mut Coverage) {
    let mut table = found.entry.clone();
    for event in &found.events {
        let name = event.kind.name();
        let Some(after) = check::step(&table, wait.owner, event) else {
            if let [rule] = grounds::rules(&table, wait.owner, event)[..] {
                coverage.hit(&format!("{name} breaks {rule} alone"));
            }
            for way in ways::breaking(&table, wait.owner, event) {
                coverage.hit(&format!("{name} broken: {way}"));
            }
            return;
        };
        for way in ways::keeping(&table, wait.owner, event) {
            coverage.hit(&format!("{name} kept: {way}"));
        }
        table = after;
    }
}
