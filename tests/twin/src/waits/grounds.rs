//! The grounds of each refusal of a wait taken one by one, whatever else holds: for the coverage.

use super::check::{self, Owner, Wait};
use super::events::{Event, Kind};
use super::read;
use crate::table::{FARTHEST, SLOTS, Table};
use crate::text::lines;

/// The conditions of the table check that a table breaks, by their names.
pub fn entry(table: &Table) -> Vec<&'static str> {
    let (clock, sample, line) = (table.clock(), table.sampled_clock(), table.vacuum_line());
    let slots = table.slots();
    let any = |bad: &dyn Fn(u64, u64) -> bool| {
        slots
            .iter()
            .any(|slot| slot.txid != 0 && bad(slot.txid, slot.snapshot_xmin))
    };
    let mut ids: Vec<u64> = slots.iter().map(|slot| slot.txid).collect();
    ids.retain(|id| *id != 0);
    let count = ids.len();
    ids.sort();
    ids.dedup();
    let pins = table.pins().iter().copied().filter(|xmin| *xmin != 0);
    let conditions = [
        ("sample 0", sample == 0),
        ("sample above clock", sample > clock),
        ("line 0", line == 0),
        ("line above clock", line > clock),
        (
            "empty slot with xmin",
            slots.iter().any(|s| s.txid == 0 && s.snapshot_xmin != 0),
        ),
        ("xmin 0", any(&|_, xmin| xmin == 0)),
        ("xmin above txid", any(&|txid, xmin| xmin > txid)),
        ("txid from clock", any(&|txid, _| txid >= clock)),
        ("txid below line", any(&|txid, _| txid < line)),
        ("txid twice", ids.len() < count),
        ("pin below line", pins.clone().any(|xmin| xmin < line)),
        ("pin above clock", pins.clone().any(|xmin| xmin > clock)),
    ];
    named(&conditions)
}

fn named(conditions: &[(&'static str, bool)]) -> Vec<&'static str> {
    let broken = conditions.iter().filter(|condition| condition.1);
    broken.map(|condition| condition.0).collect()
}

/// The rules that an event breaks on a table, by their names. Where 5 is given no number is fit, so 6 is not named
/// too; nor is 13 where 6 is.
pub fn rules(table: &Table, owner: Owner, event: &Event) -> Vec<&'static str> {
    let place = usize::from(event.slot);
    let outside = place >= SLOTS;
    let held = table.slots().get(place).map_or(0, |slot| slot.txid);
    let least = check::least_active(table).unwrap_or(0);
    let clock = table.clock();
    let names_slot = !matches!(event.kind, Kind::Reserve | Kind::Observe);
    let owners = owner.map(|owner| usize::from(owner.0)) == Some(place);
    let reserves = matches!(event.kind, Kind::Register | Kind::Reserve);
    let fit = (clock.max(1)..u64::MAX).contains(&event.id);
    let observes = event.kind == Kind::Observe;
    let horizon = event.kind == Kind::Horizon;
    named(&[
        ("slot outside", names_slot && outside),
        ("owner's slot", names_slot && owners),
        ("slot taken", event.kind == Kind::Register && held != 0),
        (
            "slot empty",
            !outside && matches!(event.kind, Kind::End | Kind::Horizon) && held == 0,
        ),
        ("xmin 0", horizon && event.xmin == 0),
        ("xmin above the least id", horizon && event.xmin > least),
        ("5", reserves && clock == u64::MAX),
        ("6", reserves && clock != u64::MAX && !fit),
        ("13", reserves && fit && event.id - clock > FARTHEST),
        ("7", observes && event.clock < clock),
        ("8", observes && !(1..=event.clock).contains(&event.sample)),
    ])
}

/// What there is to say of a wait whose table's text can be read.
pub struct Found {
    pub entry: Table,
    /// The complete events up to the first line of the text that breaks a rule.
    pub events: Vec<Event>,
    /// Those that break a rule on the table that the others left, from 1.
    pub bad: Vec<usize>,
    /// The refusals that have a ground, in the order that decides.
    pub holding: Vec<u64>,
}

pub fn of(wait: &Wait) -> Option<Found> {
    let entry = read::table(&wait.table).ok()?;
    let broken = read::events(&wait.text).err();
    let events = match broken {
        None => read::events(&wait.text).unwrap_or_default(),
        Some(broken) => complete(&wait.text, broken.line),
    };
    let bad = bad_steps(&entry, wait.owner, &events);
    let (slot, id) = wait.owner.unwrap_or_default();
    let held = entry.slots().get(usize::from(slot)).map_or(0, |s| s.txid);
    let owned = wait.owner.is_some();
    let grounds = [
        (9, broken.is_some()),
        (21, !self::entry(&entry).is_empty()),
        (2, owned && usize::from(slot) >= SLOTS),
        (4, owned && id == 0),
        (3, owned && (held == 0 || held != id)),
        (22, !bad.is_empty()),
    ];
    let holding = grounds.iter().filter(|ground| ground.1);
    Some(Found {
        holding: holding.map(|ground| ground.0).collect(),
        entry,
        events,
        bad,
    })
}

/// The events that end before the line.
fn complete(text: &[u8], line: usize) -> Vec<Event> {
    let count = line.saturating_sub(2) / 6;
    let whole = lines(text).into_iter().take(1 + 6 * count);
    let whole: Vec<u8> = whole.flatten().collect();
    read::events(&whole).unwrap_or_default()
}

fn bad_steps(entry: &Table, owner: Owner, events: &[Event]) -> Vec<usize> {
    let mut table = entry.clone();
    let mut bad = Vec::new();
    for (number, event) in (1..).zip(events) {
        if !rules(&table, owner, event).is_empty() {
            bad.push(number);
        } else if let Some(after) = check::step(&table, owner, event) {
            table = after;
        }
    }
    bad
}
