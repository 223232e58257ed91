//! The ways in which an event keeps or breaks its rule, for the coverage of the waits.

use super::check::{self, Owner};
use super::events::{Event, Kind};
use super::grounds;
use crate::table::{FARTHEST, SLOTS, Table};

/// The rules that an event can break, each by itself.
pub fn rules(kind: Kind) -> &'static [&'static str] {
    match kind {
        Kind::Register => &["slot outside", "slot taken", "5", "6", "13"],
        Kind::End => &["slot outside", "owner's slot", "slot empty"],
        Kind::Horizon => &[
            "slot outside",
            "owner's slot",
            "slot empty",
            "xmin 0",
            "xmin above the least id",
        ],
        Kind::Reserve => &["5", "6", "13"],
        Kind::Observe => &["7", "8"],
    }
}

/// Ways in which an event keeps its rule.
pub fn kept(kind: Kind) -> &'static [&'static str] {
    match kind {
        Kind::Register => &[
            "into the lowest slot",
            "into another than the lowest slot",
            "in the last slot",
            "the clock itself",
            "2^32 above the clock",
            "2^64 - 2",
        ],
        Kind::End => &["in the last slot", "beside an owner"],
        Kind::Horizon => &[
            "xmin is 1",
            "xmin is the least id, the slot's own",
            "xmin is the least id, below the slot's own",
            "xmin is between",
            "xmin rises",
            "xmin falls",
            "xmin is below the line",
            "the owner has the least id",
        ],
        Kind::Reserve => &[
            "the clock itself",
            "2^32 above the clock",
            "2^64 - 2",
            "the owner has slot 0",
        ],
        Kind::Observe => &[
            "the clock itself",
            "a later clock",
            "sample 1",
            "sample is the clock",
            "sample above the former clock",
            "sample falls",
            "the owner has slot 0",
        ],
    }
}

/// Ways in which an event breaks its rule, beside each rule by itself.
pub fn broken(kind: Kind) -> &'static [&'static str] {
    match kind {
        Kind::Register => &[
            "slot just outside",
            "slot 65535",
            "owner's slot",
            "6 for 0",
            "6 just below clock",
            "6 for 2^64 - 1",
            "13 just too far",
        ],
        Kind::End => &["slot just outside", "slot 65535"],
        Kind::Horizon => &[
            "slot just outside",
            "slot 65535",
            "xmin just above the least id",
            "xmin to the slot's own id",
            "xmin as it was",
        ],
        Kind::Reserve => &[
            "6 for 0",
            "6 just below clock",
            "6 for 2^64 - 1",
            "13 just too far",
        ],
        Kind::Observe => &["7 just below clock", "8 for 0", "8 just above clock"],
    }
}

fn named(ways: &[(bool, &'static str)]) -> Vec<&'static str> {
    let found = ways.iter().filter(|way| way.0);
    found.map(|way| way.1).collect()
}

/// How an event keeps its rule; more may be named than the event's kind has.
pub fn keeping(before: &Table, owner: Owner, event: &Event) -> Vec<&'static str> {
    let least = check::least_active(before);
    let owns = |fits: &dyn Fn((u16, u64)) -> bool| owner.is_some_and(fits);
    let at_clock = match event.kind {
        Kind::Observe => event.clock == before.clock(),
        _ => event.id == before.clock(),
    };
    let ways = [
        (at_clock, "the clock itself"),
        (
            event.id.checked_sub(before.clock()) == Some(FARTHEST),
            "2^32 above the clock",
        ),
        (event.id == u64::MAX - 1, "2^64 - 2"),
        (owner.is_some(), "beside an owner"),
        (
            owns(&|own| Some(own.1) == least),
            "the owner has the least id",
        ),
        (owns(&|own| own.0 == 0), "the owner has slot 0"),
    ];
    let mut all = named(&ways);
    all.extend(keeping_slot(before, event));
    all.extend(keeping_xmin(before, event));
    all.extend(keeping_sample(before, event));
    all
}

fn keeping_slot(before: &Table, event: &Event) -> Vec<&'static str> {
    let slot = usize::from(event.slot);
    let lowest = before.slots().iter().position(|slot| slot.txid == 0);
    named(&[
        (lowest == Some(slot), "into the lowest slot"),
        (lowest < Some(slot), "into another than the lowest slot"),
        (slot == SLOTS - 1, "in the last slot"),
    ])
}

fn keeping_xmin(before: &Table, event: &Event) -> Vec<&'static str> {
    let held = before.slots()[usize::from(event.slot)];
    let least = check::least_active(before).unwrap_or(0);
    let (xmin, own) = (event.xmin, held.txid);
    let at_least = xmin == least;
    named(&[
        (xmin == 1, "xmin is 1"),
        (
            at_least && least == own,
            "xmin is the least id, the slot's own",
        ),
        (
            at_least && least < own,
            "xmin is the least id, below the slot's own",
        ),
        (1 < xmin && xmin < least, "xmin is between"),
        (xmin > held.snapshot_xmin, "xmin rises"),
        (xmin < held.snapshot_xmin, "xmin falls"),
        (xmin < before.vacuum_line(), "xmin is below the line"),
    ])
}

fn keeping_sample(before: &Table, event: &Event) -> Vec<&'static str> {
    let sample = event.sample;
    named(&[
        (event.clock > before.clock(), "a later clock"),
        (sample == 1, "sample 1"),
        (sample == event.clock, "sample is the clock"),
        (sample > before.clock(), "sample above the former clock"),
        (sample < before.sampled_clock(), "sample falls"),
    ])
}

/// How an event breaks its rule; more may be named than the event's kind has.
pub fn breaking(before: &Table, owner: Owner, event: &Event) -> Vec<&'static str> {
    let slot = usize::from(event.slot);
    let held = before.slots().get(slot).copied().unwrap_or_default();
    let least = check::least_active(before).unwrap_or(0);
    let clock = before.clock();
    let owners = owner.map(|owner| owner.0) == Some(event.slot);
    let rules = grounds::rules(before, owner, event);
    let (number, far) = (rules == ["6"], rules == ["13"]);
    let above = held.txid > least && !owners;
    let next = least.saturating_add(1);
    let (given, sample) = (event.clock, event.sample);
    let in_time = given >= clock;
    named(&[
        (slot == SLOTS, "slot just outside"),
        (slot == 65_535, "slot 65535"),
        (owners, "owner's slot"),
        (number && event.id == 0, "6 for 0"),
        (number && event.id == clock - 1, "6 just below clock"),
        (number && event.id == u64::MAX, "6 for 2^64 - 1"),
        (far && event.id - clock == FARTHEST + 1, "13 just too far"),
        (
            held.txid != 0 && event.xmin == next,
            "xmin just above the least id",
        ),
        (
            above && event.xmin == held.txid,
            "xmin to the slot's own id",
        ),
        (above && event.xmin == held.snapshot_xmin, "xmin as it was"),
        (given == clock - 1 && sample != 0, "7 just below clock"),
        (in_time && sample == 0, "8 for 0"),
        (
            in_time && sample == given.saturating_add(1),
            "8 just above clock",
        ),
    ])
}
