//! The check of a wait: each rule of each event, each refusal, each pair that the order decides. Every expectation is
//! worked out by hand from docs/SPEC.md, 16.

use twin::table::{PINS, SLOTS, Slot, Table};
use twin::waits::check::{Owner, Told, check};
use twin::waits::events::{Event, Kind};
use twin::waits::read::text_of_events;

const TOP: u64 = u64::MAX;
const FARTHEST: u64 = 6 + 4_294_967_296;

fn table(pairs: &[(usize, u64, u64)], clock: u64, sample: u64, line: u64) -> Table {
    let mut slots = [Slot::default(); SLOTS];
    for &(place, txid, snapshot_xmin) in pairs {
        slots[place] = Slot {
            txid,
            snapshot_xmin,
        };
    }
    Table::of(slots, [0; PINS], clock, sample, line)
}

/// The same with these pins taken.
fn pinned(mut table: Table, pins: &[(usize, u64)]) -> Table {
    for &(pin, xmin) in pins {
        table.put_pin(pin, xmin);
    }
    table
}

/// Slots 0 and 1 hold 5 and 3.
fn two() -> Table {
    table(&[(0, 5, 5), (1, 3, 2)], 6, 4, 2)
}

fn run(entry: &Table, owner: Owner, events: &[Event]) -> (Told, Table) {
    check(entry, owner, &text_of_events(events))
}

fn told(answer: u64, at: u64) -> Told {
    Told {
        answer,
        at,
        ..Told::default()
    }
}

fn accepts(entry: &Table, owner: Owner, events: &[Event], end: Table) {
    assert_eq!(run(entry, owner, events), (told(0, 0), end), "{events:?}");
}

fn refuses(entry: &Table, owner: Owner, events: &[Event], verdict: Told) {
    let answer = run(entry, owner, events);
    assert_eq!(answer, (verdict, entry.clone()), "{events:?}");
}

/// A single event that breaks its rule.
fn bad_step(entry: &Table, owner: Owner, event: Event) {
    refuses(entry, owner, &[event], told(22, 1));
}

#[test]
fn a_wait_without_events_leaves_the_entry() {
    accepts(&two(), None, &[], two());
    accepts(&two(), Some((0, 5)), &[], two());
}

#[test]
fn register_fills_any_empty_slot() {
    let after = |slot, id| table(&[(0, 5, 5), (1, 3, 2), (slot, id, id)], id + 1, 4, 2);
    for (slot, id) in [(2, 6), (7, 9), (SLOTS - 1, FARTHEST)] {
        let event = Event::register(slot as u16, id);
        accepts(&two(), None, &[event], after(slot, id));
        accepts(&two(), Some((0, 5)), &[event], after(slot, id));
    }
}

#[test]
fn register_wants_an_empty_slot_of_the_table() {
    for slot in [0, 1, SLOTS as u16, SLOTS as u16 + 2, 65_535] {
        bad_step(&two(), None, Event::register(slot, 6));
    }
    bad_step(&two(), Some((1, 3)), Event::register(1, 6));
}

/// Refusals 5 and 6.
#[test]
fn register_and_reserve_want_a_number_fit_for_reservation() {
    for id in [0, 1, 5, TOP] {
        bad_step(&two(), None, Event::register(2, id));
        bad_step(&two(), None, Event::reserve(id));
    }
    let exhausted = table(&[(0, 5, 5)], TOP, 1, 1);
    for id in [0, 6, TOP - 1, TOP] {
        bad_step(&exhausted, None, Event::register(2, id));
        bad_step(&exhausted, None, Event::reserve(id));
    }
}

#[test]
fn end_empties_a_taken_slot() {
    let first_left = table(&[(0, 5, 5)], 6, 4, 2);
    accepts(&two(), None, &[Event::end(1)], first_left.clone());
    accepts(&two(), Some((0, 5)), &[Event::end(1)], first_left);
    for slot in [2, SLOTS as u16 - 1, SLOTS as u16, 65_535] {
        bad_step(&two(), None, Event::end(slot));
    }
    bad_step(&two(), Some((1, 3)), Event::end(1));
}

#[test]
fn horizon_goes_from_1_to_the_least_active_id() {
    let after = |slot, xmin| {
        let (first, second) = if slot == 0 { (xmin, 2) } else { (5, xmin) };
        table(&[(0, 5, first), (1, 3, second)], 6, 4, 2)
    };
    for (slot, xmin) in [(0, 1), (0, 2), (0, 3), (1, 1), (1, 3)] {
        let event = Event::horizon(slot, xmin);
        accepts(&two(), None, &[event], after(slot, xmin));
    }
    // Slots 0 and 1 hold 5 and 3: slot 0 may not have 4, nor 5, its own id.
    for (slot, xmin) in [(0, 0), (0, 4), (0, 5), (0, TOP), (1, 0), (1, 4)] {
        bad_step(&two(), None, Event::horizon(slot, xmin));
    }
}

#[test]
fn horizon_counts_the_owners_id_and_names_its_slot_never() {
    let after = table(&[(0, 5, 3), (1, 3, 2)], 6, 4, 2);
    accepts(&two(), Some((1, 3)), &[Event::horizon(0, 3)], after);
    bad_step(&two(), Some((1, 3)), Event::horizon(0, 4));
    bad_step(&two(), Some((1, 3)), Event::horizon(1, 2));
}

#[test]
fn horizon_wants_a_taken_slot_of_the_table() {
    for slot in [2, SLOTS as u16 - 1, SLOTS as u16, SLOTS as u16 + 1, 65_535] {
        bad_step(&two(), None, Event::horizon(slot, 1));
    }
    bad_step(&Table::fresh(), None, Event::horizon(0, 1));
}

#[test]
fn reserve_moves_the_clock_alone() {
    for id in [6, 7, FARTHEST] {
        let after = table(&[(0, 5, 5), (1, 3, 2)], id + 1, 4, 2);
        accepts(&two(), None, &[Event::reserve(id)], after);
    }
}

/// Refusal 13: the farthest number is 2^32 above the clock, which is 6.
#[test]
fn a_number_too_far_is_a_bad_step() {
    for id in [FARTHEST + 1, 1 << 63, TOP - 1] {
        bad_step(&two(), None, Event::reserve(id));
        bad_step(&two(), None, Event::register(2, id));
    }
    // near the end of the clock every number is near enough
    let late = table(&[(0, 5, 5)], TOP - 3, 4, 2);
    let after = table(&[(0, 5, 5)], TOP, 4, 2);
    accepts(&late, None, &[Event::reserve(TOP - 1)], after);
}

/// Refusals 7 and 8.
#[test]
fn observe_moves_clock_and_sample() {
    for (clock, sample) in [(6, 1), (6, 6), (7, 7), (TOP, 3), (TOP, TOP)] {
        let after = table(&[(0, 5, 5), (1, 3, 2)], clock, sample, 2);
        accepts(&two(), None, &[Event::observe(clock, sample)], after);
    }
    for (clock, sample) in [(5, 1), (0, 0), (6, 0), (6, 7), (9, 10), (8, TOP)] {
        bad_step(&two(), None, Event::observe(clock, sample));
    }
}

#[test]
fn an_owner_in_slot_0_hinders_neither_reserve_nor_observe() {
    let events = [Event::reserve(6), Event::observe(9, 8)];
    let after = table(&[(0, 5, 5), (1, 3, 2)], 9, 8, 2);
    accepts(&two(), Some((0, 5)), &events, after);
}

#[test]
fn every_event_after_the_other() {
    let events = [
        Event::observe(8, 7),
        Event::horizon(1, 1),
        Event::register(3, 10),
        Event::end(1),
        // 3 has gone: the least active id is the owner's 5.
        Event::horizon(3, 5),
        Event::reserve(12),
        // The slot that an end left can be taken again.
        Event::register(1, 13),
    ];
    let end = table(&[(0, 5, 5), (1, 13, 13), (3, 10, 5)], 14, 7, 2);
    accepts(&two(), Some((0, 5)), &events, end);
}

#[test]
fn the_first_bad_step_counts_from_1_and_the_entry_stands_beside_it() {
    let good = Event::reserve(6);
    let events = [good, Event::end(1), Event::end(1), Event::reserve(1)];
    refuses(&two(), None, &events, told(22, 3));
    refuses(&two(), None, &[good, good], told(22, 2));
}

/// Pins bind no event, and no event moves one.
#[test]
fn events_leave_the_pins() {
    let pins = [(0, 2), (1, 6), (PINS - 1, 3)];
    let (entry, last) = (pinned(two(), &pins), SLOTS - 1);
    let events = [
        Event::end(0),
        Event::register(0, 6),
        Event::horizon(1, 3),
        Event::register(last as u16, 9),
        Event::observe(20, 1),
        Event::reserve(20),
        Event::end(1),
    ];
    let end = table(&[(0, 6, 6), (last, 9, 9)], 21, 1, 2);
    accepts(&entry, None, &events, pinned(end, &pins));
    let both = table(&[(0, 5, 5), (1, 3, 3)], 6, 4, 2);
    let horizon = [Event::horizon(1, 3)];
    accepts(&entry, Some((0, 5)), &horizon, pinned(both, &pins));
}

#[test]
fn an_entry_that_fails_the_check_is_21() {
    let bad = [
        table(&[(0, 5, 5)], 6, 0, 1),
        table(&[(0, 5, 5)], 6, 7, 1),
        table(&[(0, 5, 5)], 6, 1, 0),
        table(&[], 6, 1, 7),
        table(&[(0, 5, 5), (9, 0, 1)], 6, 1, 1),
        table(&[(0, 5, 0)], 6, 1, 1),
        table(&[(0, 5, 6)], 7, 1, 1),
        table(&[(0, 5, 5)], 5, 1, 1),
        table(&[(0, 5, 5)], 9, 1, 6),
        table(&[(0, 5, 5), (SLOTS - 1, 5, 1)], 6, 1, 1),
        table(&[], 0, 0, 0),
        pinned(two(), &[(0, 1)]),
        pinned(two(), &[(PINS - 1, 7)]),
        pinned(two(), &[(0, 2), (40, TOP)]),
    ];
    for entry in bad {
        refuses(&entry, None, &[], told(21, 0));
    }
    // SPEC 6.3: it passes, and calls lead to no such table.
    let odd = table(&[(0, 4, 4), (1, 9, 8)], 10, 1, 1);
    accepts(&odd, Some((1, 9)), &[], odd.clone());
}

#[test]
fn an_owner_that_holds_no_slot_is_2_4_or_3() {
    let outside = |slot| Told { slot, ..told(2, 0) };
    let size = SLOTS as u64;
    refuses(&two(), Some((SLOTS as u16, 5)), &[], outside(size));
    refuses(&two(), Some((65_535, 5)), &[], outside(65_535));
    refuses(&two(), Some((0, 0)), &[], told(4, 0));
    // 0 equals 0, and is no owner for that.
    refuses(&two(), Some((2, 0)), &[], told(4, 0));
    let other = |slot, id, seen| Told {
        slot,
        id,
        seen,
        ..told(3, 0)
    };
    refuses(&two(), Some((0, 3)), &[], other(0, 3, 5));
    refuses(&two(), Some((2, 5)), &[], other(2, 5, 0));
}

/// A bad table (the sample is 0), a bad step on it, and each kind of bad owner.
#[test]
fn the_order_is_9_21_2_4_3_22() {
    let entry = table(&[(0, 5, 5)], 6, 0, 1);
    let good = table(&[(0, 5, 5)], 6, 1, 1);
    let step = Event::end(7);
    let size = SLOTS as u16;
    let owners = [
        None,
        Some((size, 0)),
        Some((size, 5)),
        Some((0, 0)),
        Some((0, 9)),
    ];
    for owner in owners {
        // A bad step before the line that breaks a rule changes nothing.
        let mut broken = text_of_events(&[step]);
        broken.extend(b"event=begin\n");
        assert_eq!(check(&entry, owner, &broken), (told(9, 8), entry.clone()));
        assert_eq!(check(&good, owner, &broken), (told(9, 8), good.clone()));
        refuses(&entry, owner, &[step], told(21, 0));
    }
    let of_slot = |answer, id, seen| Told {
        slot: if answer == 2 { size.into() } else { 0 },
        id,
        seen,
        ..told(answer, 0)
    };
    refuses(&good, Some((size, 0)), &[step], of_slot(2, 0, 0));
    refuses(&good, Some((size, 5)), &[step], of_slot(2, 0, 0));
    refuses(&good, Some((0, 0)), &[step], told(4, 0));
    refuses(&good, Some((7, 0)), &[step], told(4, 0));
    refuses(&good, Some((0, 9)), &[step], of_slot(3, 9, 5));
    refuses(&good, Some((0, 5)), &[step], told(22, 1));
}

#[test]
fn the_names_are_found_again() {
    for kind in Kind::ALL {
        assert_eq!(Kind::from_name(kind.name().as_bytes()), Some(kind));
    }
}
