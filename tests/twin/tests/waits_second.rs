//! The second reading of a wait agrees with the twin, until a fault is put into it.

use twin::second::waits::{WaitFault, report};
use twin::table::Table;
use twin::waits::check::{self, Wait};
use twin::waits::compare::{ROOM_FAULTS, difference, put, smaller};
use twin::waits::events::Event;
use twin::waits::generate::generate;
use twin::waits::read::{text_of_events, text_of_table};

/// That the comparison sees every fault is for tests/waits, which has more waits.
#[test]
fn both_readings_agree() {
    for seed in 1..=500 {
        let wait = generate(seed);
        let second = report(&wait, WaitFault::None);
        assert!(second == check::report(&wait), "seed {seed}");
    }
    assert!(WaitFault::all().len() > 150);
}

/// The comparison itself, on checkers that put their report into a buffer.
#[test]
fn the_comparison_sees_every_fault_at_the_border() {
    let found = |checker: &dyn Fn(&Wait, &mut [u8]) -> usize| {
        let mut waits = (1..=50).map(generate);
        waits.any(|wait| difference(&wait, &checker).is_some())
    };
    for (name, wrong) in ROOM_FAULTS {
        assert!(found(&wrong), "{name}");
    }
    let right = |wait: &Wait, out: &mut [u8]| put(&report(wait, WaitFault::None), out);
    assert!(!found(&right));
}

/// Nine slots are taken, slot i by id 10 + i; the owner is in the last of them. The second of four events takes the xmin
/// of slot 5 to the slot's own id.
fn far_horizon() -> Wait {
    let mut table = Table::fresh();
    for number in 10..19 {
        table.begin(number).unwrap();
    }
    let events = [
        Event::reserve(20),
        Event::horizon(5, 15),
        Event::end(2),
        Event::observe(40, 1),
    ];
    Wait {
        table: text_of_table(&table).into_bytes(),
        owner: Some((8, 18)),
        text: text_of_events(&events),
    }
}

/// The fault of the horizon that goes to the slot's own id: what is kept of it is one event, the slot that it names, one
/// with a lower id, and the owner's.
#[test]
fn a_difference_is_made_small() {
    let fault = WaitFault::Named("horizon-to-own-id");
    let wrong = |wait: &Wait, out: &mut [u8]| put(&report(wait, fault), out);
    let found = far_horizon();
    assert!(difference(&found, &wrong).is_some());
    let small = smaller(&found, &wrong);
    assert!(difference(&small, &wrong).is_some());
    let lines = |text: &[u8]| text.iter().filter(|&&byte| byte == b'\n').count();
    assert_eq!(lines(&small.text), 7);
    let taken = String::from_utf8(small.table).unwrap();
    let taken = taken
        .lines()
        .filter(|line| line.starts_with("txid=") && *line != "txid=0");
    assert_eq!(taken.count(), 3);
}
