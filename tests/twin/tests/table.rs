//! The table's calls: what a trace's output doesn't show.

use twin::table::{
    FARTHEST, FIRST_PIN, NOBODY, Oldest, PINS, Refusal, SLOTS, Slot, Snapshot, Table,
};

fn full() -> Table {
    let mut table = Table::fresh();
    for number in 1..=SLOTS as u64 {
        table.begin(number).unwrap();
    }
    table
}

fn slot(txid: u64, snapshot_xmin: u64) -> Slot {
    Slot {
        txid,
        snapshot_xmin,
    }
}

/// Slots, pins, clock, sampled clock and line.
fn whole(table: &Table) -> (Vec<Slot>, Vec<u64>, u64, u64, u64) {
    (
        table.slots().to_vec(),
        table.pins().to_vec(),
        table.clock(),
        table.sampled_clock(),
        table.vacuum_line(),
    )
}

#[test]
fn fresh_is_empty() {
    let empty = vec![slot(0, 0); SLOTS];
    assert_eq!(whole(&Table::fresh()), (empty, vec![0; PINS], 1, 1, 1));
}

#[test]
fn begin_fills_the_lowest_slot_and_moves_the_clock_alone() {
    let mut table = Table::fresh();
    assert_eq!(table.begin(5), Ok(0));
    assert_eq!(table.begin(9), Ok(1));
    let mut slots = vec![slot(0, 0); SLOTS];
    (slots[0], slots[1]) = (slot(5, 5), slot(9, 9));
    assert_eq!(whole(&table), (slots, vec![0; PINS], 10, 1, 1));
}

#[test]
fn a_full_table_uses_up_the_number() {
    let mut table = full();
    let slots = table.slots().to_vec();
    table.snapshot(5_000, 7).unwrap();
    assert_eq!(table.begin(6_000), Err(Refusal::NoFreeSlot { txid: 6_000 }));
    assert_eq!(whole(&table), (slots, vec![0; PINS], 6_001, 7, 1));
}

#[test]
fn an_observation_keeps_clock_and_sample() {
    let mut table = Table::fresh();
    table.begin(5).unwrap();
    table.oldest_snapshot_xmin(20, 4).unwrap();
    assert_eq!((table.clock(), table.sampled_clock()), (20, 4));
    table.transaction_snapshot(0, 5, 20, 3).unwrap();
    assert_eq!(table.slots()[0], slot(5, 3));
    assert_eq!((table.clock(), table.sampled_clock()), (20, 3));
}

#[test]
fn refusals_but_the_first_leave_the_table() {
    let mut table = full();
    table.vacuum(5_000, 200).unwrap();
    let before = whole(&table);
    assert_eq!(table.begin(4_999), Err(Refusal::BadReservation));
    assert_eq!(table.end(SLOTS as u16, 1).unwrap_err().number(), 2);
    assert_eq!(table.end(0, 0), Err(Refusal::ZeroTxid));
    assert_eq!(table.end(0, 2).unwrap_err().number(), 3);
    assert_eq!(table.snapshot(4_999, 1), Err(Refusal::BadClock));
    assert_eq!(table.snapshot(5_001, 5_002), Err(Refusal::BadSample));
    let own = table.transaction_snapshot(0, 1, 5_001, 0);
    assert_eq!(own, Err(Refusal::BadSample));
    assert_eq!(table.vacuum(6_000, 6_001), Err(Refusal::BadSample));
    assert_eq!(table.oldest_snapshot_xmin(5, 5), Err(Refusal::BadClock));
    assert_eq!(table.stamp(0), Err(Refusal::BadReservation));
    assert_eq!(table.finish(0, 1, 4_999), Err(Refusal::BadReservation));
    assert_eq!(whole(&table), before);
}

#[test]
fn a_number_too_far_is_refused() {
    let mut table = Table::fresh();
    table.begin(5).unwrap();
    let before = whole(&table);
    let farthest = 6 + FARTHEST;
    for far in [farthest + 1, u64::MAX - 1] {
        assert_eq!(table.begin(far), Err(Refusal::WildJump));
        assert_eq!(table.stamp(far), Err(Refusal::WildJump));
        assert_eq!(table.finish(0, 5, far), Err(Refusal::WildJump));
    }
    assert_eq!(table.stamp(u64::MAX), Err(Refusal::BadReservation));
    assert_eq!(table.finish(0, 4, farthest + 1).unwrap_err().number(), 3);
    assert_eq!(whole(&table), before);
    assert_eq!(table.finish(0, 5, farthest), Ok(farthest));
    assert_eq!(table.clock(), farthest + 1);
}

#[test]
fn too_far_comes_before_a_full_table() {
    let mut table = full();
    let clock = table.clock();
    let farthest = clock + FARTHEST;
    assert_eq!(table.begin(farthest + 1), Err(Refusal::WildJump));
    assert_eq!(table.clock(), clock);
    let refused = table.begin(farthest);
    assert_eq!(refused, Err(Refusal::NoFreeSlot { txid: farthest }));
    assert_eq!(table.clock(), farthest + 1);
}

#[test]
fn an_observation_may_jump() {
    let mut table = Table::fresh();
    table.vacuum(u64::MAX, 1).unwrap();
    assert_eq!(table.clock(), u64::MAX);
}

#[test]
fn the_last_number_exhausts_the_clock() {
    let mut table = Table::fresh();
    table.snapshot(u64::MAX - 1, 1).unwrap();
    assert_eq!(table.stamp(u64::MAX), Err(Refusal::BadReservation));
    assert_eq!(table.stamp(u64::MAX - 1), Ok(u64::MAX - 1));
    assert_eq!(table.begin(u64::MAX - 1), Err(Refusal::ClockExhausted));
    assert_eq!(table.clock(), u64::MAX);
}

#[test]
fn the_lowest_slot_with_the_oldest_xmin_is_named() {
    let mut table = Table::fresh();
    let oldest = |xmin, holder| Ok(Oldest { xmin, holder });
    assert_eq!(table.oldest_snapshot_xmin(9, 4), oldest(4, NOBODY));
    for number in [10, 11, 12] {
        table.begin(number).unwrap();
    }
    assert_eq!(table.oldest_snapshot_xmin(20, 20), oldest(10, 0));
    assert_eq!(table.oldest_snapshot_xmin(20, 10), oldest(10, 0));
    assert_eq!(table.oldest_snapshot_xmin(20, 9), oldest(9, NOBODY));
    table.transaction_snapshot(1, 11, 20, 7).unwrap();
    table.transaction_snapshot(2, 12, 20, 7).unwrap();
    assert_eq!(table.oldest_snapshot_xmin(20, 20), oldest(7, 1));
    assert_eq!(table.vacuum(20, 20), Ok(1));
    table.end(1, 11).unwrap();
    assert_eq!(table.vacuum(20, 5), Ok(NOBODY));
    assert_eq!(table.vacuum(20, 20), Ok(2));
    assert_eq!(table.vacuum_line(), 7);
}

/// What a pin answers with no id in flight.
fn pinned(pin: usize, at: u64) -> Result<(usize, Snapshot), Refusal> {
    let snapshot = Snapshot {
        xmin: at,
        xmax: at,
        in_flight: vec![],
    };
    Ok((pin, snapshot))
}

/// The line is 100: a pin at 100/50 keeps 100, and the table's sample is the one given.
#[test]
fn a_pin_is_taken_for_the_line_and_observes_the_sample() {
    let mut table = Table::fresh();
    table.vacuum(100, 100).unwrap();
    assert_eq!(table.pin(120, 50), pinned(0, 100));
    assert_eq!(table.pin(120, 110), pinned(1, 110));
    let mut pins = vec![0; PINS];
    (pins[0], pins[1]) = (100, 110);
    let empty = vec![slot(0, 0); SLOTS];
    assert_eq!(whole(&table), (empty.clone(), pins.clone(), 120, 110, 100));
    assert_eq!(table.pin(121, 7), pinned(2, 100));
    pins[2] = 100;
    assert_eq!(whole(&table), (empty, pins, 121, 7, 100));
}

#[test]
fn refused_pins_and_releases_leave_the_table() {
    let mut table = Table::fresh();
    table.begin(3).unwrap();
    for _ in 0..PINS {
        table.pin(9, 5).unwrap();
    }
    let before = whole(&table);
    assert_eq!(before.1, vec![3; PINS]);
    assert_eq!(table.pin(8, 0), Err(Refusal::BadClock));
    assert_eq!(table.pin(20, 0), Err(Refusal::BadSample));
    assert_eq!(table.pin(20, 21), Err(Refusal::BadSample));
    assert_eq!(table.pin(20, 20), Err(Refusal::NoFreePin));
    for pin in [64, 65, 1_023, 1_024, 2_000, 65_535] {
        assert_eq!(table.unpin(pin), Err(Refusal::InvalidPin { pin }));
    }
    assert_eq!(whole(&table), before);
    table.unpin(40).unwrap();
    let free = Refusal::FreePin { pin: 40 };
    assert_eq!(table.unpin(40), Err(free));
    let numbers = [Refusal::NoFreePin, Refusal::InvalidPin { pin: 64 }, free];
    assert_eq!(numbers.map(Refusal::number), [14, 15, 16]);
}

#[test]
fn a_release_frees_the_pin_alone() {
    let mut table = Table::fresh();
    table.begin(3).unwrap();
    table.pin(9, 9).unwrap();
    table.pin(9, 2).unwrap();
    table.vacuum(9, 9).unwrap();
    let (slots, mut pins, clock, sample, line) = whole(&table);
    assert_eq!((&pins[..3], clock, sample, line), (&[3, 2, 0][..], 9, 9, 2));
    table.unpin(0).unwrap();
    pins[0] = 0;
    assert_eq!(whole(&table), (slots, pins, 9, 9, 2));
}

#[test]
fn a_slot_is_named_before_a_pin() {
    let mut table = Table::fresh();
    let oldest = |xmin, holder| Ok(Oldest { xmin, holder });
    table.begin(5).unwrap();
    table.pin(6, 6).unwrap();
    assert_eq!(table.oldest_snapshot_xmin(6, 6), oldest(5, 0));
    table.pin(6, 4).unwrap();
    table.pin(6, 4).unwrap();
    assert_eq!(table.oldest_snapshot_xmin(6, 6), oldest(4, FIRST_PIN + 1));
    assert_eq!(table.oldest_snapshot_xmin(6, 4), oldest(4, FIRST_PIN + 1));
    assert_eq!(table.oldest_snapshot_xmin(6, 3), oldest(3, NOBODY));
    assert_eq!(table.vacuum(6, 6), Ok(FIRST_PIN + 1));
    assert_eq!(table.vacuum_line(), 4);
    table.unpin(1).unwrap();
    assert_eq!(table.vacuum(6, 6), Ok(FIRST_PIN + 2));
    table.unpin(2).unwrap();
    table.end(0, 5).unwrap();
    assert_eq!(table.vacuum(6, 6), Ok(FIRST_PIN));
    assert_eq!(table.vacuum_line(), 5);
}

/// The table check: a pin that is taken has an xmin from the line to the clock.
#[test]
fn the_check_holds_pins_between_line_and_clock() {
    let with = |pin: usize, xmin| {
        let mut pins = [0; PINS];
        pins[pin] = xmin;
        Table::of([Slot::default(); SLOTS], pins, 9, 7, 4).passes()
    };
    for pin in [0, PINS - 1] {
        let passing = (0..12).filter(|xmin| with(pin, *xmin));
        assert_eq!(passing.collect::<Vec<u64>>(), [0, 4, 5, 6, 7, 8, 9]);
    }
}
