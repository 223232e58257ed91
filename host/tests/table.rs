//! A table through its calls: a short story, and what a refusal leaves.

use sockhurdle::{
    Holder, PINS, PinNo, Refusal, Registration, SLOTS, SlotNo, Snapshot, Stamp, Table, Txid,
};

#[test]
fn a_transaction_holds_the_line_back() {
    let mut table = Table::fresh();
    let writer = table.begin(Stamp(1)).unwrap();
    let reader = table.begin(Stamp(2)).unwrap();
    assert_eq!((writer.slot, reader.slot), (SlotNo(0), SlotNo(1)));
    assert_eq!(table.vacuum(3, 3), Ok((1, Holder::Slot(SlotNo(0)))));
    table.end(writer).unwrap();
    assert_eq!(table.oldest(3, 3), Ok((2, Holder::Slot(SlotNo(1)))));
    assert_eq!(table.finish(reader, Stamp(5)), Ok(Stamp(5)));
    assert_eq!(table.vacuum(6, 6), Ok((6, Holder::Nobody)));
    assert_eq!(table.vacuum(5, 5), Err(Refusal::BadClock));
    assert_eq!(table.oldest(6, 7), Err(Refusal::BadSample));
}

#[test]
fn a_refused_call_leaves_the_table() {
    let mut table = Table::fresh();
    let held = table.begin(Stamp(4)).unwrap();
    let before = table.clone();
    let other = Registration {
        slot: held.slot,
        id: Txid(5),
    };
    let mismatch = Refusal::SlotOwnershipMismatch {
        slot: SlotNo(0),
        expected: Txid(5),
        observed: Txid(4),
    };
    assert_eq!(table.end(other), Err(mismatch));
    assert_eq!(mismatch.to_string(), "refusal 3: slot 0 holds 4, not 5");
    let nowhere = Registration {
        slot: SlotNo(SLOTS as u16),
        id: held.id,
    };
    let invalid = Refusal::InvalidSlot { slot: nowhere.slot };
    assert_eq!(table.finish(nowhere, Stamp(9)), Err(invalid));
    assert_eq!(table.finish(held, Stamp(4)), Err(Refusal::BadReservation));
    assert_eq!(table.stamp(Stamp(6 + (1 << 32))), Err(Refusal::WildJump));
    assert_eq!(table, before);
}

#[test]
fn a_full_table_uses_the_number_up() {
    let mut table = Table::fresh();
    let slots = SLOTS as u64;
    for number in 1..=slots {
        table.begin(Stamp(number)).unwrap();
    }
    let full = Refusal::NoFreeSlot {
        id: Txid(slots + 1),
    };
    assert_eq!(table.begin(Stamp(slots + 1)), Err(full));
    assert_eq!(table.begin(Stamp(slots + 1)), Err(Refusal::BadReservation));
}

#[test]
fn a_room_is_filled_again() {
    let mut table = Table::fresh();
    let mut seen = Snapshot::room();
    let held: Vec<_> = (1..=5).map(|n| table.begin(Stamp(n)).unwrap()).collect();
    table.snapshot_into(6, 6, &mut seen).unwrap();
    assert_eq!(seen.in_flight(), [1, 2, 3, 4, 5]);
    held[1..]
        .iter()
        .for_each(|taken| table.end(*taken).unwrap());
    let pin = table.pin_into(9, 2, &mut seen).unwrap();
    assert_eq!(
        (pin, seen.xmin(), seen.xmax(), seen.in_flight()),
        (PinNo(0), 1, 2, &[1][..])
    );
    let before = (table.clone(), seen.clone());
    let refused = table.transaction_snapshot_into(held[1], 9, 9, &mut seen);
    assert_eq!(refused.map_err(Refusal::number), Err(3));
    assert_eq!(
        table.pin_into(8, 8, &mut seen).map_err(Refusal::number),
        Err(7)
    );
    assert_eq!(
        table
            .snapshot_into(9, 10, &mut seen)
            .map_err(Refusal::number),
        Err(8)
    );
    assert_eq!(
        (table.clone(), seen.clone()),
        before,
        "a refusal leaves both"
    );
    table
        .transaction_snapshot_into(held[0], 9, 9, &mut seen)
        .unwrap();
    assert_eq!((seen.xmin(), seen.xmax()), (1, 9));
    assert_eq!(seen, table.transaction_snapshot(held[0], 9, 9).unwrap());
}

#[test]
fn pins_are_as_many_as_the_crate_says() {
    let mut table = Table::fresh();
    let numbers: Vec<_> = (0..PINS).map(|_| table.pin(1, 1).unwrap().0.0).collect();
    assert!(numbers.iter().map(|pin| usize::from(*pin)).eq(0..PINS));
    assert_eq!(table.pin(1, 1), Err(Refusal::NoFreePin));
    let pin = PinNo(PINS as u16);
    assert_eq!(table.unpin(pin), Err(Refusal::InvalidPin { pin }));
    let pin = PinNo(7);
    table.unpin(pin).unwrap();
    let refused = table.unpin(pin).unwrap_err();
    assert_eq!(refused, Refusal::FreePin { pin });
    assert_eq!(refused.to_string(), "refusal 16: pin 7 is free");
    assert_eq!(table.pin(1, 1).unwrap().0, pin);
}

#[test]
fn a_room_of_zeros_settles_nothing() {
    let room = Snapshot::room();
    assert_eq!(room.settled(Txid(1)), Ok(false));
    assert_eq!(room.usable(Txid(1), Some(Txid(1))), Ok(true));
    assert_eq!(room.settled(Txid(0)), Err(Refusal::ZeroTxid));
}
