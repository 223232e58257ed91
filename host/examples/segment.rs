//! A host that finds a table in its shared segment, and a reader that asks which versions it may use.
//! Run it: `cargo run --release --offline --example segment` in this folder, after host/build.

use sockhurdle::{Image, Refusal, Slot, SnapshotRef, Txid, check_image};

fn main() -> Result<(), Refusal> {
    // A segment that another process wrote: two transactions, 5 and 9, a pinned snapshot, and the counters.
    let mut table = Image::fresh();
    table.slots[0] = Slot {
        txid: 5,
        snapshot_xmin: 4,
    };
    table.slots[1] = Slot {
        txid: 9,
        snapshot_xmin: 5,
    };
    table.pins[0] = 4;
    (table.clock, table.sampled_clock, table.vacuum_line) = (12, 11, 4);
    let mut segment = table.bytes();
    println!("the segment passes: {}", check_image(&segment)?);

    // Slot 1's txid is written over with slot 0's, as a torn write may.
    segment.copy_within(0..8, 16);
    println!("with 5 in two slots: {}", check_image(&segment)?);
    match check_image(&segment[..segment.len() - 1]) {
        Err(refusal) => println!("one byte short: {refusal}"),
        Ok(passes) => println!("one byte short: {passes}"),
    }

    // A reader's snapshot: everything below 12 is settled but 5 and 9, which were in flight.
    let in_flight = [5, 9];
    let seen = SnapshotRef::of_ids(12, &in_flight);
    for maker in [4, 5, 9, 11, 12] {
        let (settled, usable) = (
            seen.settled(Txid(maker))?,
            seen.usable(Txid(maker), Some(Txid(9)))?,
        );
        println!("made by {maker}: settled {settled}, usable by 9 {usable}");
    }
    Ok(())
}
