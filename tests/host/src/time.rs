//! Times the library for hosts against plain Rust: the questions on the same bytes, where both sides answer alike before a clock
//! starts, and the calls on tables in memory. Run it by bench/host.

mod time_calls;

use sockhurdle::{Image, Slot, SnapshotRef, Txid, check_image};
use std::collections::HashSet;
use std::hint::black_box;
use std::time::Instant;
use twin::table::{PINS, SLOTS};

const SAMPLES: usize = 31;

/// Plain Rust on the bytes as they lie: refusals 18, 10 and 4, then below xmax and not in the list.
fn contains(xmax: u64, list: &[u8], id: u64) -> Result<bool, u64> {
    let (ids, rest) = list.as_chunks::<8>();
    if !rest.is_empty() {
        return Err(18);
    }
    if ids.len() > SLOTS {
        return Err(10);
    }
    if id == 0 {
        return Err(4);
    }
    Ok(id < xmax && !ids.contains(&id.to_le_bytes()))
}

/// The table check on the bytes as they lie, its txids held against each other by a set.
fn check(image: &[u8]) -> Result<bool, u64> {
    let (numbers, rest) = image.as_chunks::<8>();
    if !rest.is_empty() || numbers.len() != 2 * SLOTS + PINS + 3 {
        return Err(18);
    }
    let number = |place: usize| u64::from_le_bytes(numbers[place]);
    let first = 2 * SLOTS + PINS;
    let (clock, sample, line) = (number(first), number(first + 1), number(first + 2));
    let mut seen = HashSet::with_capacity(SLOTS);
    let slot = |place: usize| match (number(2 * place), number(2 * place + 1)) {
        (0, xmin) => xmin == 0,
        (txid, xmin) => {
            (1..=txid).contains(&xmin) && (line..clock).contains(&txid) && seen.insert(txid)
        }
    };
    let pin = |place: usize| match number(2 * SLOTS + place) {
        0 => true,
        xmin => (line..=clock).contains(&xmin),
    };
    Ok((1..=clock).contains(&sample)
        && (1..=clock).contains(&line)
        && (0..SLOTS).all(slot)
        && (0..PINS).all(pin))
}

/// Nanoseconds a call: the least of the samples of each side, taken in turns.
fn race(rounds: u32, ours: impl Fn() -> bool, plain: impl Fn() -> bool) -> (f64, f64) {
    assert_eq!(ours(), plain(), "the two sides answer alike");
    let sample = |ask: &dyn Fn() -> bool| {
        let start = Instant::now();
        for _ in 0..rounds {
            black_box(ask());
        }
        start.elapsed().as_nanos() as f64 / f64::from(rounds)
    };
    let mut least = (f64::MAX, f64::MAX);
    for _ in 0..SAMPLES {
        least.0 = least.0.min(sample(&ours));
        least.1 = least.1.min(sample(&plain));
    }
    least
}

fn lists() {
    println!("| list | question | ours, ns | plain Rust, ns | ratio |");
    println!("|---|---|---|---|---|");
    for (name, count) in [("0", 0), ("16", 16), ("half", SLOTS / 2), ("full", SLOTS)] {
        // even numbers, so that odd ones are absent between them
        let ids: Vec<u64> = (0..count as u64).map(|i| 1_000 + 2 * i).collect();
        let list: Vec<u8> = ids.iter().flat_map(|id| id.to_le_bytes()).collect();
        let xmax = 1_010 + 2 * count as u64;
        let mut asked = vec![("absent", 1_001), ("at xmax", xmax)];
        if let (Some(first), Some(last)) = (ids.first(), ids.last()) {
            asked.extend([("found first", *first), ("found last", *last)]);
        }
        for (kind, id) in asked {
            let seen = SnapshotRef::of_bytes(xmax, &list);
            let ours = || black_box(seen).settled(Txid(black_box(id))) == Ok(true);
            let plain = || contains(black_box(xmax), black_box(&list), black_box(id)) == Ok(true);
            let (ours, plain) = race(10_000, ours, plain);
            println!(
                "| {name} | {kind} | {ours:.0} | {plain:.0} | {:.2} |",
                ours / plain
            );
        }
    }
}

fn images() {
    println!("| image | ours, µs | plain Rust, µs | ratio |");
    println!("|---|---|---|---|");
    let mut half = Image::fresh();
    half.clock = 10_000;
    let mut full = half.clone();
    for (place, slot) in full.slots.iter_mut().enumerate() {
        let txid = 1 + (place as u64 * 7) % 9_973;
        *slot = Slot {
            txid,
            snapshot_xmin: txid,
        };
    }
    half.slots[..SLOTS / 2].copy_from_slice(&full.slots[..SLOTS / 2]);
    let mut twice = full.clone();
    twice.slots[SLOTS - 1] = twice.slots[0];
    let cases = [
        ("empty, passes", Image::fresh()),
        ("half full, passes", half),
        ("full, passes", full),
        ("full, the last txid is the first's", twice),
    ];
    for (name, table) in cases {
        let image = table.bytes();
        let ours = || check_image(black_box(&image)) == Ok(true);
        let plain = || check(black_box(&image)) == Ok(true);
        let (ours, plain) = race(100, ours, plain);
        let (ours, plain) = (ours / 1_000.0, plain / 1_000.0);
        println!("| {name} | {ours:.1} | {plain:.1} | {:.2} |", ours / plain);
    }
}

fn main() {
    println!("{SLOTS} slots, {PINS} pins");
    lists();
    println!();
    images();
    println!();
    time_calls::calls();
    println!();
    time_calls::shared();
}
