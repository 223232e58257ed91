//! Times the calls on a table in memory, through the Rust crate, against the twin's plain table in the same process: half full, its
//! lower half or every second slot.

use sockhurdle::{Registration, Shared, SlotNo, Snapshot, Stamp, Table, Txid};
use std::hint::black_box;
use std::time::Instant;
use twin::table::{self, SLOTS};

const SAMPLES: usize = 21;
const ROUNDS: u64 = 2_000;

type Layout = fn(usize) -> bool;

const LAYOUTS: [(&str, Layout); 2] = [
    ("lower half", |slot| slot < SLOTS / 2),
    ("every second", |slot| slot % 2 == 0),
];

fn registered(slot: usize) -> Registration {
    Registration {
        slot: SlotNo(slot as u16),
        id: Txid(slot as u64 + 1),
    }
}

fn ours(taken: Layout) -> Table {
    let mut table = Table::fresh();
    for number in 1..=SLOTS as u64 {
        table.begin(Stamp(number)).expect("there is room");
    }
    for slot in (0..SLOTS).filter(|slot| !taken(*slot)) {
        table.end(registered(slot)).expect("it is registered");
    }
    table
}

fn plain(taken: Layout) -> table::Table {
    let mut table = table::Table::fresh();
    for number in 1..=SLOTS as u64 {
        table.begin(number).expect("there is room");
    }
    for slot in (0..SLOTS).filter(|slot| !taken(*slot)) {
        let id = slot as u64 + 1;
        table.end(slot as u16, id).expect("it is registered");
    }
    table
}

/// Plain Rust's snapshot where nothing may be allocated: the ids into room that is lent.
#[inline(never)]
fn fill(table: &table::Table, sample: u64, ids: &mut [u64]) -> (u64, u64, usize) {
    let (mut xmin, mut xmax, mut count) = (sample, sample, 0);
    for slot in table.slots() {
        if slot.txid != 0 {
            ids[count] = slot.txid;
            count += 1;
            xmin = xmin.min(slot.txid);
            xmax = xmax.max(slot.txid.saturating_add(1));
        }
    }
    (xmin, xmax, count)
}

/// A side of the race: a table, the next number, and room for ids.
struct Side<T> {
    table: T,
    next: u64,
    seen: Snapshot,
    ids: Vec<u64>,
}

impl<T> Side<T> {
    fn of(table: T) -> Self {
        Side {
            table,
            next: SLOTS as u64 + 1,
            seen: Snapshot::room(),
            ids: vec![0; SLOTS],
        }
    }

    fn number(&mut self) -> u64 {
        self.next += 1;
        black_box(self.next - 1)
    }
}

type Ours = fn(&mut Side<Table>);
type Plain = fn(&mut Side<table::Table>);

const HELD: Registration = Registration {
    slot: SlotNo(0),
    id: Txid(1),
};

const JOBS: &[(&str, Ours, Plain)] = &[
    (
        "begin and end",
        |side| {
            let number = side.number();
            let begun = side.table.begin(Stamp(number)).unwrap();
            side.table.end(begun).unwrap();
        },
        |side| {
            let number = side.number();
            let slot = side.table.begin(number).unwrap();
            side.table.end(slot as u16, number).unwrap();
        },
    ),
    (
        "begin and finish",
        |side| {
            let (number, stamp) = (side.number(), side.number());
            let begun = side.table.begin(Stamp(number)).unwrap();
            side.table.finish(begun, Stamp(stamp)).unwrap();
        },
        |side| {
            let (number, stamp) = (side.number(), side.number());
            let slot = side.table.begin(number).unwrap();
            side.table.finish(slot as u16, number, stamp).unwrap();
        },
    ),
    (
        "stamp",
        |side| {
            let number = side.number();
            black_box(side.table.stamp(Stamp(number)).unwrap());
        },
        |side| {
            let number = side.number();
            black_box(side.table.stamp(number).unwrap());
        },
    ),
    (
        "refused end",
        |side| {
            let id = Txid(side.number());
            let other = Registration { id, ..HELD };
            black_box(side.table.end(other).unwrap_err());
        },
        |side| {
            let id = side.number();
            black_box(side.table.end(0, id).unwrap_err());
        },
    ),
    (
        "snapshot, room kept",
        |side| {
            let clock = side.number();
            let (table, seen) = (&mut side.table, &mut side.seen);
            table.snapshot_into(clock, clock, seen).unwrap();
        },
        |side| {
            let clock = side.number();
            side.table.observe(clock, clock).unwrap();
            black_box(fill(&side.table, clock, &mut side.ids));
        },
    ),
    (
        "snapshot, allocated",
        |side| {
            let clock = side.number();
            black_box(side.table.snapshot(clock, clock).unwrap());
        },
        |side| {
            let clock = side.number();
            black_box(side.table.snapshot(clock, clock).unwrap());
        },
    ),
    (
        "transaction snapshot, room kept (plain: allocated)",
        |side| {
            let clock = side.number();
            let (table, seen) = (&mut side.table, &mut side.seen);
            table
                .transaction_snapshot_into(HELD, clock, clock, seen)
                .unwrap();
        },
        |side| {
            let clock = side.number();
            black_box(side.table.transaction_snapshot(0, 1, clock, clock).unwrap());
        },
    ),
    (
        "pin and unpin, room kept (plain: allocated)",
        |side| {
            let clock = side.number();
            let (table, seen) = (&mut side.table, &mut side.seen);
            let pin = table.pin_into(clock, clock, seen).unwrap();
            table.unpin(pin).unwrap();
        },
        |side| {
            let clock = side.number();
            let (pin, seen) = side.table.pin(clock, clock).unwrap();
            black_box(seen);
            side.table.unpin(pin as u16).unwrap();
        },
    ),
    (
        "oldest",
        |side| {
            let clock = side.number();
            black_box(side.table.oldest(clock, clock).unwrap());
        },
        |side| {
            let clock = side.number();
            black_box(side.table.oldest_snapshot_xmin(clock, clock).unwrap());
        },
    ),
    (
        "vacuum",
        |side| {
            let clock = side.number();
            black_box(side.table.vacuum(clock, clock).unwrap());
        },
        |side| {
            let clock = side.number();
            black_box(side.table.vacuum(clock, clock).unwrap());
        },
    ),
];

fn sample<T>(side: &mut Side<T>, job: fn(&mut Side<T>)) -> f64 {
    let start = Instant::now();
    for _ in 0..ROUNDS {
        job(black_box(side));
    }
    start.elapsed().as_nanos() as f64 / ROUNDS as f64
}

/// The least of the samples of each side, taken in turns.
pub fn calls() {
    println!("| calls | table | ours, ns | plain Rust, ns | ratio |");
    println!("|---|---|---|---|---|");
    for (name, job, other) in JOBS {
        for (layout, taken) in LAYOUTS {
            let (mut ours, mut plain) = (Side::of(ours(taken)), Side::of(plain(taken)));
            let mut least = (f64::MAX, f64::MAX);
            for _ in 0..SAMPLES {
                least.0 = least.0.min(sample(&mut ours, *job));
                least.1 = least.1.min(sample(&mut plain, *other));
            }
            let ratio = least.0 / least.1;
            println!(
                "| {name} | {layout} | {:.1} | {:.1} | {ratio:.2} |",
                least.0, least.1
            );
        }
    }
}

/// So many rounds of two calls have room in a trace.
const KEPT: u32 = 500;

type Round = fn(&Shared);

/// Nanoseconds a round on a shared table that nobody else uses, with its calls kept or not.
fn shared_round(kept: bool, round: Round) -> f64 {
    let shared = Shared::fresh();
    let mut least = f64::MAX;
    for _ in 0..20 * SAMPLES {
        if kept {
            assert!(shared.record(), "nothing is taken between the samples");
        }
        let start = Instant::now();
        for _ in 0..KEPT {
            round(black_box(&shared));
        }
        let time = start.elapsed().as_nanos() as f64 / f64::from(KEPT);
        least = least.min(time);
    }
    least
}

/// What the lock, the guards and the capture cost, on an empty table.
pub fn shared() {
    let rounds: [(&str, Round); 3] = [
        ("begin and commit", |shared| {
            shared.begin().unwrap().commit()
        }),
        ("begin and finish", |shared| {
            shared.begin().unwrap().finish().unwrap();
        }),
        ("pin and release", |shared| drop(shared.pin().unwrap())),
    ];
    println!("| shared table | ns | with its calls kept, ns |");
    println!("|---|---|---|");
    for (name, round) in rounds {
        let [bare, kept] = [false, true].map(|kept| shared_round(kept, round));
        println!("| {name} | {bare:.1} | {kept:.1} |");
    }
}
