//! Times the settled test, lent and by value, and the usable test, lent, against plain Rust's `contains`: every kind of
//! question, on lists of five lengths. Run it by bench/settled.

use std::hint::black_box;
use std::process::{Command, exit};
use std::time::Instant;

#[allow(dead_code)] // only the slot count
#[path = "../../tests/twin/src/table.rs"]
mod table;

use table::SLOTS;

type Linked = unsafe extern "C" fn(*const u64, usize, usize, u64, *const u64, usize, u64) -> u64;

unsafe extern "C" {
    safe fn bench_settled_slots() -> u64;
    fn bench_settled_lent(
        ids: *const u64,
        len: usize,
        count: usize,
        xmax: u64,
        asked: *const u64,
        asked_len: usize,
        rounds: u64,
    ) -> u64;
    fn bench_settled_by_value(
        ids: *const u64,
        len: usize,
        count: usize,
        xmax: u64,
        asked: *const u64,
        asked_len: usize,
        rounds: u64,
    ) -> u64;
    fn bench_usable_lent(
        ids: *const u64,
        len: usize,
        count: usize,
        xmax: u64,
        own: u64,
        asked: *const u64,
        asked_len: usize,
        rounds: u64,
    ) -> u64;
}

/// Of the reader in every case but one; nobody asks for this id.
const READER: u64 = 7;

/// A snapshot, and the ids that are asked of it one after the other.
struct Case {
    list: String,
    kind: &'static str,
    ids: Vec<u64>,
    xmax: u64,
    /// The reader's own id, for the usable test.
    own: u64,
    asked: Vec<u64>,
}

/// The ids are even numbers from 1,000 on, so that odd ones are absent between them.
fn cases() -> Vec<Case> {
    let mut all = Vec::new();
    for (name, len) in [
        ("0", 0),
        ("1", 1),
        ("16", 16),
        ("half", SLOTS / 2),
        ("full", SLOTS),
    ] {
        let ids: Vec<u64> = (0..len as u64).map(|i| 1_000 + 2 * i).collect();
        let xmax = 1_000 + 2 * len as u64 + 10;
        let mut kinds = vec![
            ("absent, above the list", xmax - 1),
            ("absent, between", 1_001 + len as u64 / 2 * 2),
            ("at xmax", xmax),
            ("above xmax", xmax + 7),
        ];
        if let (Some(first), Some(last)) = (ids.first(), ids.last()) {
            kinds.push(("found first", *first));
            kinds.push(("found in the middle", ids[len / 2]));
            kinds.push(("found last", *last));
            kinds.push(("the reader's own, last", *last));
        }
        for (kind, id) in kinds {
            all.push(Case {
                list: name.to_string(),
                kind,
                ids: ids.clone(),
                xmax,
                own: if kind.starts_with("the reader's own") {
                    id
                } else {
                    READER
                },
                asked: vec![id; 64],
            });
        }
        // listed ones and absent ones in turn, all over the list
        let mixed = (0..SLOTS as u64).map(|i| 1_000 + (i * 37) % (2 * len as u64 + 10));
        all.push(Case {
            list: name.to_string(),
            kind: "mixed",
            ids,
            xmax,
            own: READER,
            asked: mixed.collect(),
        });
    }
    all
}

/// What plain Rust asks: refusals 10 and 4, then below xmax and not among the first count ids.
#[inline]
fn is_settled(ids: &[u64], count: usize, xmax: u64, id: u64) -> Result<bool, u8> {
    if count > SLOTS {
        return Err(10);
    }
    if id == 0 {
        return Err(4);
    }
    Ok(id < xmax && !ids[..count.min(ids.len())].contains(&id))
}

/// The rounds of crates/bench_settled, over plain Rust.
#[inline(never)]
fn plain(ids: &[u64], count: usize, xmax: u64, asked: &[u64], rounds: u64) -> u64 {
    let mut sum = 0u64;
    let mut at = 0;
    for round in 1..=rounds {
        if asked.len() <= at {
            at = 0;
            continue;
        }
        match is_settled(ids, count, xmax, asked[at]) {
            Ok(true) => sum = sum.wrapping_add(round),
            Ok(false) => sum = sum.wrapping_add(1),
            Err(_) => {}
        }
        at += 1;
    }
    sum
}

/// And the usable test: its own id, or one that is settled.
#[inline]
fn is_usable(ids: &[u64], count: usize, xmax: u64, own: u64, id: u64) -> Result<bool, u8> {
    if count > SLOTS {
        return Err(10);
    }
    if id == 0 {
        return Err(4);
    }
    Ok(own == id || (id < xmax && !ids[..count.min(ids.len())].contains(&id)))
}

#[inline(never)]
fn plain_usable(ids: &[u64], count: usize, xmax: u64, own: u64, asked: &[u64], rounds: u64) -> u64 {
    let mut sum = 0u64;
    let mut at = 0;
    for round in 1..=rounds {
        if asked.len() <= at {
            at = 0;
            continue;
        }
        match is_usable(ids, count, xmax, own, asked[at]) {
            Ok(true) => sum = sum.wrapping_add(round),
            Ok(false) => sum = sum.wrapping_add(1),
            Err(_) => {}
        }
        at += 1;
    }
    sum
}

/// A snapshot that is passed by value.
#[derive(Clone, Copy)]
struct Snapshot {
    xmin: u64,
    xmax: u64,
    ids: [u64; SLOTS],
    count: usize,
}

/// A call that isn't inlined gets its own copy, as one into another crate does.
#[inline(never)]
fn is_settled_by_value(snapshot: Snapshot, id: u64) -> Result<bool, u8> {
    black_box(snapshot.xmin);
    is_settled(&snapshot.ids, snapshot.count, snapshot.xmax, id)
}

#[inline(never)]
fn plain_by_value(ids: &[u64], count: usize, xmax: u64, asked: &[u64], rounds: u64) -> u64 {
    let mut places = [0; SLOTS];
    places[..ids.len()].copy_from_slice(ids);
    let shown = Snapshot {
        xmin: 1,
        xmax,
        ids: places,
        count,
    };
    let mut sum = 0u64;
    let mut at = 0;
    for round in 1..=rounds {
        if asked.len() <= at {
            at = 0;
            continue;
        }
        match is_settled_by_value(shown, asked[at]) {
            Ok(true) => sum = sum.wrapping_add(round),
            Ok(false) => sum = sum.wrapping_add(1),
            Err(_) => {}
        }
        at += 1;
    }
    sum
}

/// In a process the least of so many samples counts; each number is the middle of so many processes.
/// Plain Rust and ours, lent, then both by value, then both of the usable test, lent. What both have to answer alike are
/// the first four, and the last two.
const SIDES: usize = 6;
const SAMPLES: usize = 9;
const PROCESSES: usize = 7;
const SAMPLE_NS: f64 = 4e5;

fn run(side: usize, case: &Case, rounds: u64) -> u64 {
    let (ids, asked) = (black_box(&case.ids), black_box(&case.asked));
    let call = |linked: Linked| {
        // both runs are alive and not moved for as long as the call lasts
        unsafe {
            linked(
                ids.as_ptr(),
                ids.len(),
                ids.len(),
                case.xmax,
                asked.as_ptr(),
                asked.len(),
                rounds,
            )
        }
    };
    match side {
        0 => plain(ids, ids.len(), case.xmax, asked, rounds),
        1 => call(bench_settled_lent),
        2 => plain_by_value(ids, ids.len(), case.xmax, asked, rounds),
        3 => call(bench_settled_by_value),
        4 => plain_usable(ids, ids.len(), case.xmax, case.own, asked, rounds),
        // both runs are alive and not moved for as long as the call lasts
        _ => unsafe {
            bench_usable_lent(
                ids.as_ptr(),
                ids.len(),
                ids.len(),
                case.xmax,
                case.own,
                asked.as_ptr(),
                asked.len(),
                rounds,
            )
        },
    }
}

fn elapsed(side: usize, case: &Case, rounds: u64) -> f64 {
    let start = Instant::now();
    black_box(run(side, case, rounds));
    start.elapsed().as_nanos() as f64
}

/// Nanoseconds of a round. The six take turns, so that what disturbs the machine disturbs all alike.
fn measure(case: &Case) -> [f64; SIDES] {
    let rounds: [u64; SIDES] = std::array::from_fn(|side| {
        let mut rounds = 1_000;
        while elapsed(side, case, rounds) < SAMPLE_NS {
            rounds *= 2;
        }
        rounds
    });
    let mut least = [f64::INFINITY; SIDES];
    for _ in 0..SAMPLES {
        for side in 0..SIDES {
            let spent = elapsed(side, case, rounds[side]) / rounds[side] as f64;
            least[side] = least[side].min(spent);
        }
    }
    least
}

fn print_times() {
    for case in cases() {
        let times = measure(&case).map(|time| time.to_string());
        println!("{}", times.join(" "));
    }
}

fn times_of_a_process() -> Vec<Vec<f64>> {
    let this = std::env::current_exe().expect("this program has a path");
    let run = Command::new(this)
        .arg("times")
        .output()
        .expect("this program runs");
    let text = String::from_utf8(run.stdout).expect("times are text");
    let numbers = |line: &str| {
        line.split(' ')
            .map(|n| n.parse().expect("a time"))
            .collect()
    };
    text.lines().map(numbers).collect()
}

fn check_answers() {
    if bench_settled_slots() != SLOTS as u64 {
        eprintln!(
            "the library has {} slots, plain Rust {SLOTS}",
            bench_settled_slots()
        );
        exit(1);
    }
    for case in cases() {
        for rounds in [0, 1, 70, 4_321] {
            let sums: [u64; SIDES] = std::array::from_fn(|side| run(side, &case, rounds));
            if sums[..4].iter().any(|sum| *sum != sums[0]) || sums[4] != sums[5] {
                eprintln!("list {}, {}: the answers differ", case.list, case.kind);
                exit(1);
            }
        }
    }
}

fn main() {
    if std::env::args().nth(1).as_deref() == Some("times") {
        print_times();
        return;
    }
    check_answers();
    let runs: Vec<_> = (0..PROCESSES).map(|_| times_of_a_process()).collect();
    println!(
        "{SLOTS} slots; the answers agree. ns a question: the middle of {PROCESSES} processes.\n"
    );
    println!(
        "| list | id | Rust, lent | ours, lent | ratio | Rust, by value | ours, by value | ratio \
         | Rust, usable | ours, usable | ratio |"
    );
    println!("|---|---|---|---|---|---|---|---|---|---|---|");
    for (row, case) in cases().iter().enumerate() {
        let [rust, lent, rust_value, value, rust_usable, usable]: [f64; SIDES] =
            std::array::from_fn(|side| {
                let mut times: Vec<f64> = runs.iter().map(|run| run[row][side]).collect();
                times.sort_by(f64::total_cmp);
                times[PROCESSES / 2]
            });
        println!(
            "| {} | {} | {rust:.1} | {lent:.1} | {:.2} | {rust_value:.1} | {value:.1} | {:.2} \
             | {rust_usable:.1} | {usable:.1} | {:.2} |",
            case.list,
            case.kind,
            lent / rust,
            value / rust_value,
            usable / rust_usable
        );
    }
}
