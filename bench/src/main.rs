//! Times the proved calls against plain Rust: same jobs, same checksums, same process. Run it by bench/run.

mod jobs;
mod plain;

use std::hint::black_box;
use std::process::{Command, exit};
use std::time::Instant;

unsafe extern "C" {
    safe fn bench_slots() -> u64;
    safe fn bench_begin_end_by_value(layout: u64, rounds: u64) -> u64;
    safe fn bench_begin_end_lent(layout: u64, rounds: u64) -> u64;
    safe fn bench_snapshot_lent(layout: u64, rounds: u64) -> u64;
    safe fn bench_oldest_lent(layout: u64, rounds: u64) -> u64;
}

type Rounds = extern "C" fn(u64, u64) -> u64;

/// A job's name and how the table is passed, then plain Rust and the proved calls.
const JOBS: [(&str, &str, [Rounds; 2]); 5] = [
    (
        "begin+end",
        "by value",
        [jobs::begin_end, bench_begin_end_by_value],
    ),
    ("begin+end", "lent", [jobs::begin_end, bench_begin_end_lent]),
    (
        "snapshot (Rust: Vec)",
        "lent",
        [jobs::snapshot, bench_snapshot_lent],
    ),
    (
        "snapshot (Rust: array)",
        "lent",
        [jobs::fixed_snapshot, bench_snapshot_lent],
    ),
    ("oldest", "lent", [jobs::oldest, bench_oldest_lent]),
];
const LAYOUTS: [&str; 2] = ["lower half", "every second"];
/// Where code and stack lie differs from process to process, and so do the times: each number is the middle of so many processes.
const PROCESSES: usize = 11;
/// In a process the least of so many samples counts, the one that was least disturbed.
const SAMPLES: usize = 7;
/// A sample takes at least this long, so that reading the clock doesn't count.
const SAMPLE_NS: f64 = 2e6;

/// Nanoseconds of so many rounds, and of filling the table before them.
fn elapsed(job: Rounds, layout: u64, rounds: u64) -> f64 {
    let start = Instant::now();
    black_box(job(black_box(layout), black_box(rounds)));
    start.elapsed().as_nanos() as f64
}

/// Nanoseconds of filling the table alone.
fn filling(job: Rounds, layout: u64) -> f64 {
    let times = (0..SAMPLES).map(|_| elapsed(job, layout, 0));
    times.fold(f64::INFINITY, f64::min)
}

/// So many rounds that they take as long as a sample should, without the filling.
fn enough_rounds(job: Rounds, layout: u64, filling: f64) -> u64 {
    let mut rounds = 1_000;
    while elapsed(job, layout, rounds) < filling + SAMPLE_NS {
        rounds *= 2;
    }
    rounds
}

/// Nanoseconds of a round. The two take turns, so that what disturbs the machine disturbs both alike.
fn measure(jobs: [Rounds; 2], layout: u64) -> [f64; 2] {
    let fillings = jobs.map(|job| filling(job, layout));
    let rounds: [u64; 2] = std::array::from_fn(|k| enough_rounds(jobs[k], layout, fillings[k]));
    let mut least = [f64::INFINITY; 2];
    for _ in 0..SAMPLES {
        for k in 0..2 {
            let spent = elapsed(jobs[k], layout, rounds[k]) - fillings[k];
            least[k] = least[k].min(spent / rounds[k] as f64);
        }
    }
    least
}

/// A line for each job and layout, with two times.
fn print_times() {
    for (_, _, jobs) in JOBS {
        for layout in 0..2 {
            let [rust, proved] = measure(jobs, layout);
            println!("{rust} {proved}");
        }
    }
}

/// What `print_times` wrote in a process of its own.
fn times_of_a_process() -> Vec<Vec<f64>> {
    let this = std::env::current_exe().expect("this program has a path");
    let run = Command::new(this)
        .arg("times")
        .output()
        .expect("this program runs");
    let text = String::from_utf8(run.stdout).expect("times are text");
    let numbers = |line: &str| {
        line.split(' ')
            .map(|n| n.parse().expect("a time"))
            .collect()
    };
    text.lines().map(numbers).collect()
}

fn agree(jobs: [Rounds; 2], layout: u64) -> bool {
    [0, 1, 2, 1_000, 4_321].into_iter().all(|rounds| {
        let [rust, proved] = jobs.map(|job| job(layout, rounds));
        rust == proved
    })
}

fn check_answers() {
    if bench_slots() != plain::SLOTS as u64 {
        eprintln!(
            "the library has {} slots, plain Rust {}",
            bench_slots(),
            plain::SLOTS
        );
        exit(1);
    }
    for (name, form, jobs) in JOBS {
        for layout in 0..2 {
            if !agree(jobs, layout) {
                eprintln!("{name}, {form}, layout {layout}: the answers differ");
                exit(1);
            }
        }
    }
}

fn print_table() {
    let runs: Vec<_> = (0..PROCESSES).map(|_| times_of_a_process()).collect();
    println!("{} slots, half full; the answers agree.", plain::SLOTS);
    println!("ns per round: the middle of {PROCESSES} processes (least to most).\n");
    println!("| job | table | taken | plain Rust | proved | proved / Rust |");
    println!("|---|---|---|---|---|---|");
    for (row, (name, form, _)) in JOBS.iter().flat_map(|job| [job, job]).enumerate() {
        let sorted: [Vec<f64>; 2] = std::array::from_fn(|k| {
            let mut times: Vec<f64> = runs.iter().map(|run| run[row][k]).collect();
            times.sort_by(f64::total_cmp);
            times
        });
        let middle = |k: usize| sorted[k][PROCESSES / 2];
        let cell = |k: usize| {
            format!(
                "{:.1} ({:.1} to {:.1})",
                middle(k),
                sorted[k][0],
                sorted[k][PROCESSES - 1]
            )
        };
        let (taken, rust, proved) = (LAYOUTS[row % 2], cell(0), cell(1));
        let ratio = middle(1) / middle(0);
        println!("| {name} | {form} | {taken} | {rust} | {proved} | {ratio:.2} |");
    }
}

fn main() {
    if std::env::args().nth(1).as_deref() == Some("times") {
        print_times();
        return;
    }
    check_answers();
    print_table();
}
