//! Times the batch decision against plain Rust's loop, on batches of a million versions. Run it by bench/batch.

use std::hint::black_box;
use std::process::{Command, exit};

type Version = [u64; 2];

unsafe extern "C" {
    fn bench_batch(
        line: u64,
        versions: *const Version,
        count: usize,
        run: *mut u8,
        room: usize,
    ) -> u64;
    fn clock_gettime(clock: i32, time: *mut Time) -> i32;
}

/// Seconds and nanoseconds, as C has them on x86-64.
#[repr(C)]
struct Time(i64, i64);

/// Nanoseconds of processor time that this thread has used: a call takes milliseconds, and others may run meanwhile.
fn used() -> f64 {
    const OF_THIS_THREAD: i32 = 3;
    let mut time = Time(0, 0);
    // the one thing that it writes is alive
    if unsafe { clock_gettime(OF_THIS_THREAD, &mut time) } != 0 {
        eprintln!("no clock");
        exit(1);
    }
    time.0 as f64 * 1e9 + time.1 as f64
}

const VERSIONS: usize = 1_000_000;
const LINE: u64 = 1_000_000;

/// In a process the least of so many samples counts; each number is the middle of so many processes.
const SAMPLES: usize = 15;
const PROCESSES: usize = 7;

/// A batch, and the refusal's number that it has.
struct Case {
    kind: &'static str,
    versions: Vec<Version>,
    answer: u64,
}

/// SplitMix64: the same batches everywhere.
struct Random(u64);

impl Random {
    fn below(&mut self, bound: u64) -> u64 {
        self.0 = self.0.wrapping_add(0x9e37_79b9_7f4a_7c15);
        let mut mixed = self.0;
        mixed = (mixed ^ (mixed >> 30)).wrapping_mul(0xbf58_476d_1ce4_e5b9);
        mixed = (mixed ^ (mixed >> 27)).wrapping_mul(0x94d0_49bb_1331_11eb);
        (mixed ^ (mixed >> 31)) % bound
    }
}

fn below(random: &mut Random) -> Version {
    let maker = 1 + random.below(LINE / 2);
    [maker, maker + random.below(LINE / 2)]
}

fn above(random: &mut Random) -> Version {
    let maker = 1 + random.below(LINE);
    [maker, LINE + random.below(LINE)]
}

fn alive(random: &mut Random) -> Version {
    [1 + random.below(2 * LINE), 0]
}

fn mixed(random: &mut Random) -> Version {
    match random.below(3) {
        0 => below(random),
        1 => above(random),
        _ => alive(random),
    }
}

fn cases() -> Vec<Case> {
    let kinds: [(&str, fn(&mut Random) -> Version); 4] = [
        ("all go", below),
        ("all alive", alive),
        ("all ended at the line or above", above),
        ("mixed", mixed),
    ];
    let mut all: Vec<Case> = kinds
        .into_iter()
        .map(|(kind, version)| {
            let mut random = Random(kind.len() as u64);
            let versions = (0..VERSIONS).map(|_| version(&mut random)).collect();
            Case {
                kind,
                versions,
                answer: 0,
            }
        })
        .collect();
    let mut random = Random(1);
    let mut versions: Vec<Version> = (0..VERSIONS).map(|_| mixed(&mut random)).collect();
    versions[VERSIONS - 1] = [2, 1];
    all.push(Case {
        kind: "mixed, the last one bad: 17, nothing written",
        versions,
        answer: 17,
    });
    all
}

/// Plain Rust: refusal 12, then 4 and 17 of the first bad version, then the decisions.
#[inline(never)]
fn plain(line: u64, versions: &[Version], run: &mut [u8]) -> u64 {
    if run.len() < versions.len() {
        return 12;
    }
    for &[maker, ender] in versions {
        if maker == 0 {
            return 4;
        }
        if ender != 0 && ender < maker {
            return 17;
        }
    }
    for (decision, &[_, ender]) in run.iter_mut().zip(versions) {
        *decision = (ender != 0 && ender < line) as u8;
    }
    0
}

fn ours(line: u64, versions: &[Version], run: &mut [u8]) -> u64 {
    // both runs are alive, apart and not moved for as long as the call lasts
    unsafe {
        bench_batch(
            line,
            versions.as_ptr(),
            versions.len(),
            run.as_mut_ptr(),
            run.len(),
        )
    }
}

const SIDES: [fn(u64, &[Version], &mut [u8]) -> u64; 2] = [plain, ours];

fn check_answers() {
    for case in cases() {
        for count in [0, 1, 7, 64, 1_000, VERSIONS] {
            for room in [count.saturating_sub(1), count, count + 9] {
                let versions = &case.versions[VERSIONS - count..];
                let [rust, own] = SIDES.map(|side| {
                    let mut run = vec![7u8; room];
                    (side(LINE, versions, &mut run), run)
                });
                let right = if room < count {
                    12
                } else if count == 0 {
                    0
                } else {
                    case.answer
                };
                if rust != own || own.0 != right {
                    eprintln!("{}, {count} versions: the answers differ", case.kind);
                    exit(1);
                }
            }
        }
    }
}

/// Nanoseconds of a version. The two take turns, so that what disturbs the machine disturbs both alike.
fn print_times() {
    let mut run = vec![7u8; VERSIONS];
    for case in cases() {
        let mut least = [f64::INFINITY; 2];
        for _ in 0..SAMPLES {
            for (side, decide) in SIDES.iter().enumerate() {
                let start = used();
                black_box(decide(LINE, black_box(&case.versions), black_box(&mut run)));
                let spent = (used() - start) / VERSIONS as f64;
                least[side] = least[side].min(spent);
            }
        }
        println!("{} {}", least[0], least[1]);
    }
}

fn times_of_a_process() -> Vec<[f64; 2]> {
    let this = std::env::current_exe().expect("this program has a path");
    let run = Command::new(this)
        .arg("times")
        .output()
        .expect("this program runs");
    let text = String::from_utf8(run.stdout).expect("times are text");
    let numbers = |line: &str| {
        let mut both = line.split(' ').map(|n| n.parse().expect("a time"));
        [both.next().expect("Rust's"), both.next().expect("ours")]
    };
    text.lines().map(numbers).collect()
}

fn main() {
    if std::env::args().nth(1).as_deref() == Some("times") {
        print_times();
        return;
    }
    check_answers();
    let runs: Vec<_> = (0..PROCESSES).map(|_| times_of_a_process()).collect();
    println!(
        "{VERSIONS} versions; the answers agree. ns of processor time a version: the middle of {PROCESSES} processes, the least of {SAMPLES} in each.\n"
    );
    println!("| versions | Rust | ours | ratio |");
    println!("|---|---|---|---|");
    for (row, case) in cases().iter().enumerate() {
        let [rust, own] = [0, 1].map(|side| {
            let mut times: Vec<f64> = runs.iter().map(|run| run[row][side]).collect();
            times.sort_by(f64::total_cmp);
            times[PROCESSES / 2]
        });
        println!(
            "| {} | {rust:.2} | {own:.2} | {:.2} |",
            case.kind,
            own / rust
        );
    }
}
