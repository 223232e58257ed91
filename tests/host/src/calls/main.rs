//! Compares every call on a table in the host's memory with the twin's table, word by word: `calls SEED COUNT`, COUNT random calls
//! of all ten kinds. Its last line is 'N passed, M failed'.
//!
//! Each call is made twice: on raw runs of words, with words around them that nobody may touch, and through the Rust crate. Then some
//! runs of a shared table with several threads are captured, and replayed by the twin.

mod captured;
mod cells;
mod choose;
mod crated;
mod lengths;
mod plain;
mod runs;
mod wrong;

// the same declarations as the crate's, for the runs that it never lends
#[allow(dead_code)]
#[path = "../../../../host/src/raw.rs"]
mod raw;

use cells::Cells;
use choose::Chooser;
use plain::Expected;
use runs::Runs;
use std::process::exit;
use twin::random::Random;
use twin::table::Table;
use twin::waits::tables;
use wrong::{WRONGS, Wrong};

/// After so many calls another table is begun.
const RUN: u64 = 2_500;

/// So many runs of a shared table are captured and replayed.
const CAPTURED: u64 = 20;

struct Counts {
    passed: u64,
    failed: u64,
}

impl Counts {
    fn count(&mut self, good: bool, what: impl FnOnce() -> String) {
        if good {
            self.passed += 1;
        } else {
            self.failed += 1;
            println!("FAILED {}", what());
        }
    }
}

/// What all calls have reached.
struct Seen {
    cells: Cells,
    unseen: Vec<Wrong>,
}

/// A fresh table most times, else one that passes the check or does not.
fn start(random: &mut Random) -> Table {
    match random.below(6) {
        0 => tables::good(random),
        1 => {
            let good = tables::good(random);
            tables::damaged(&good, random)
        }
        _ => Table::fresh(),
    }
}

/// One table three times: the twin's, its words, and the crate's. One that fails the check can't be adopted by the crate.
struct Run {
    random: Random,
    chooser: Chooser,
    table: Table,
    runs: Runs,
    crated: Option<sockhurdle::Table>,
}

impl Run {
    fn begin(seed: u64) -> Result<Run, String> {
        let mut random = Random::new(seed);
        let table = start(&mut random);
        let chooser = Chooser::new(&mut random);
        let runs = Runs::of(plain::words(&table));
        let crated = crated::adopted(&table);
        if crated.is_some() != table.passes() {
            return Err("adopt".to_string());
        }
        if !lengths::checks(&runs, table.passes(), &mut random) {
            return Err("fresh or check".to_string());
        }
        Ok(Run {
            random,
            chooser,
            table,
            runs,
            crated,
        })
    }

    /// One call on each of them; what is wrong with it.
    fn call(&mut self, seen: &mut Seen) -> Result<(), String> {
        let random = &mut self.random;
        let record = self.chooser.record(&self.table, random);
        seen.cells.add(&self.table, &record);
        self.runs.renew(random);
        let expected = Expected::of(&mut self.table, &record, &self.runs);
        let before = self.runs.clone();
        let number = self.runs.call(&record);
        if number != expected.number || self.runs != expected.runs {
            let differs = self.runs.first_difference(&expected.runs);
            return Err(format!("{record:?} answered {number}: {differs}"));
        }
        seen.unseen
            .retain(|wrong| !wrong.differs(&record, &before, &expected));
        if let Some(crated) = &mut self.crated {
            let told = crated::told(crated, &record);
            if told != expected.told || crated.words() != self.runs.table() {
                return Err(format!("{record:?} by the crate: {told:?}"));
            }
        }
        let other = random.once_in(16);
        if other && !lengths::refused(&before, &record, random, &mut seen.cells) {
            return Err(format!("{record:?} with other lengths"));
        }
        Ok(())
    }
}

/// A run of so many calls on one table; the first that is wrong.
fn run(seed: u64, count: u64, seen: &mut Seen) -> Result<(), String> {
    let mut run = Run::begin(seed).map_err(|what| format!("table {seed}: {what}"))?;
    for call in 0..count {
        let called = run.call(seen);
        called.map_err(|what| format!("table {seed}, call {call}: {what}"))?;
    }
    Ok(())
}

fn numbers() -> Option<(u64, u64)> {
    let mut words = std::env::args().skip(1).map(|word| word.parse().ok());
    let numbers = (words.next()??, words.next()??);
    words.next().is_none().then_some(numbers)
}

fn main() {
    let Some((seed, count)) = numbers() else {
        eprintln!("usage: calls SEED COUNT");
        exit(2);
    };
    let mut counts = Counts {
        passed: 0,
        failed: 0,
    };
    let mut seen = Seen {
        cells: Cells::none(),
        unseen: WRONGS.to_vec(),
    };
    let runs = count.div_ceil(RUN);
    for number in 0..runs {
        let said = run(seed + number, RUN.min(count - number * RUN), &mut seen);
        counts.count(said.is_ok(), || said.unwrap_err());
    }
    println!("{count} calls on {runs} tables");
    for seed in seed..seed + CAPTURED {
        counts.count(captured::replays(seed), || {
            format!("captured run {seed}: its replay ends elsewhere")
        });
    }
    println!("{CAPTURED} captured runs of {} threads", captured::THREADS);
    let Seen { cells, unseen } = seen;
    let empty = cells.empty();
    println!(
        "{} of {} cells reached",
        cells.len() - empty.len(),
        cells.len()
    );
    counts.count(empty.is_empty(), || format!("no call for {empty:?}"));
    println!(
        "{} of {} wrong calls seen",
        WRONGS.len() - unseen.len(),
        WRONGS.len()
    );
    counts.count(unseen.is_empty(), || {
        let names: Vec<_> = unseen.iter().map(|wrong| wrong.name).collect();
        format!("wrong calls not seen: {names:?}")
    });
    println!("{} passed, {} failed", counts.passed, counts.failed);
    exit(i32::from(counts.failed > 0));
}
