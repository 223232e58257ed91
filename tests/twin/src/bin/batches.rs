//! Compares the batch decision with the twin's: batches put to a program, and to wrong deciders that the comparison has to see.

use std::process::ExitCode;
use std::time::Duration;
use twin::batch::cells::Cells;
use twin::batch::generate::{borders, generate};
use twin::batch::{Batch, Seen, input, printed, seen, wrong};
use twin::program::Program;

const USAGE: &str = "usage: batches PROGRAM FROM COUNT
Last line: 'N passed, M failed'.";

/// Counts, and says what failed.
#[derive(Default)]
struct Counts {
    passed: u64,
    failed: u64,
}

impl Counts {
    fn count(&mut self, passed: bool, what: &str) {
        if passed {
            self.passed += 1;
        } else {
            self.failed += 1;
            println!("FAILED {what}");
        }
    }
}

/// How many batches tell a decider from the twin.
fn told_apart(batches: &[(String, Batch)], decider: fn(&Batch) -> Seen) -> usize {
    batches
        .iter()
        .filter(|(_, batch)| printed(&decider(batch)) != printed(&seen(batch)))
        .count()
}

fn main() -> ExitCode {
    let arguments: Vec<String> = std::env::args().skip(1).collect();
    let [path, from, count] = arguments.as_slice() else {
        eprintln!("{USAGE}");
        return ExitCode::from(2);
    };
    let (Ok(from), Ok(count)) = (from.parse::<u64>(), count.parse::<u64>()) else {
        eprintln!("{USAGE}");
        return ExitCode::from(2);
    };
    let program = Program {
        path: path.into(),
        arguments: vec![],
        patience: Duration::from_secs(10),
    };
    let named = borders().into_iter().map(|(name, b)| (name.to_string(), b));
    let made = (from..from + count).map(|seed| (format!("batch of seed {seed}"), generate(seed)));
    let batches: Vec<(String, Batch)> = named.chain(made).collect();

    let mut counts = Counts::default();
    let mut cells = Cells::default();
    for (name, batch) in &batches {
        cells.count(batch);
        let out = program.run(&input(batch));
        counts.count(out.is_ok_and(|out| out == printed(&seen(batch))), name);
    }
    for (name, reached) in &cells.counts {
        counts.count(*reached > 0, &format!("no batch reaches: {name}"));
    }
    let (name, right) = wrong::RIGHT;
    counts.count(told_apart(&batches, right) == 0, name);
    let mut wrong_seen = 0;
    for (name, decider) in wrong::ALL {
        let told = told_apart(&batches, decider) > 0;
        wrong_seen += usize::from(told);
        counts.count(told, &format!("not seen: {name}"));
    }

    let numbers = |number| {
        batches
            .iter()
            .filter(|(_, b)| seen(b).answer.0 == number)
            .count()
    };
    println!(
        "batches: {} decided, {} refused by 12, {} by 4, {} by 17; {} cells reached, {} wrong deciders seen",
        numbers(0),
        numbers(12),
        numbers(4),
        numbers(17),
        cells.counts.values().filter(|&&n| n > 0).count(),
        wrong_seen,
    );
    let Counts { passed, failed } = counts;
    println!("{passed} passed, {failed} failed");
    if failed == 0 && passed > 0 {
        ExitCode::SUCCESS
    } else {
        ExitCode::FAILURE
    }
}
