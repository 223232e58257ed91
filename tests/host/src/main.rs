//! Compares the linked library with the independent decoder: `images FROM COUNT`, by seeds. Its last line is 'N passed, M
//! failed'. Each question is asked at two places of memory, so that its bytes lie on any alignment.

mod cells;
mod decode;
mod question;

use cells::Cells;
use decode::{FAULTS, Fault, Reading};
use question::Question;
use std::process::exit;

struct Counts {
    passed: usize,
    failed: usize,
}

impl Counts {
    fn count(&mut self, good: bool, what: impl FnOnce() -> String) {
        if good {
            self.passed += 1;
        } else {
            self.failed += 1;
            println!("FAILED {}", what());
        }
    }
}

/// A question as it can be read, its bytes cut.
fn shown(question: &Question) -> String {
    let bytes = question.bytes();
    let first = &bytes[..bytes.len().min(64)];
    match question {
        Question::Check(_) => format!("check of {} bytes: {first:?}..", bytes.len()),
        Question::Settled { xmax, id, .. } => {
            format!("settled {xmax} {id} in {} bytes: {first:?}..", bytes.len())
        }
        Question::Usable { xmax, id, own, .. } => format!(
            "usable {xmax} {id} by {own} in {} bytes: {first:?}..",
            bytes.len()
        ),
    }
}

fn numbers() -> Option<(u64, u64)> {
    let mut words = std::env::args().skip(1).map(|word| word.parse().ok());
    let numbers = (words.next()??, words.next()??);
    words.next().is_none().then_some(numbers)
}

fn main() {
    let Some((from, count)) = numbers() else {
        eprintln!("usage: images FROM COUNT");
        exit(2);
    };
    let mut counts = Counts {
        passed: 0,
        failed: 0,
    };
    let mut cells = Cells::none();
    let mut unseen: Vec<Fault> = FAULTS.to_vec();
    for seed in from..from + count {
        for question in question::of(seed) {
            let expected = Reading(None).answer(&question);
            let said = [0, 1 + seed as usize % 7].map(|place| question.asked(place));
            counts.count(said == [expected; 2], || {
                format!(
                    "seed {seed}: {said:?}, not {expected}: {}",
                    shown(&question)
                )
            });
            cells.add(&question);
            unseen.retain(|fault| Reading(Some(*fault)).answer(&question) == said[0]);
        }
    }
    println!("{count} images, {} questions of lists", 2 * count);
    let empty = cells.empty();
    println!(
        "{} of {} cells reached",
        cells.len() - empty.len(),
        cells.len()
    );
    counts.count(empty.is_empty(), || format!("no question for {empty:?}"));
    println!(
        "{} of {} wrong decoders seen",
        FAULTS.len() - unseen.len(),
        FAULTS.len()
    );
    counts.count(unseen.is_empty(), || {
        format!("wrong decoders not seen: {unseen:?}")
    });
    println!("{} passed, {} failed", counts.passed, counts.failed);
    exit(i32::from(counts.failed > 0));
}
