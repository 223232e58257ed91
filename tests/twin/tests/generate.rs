//! The generator: the same text for a seed each time, and nothing left out.

use twin::coverage::Coverage;
use twin::generate::generate;
use twin::replay;
use twin::table::Table;
use twin::trace;

#[test]
fn a_seed_fixes_the_text() {
    for seed in [0, 1, 2_000, u64::MAX] {
        assert_eq!(generate(seed), generate(seed));
    }
}

#[test]
fn two_thousand_seeds_reach_every_cell() {
    let mut coverage = Coverage::new();
    for seed in 1..=2_000 {
        coverage.add(&generate(seed));
    }
    assert!(coverage.is_complete(), "{coverage}");
}

/// Whether some record of the seed's trace is refused for its jump.
fn jumps(seed: u64) -> bool {
    let records = trace::read(&generate(seed)).map_or(Vec::new(), |trace| trace.records);
    let mut table = Table::fresh();
    records
        .iter()
        .any(|record| replay::run(&mut table, record).number == 13)
}

#[test]
fn half_of_the_seeds_stay_within_the_limit() {
    let even = (1..=1_000).filter(|half| jumps(2 * half)).count();
    let odd = (1..=1_000).filter(|half| jumps(2 * half - 1)).count();
    assert_eq!(even, 0);
    assert!(odd > 100, "{odd}");
}

#[test]
fn nothing_reaches_nothing() {
    assert!(!Coverage::new().is_complete());
}
