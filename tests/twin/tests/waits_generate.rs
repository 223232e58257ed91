//! The generator of waits: the same wait for a seed each time, and nothing left out.

use twin::waits::cells;
use twin::waits::generate::generate;

#[test]
fn a_seed_fixes_the_wait() {
    for seed in [0, 1, 2_000, u64::MAX] {
        assert_eq!(generate(seed), generate(seed));
    }
}

#[test]
fn four_thousand_seeds_reach_every_cell() {
    let mut coverage = cells::coverage();
    for seed in 1..=4_000 {
        cells::add(&generate(seed), &mut coverage);
    }
    assert!(coverage.is_complete(), "{coverage}");
}

#[test]
fn nothing_reaches_nothing() {
    assert!(!cells::coverage().is_complete());
}
