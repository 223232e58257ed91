//! The twin's batch decision at values worked out by hand from docs/SPEC.md, 17; and its generated batches.

use twin::batch::generate::generate;
use twin::batch::{Batch, Version, decide, input, printed, seen, wrong};

fn batch(line: u64, versions: &[Version], room: usize) -> Batch {
    Batch {
        line,
        versions: versions.to_vec(),
        room,
    }
}

#[test]
fn each_version_by_its_ender_and_the_line() {
    let versions = [[3, 0], [3, 5], [3, 10], [3, 11], [4, 4], [12, 12], [9, 9]];
    assert_eq!(
        decide(&batch(10, &versions, 7)),
        Ok(vec![0, 1, 0, 0, 1, 0, 1])
    );
    assert_eq!(decide(&batch(0, &[[1, 1]], 1)), Ok(vec![0]));
    assert_eq!(decide(&batch(1, &[[1, 1]], 1)), Ok(vec![0]));
    assert_eq!(decide(&batch(2, &[[1, 1]], 1)), Ok(vec![1]));
    assert_eq!(
        decide(&batch(u64::MAX, &[[1, u64::MAX], [1, u64::MAX - 1]], 2)),
        Ok(vec![0, 1])
    );
}

#[test]
fn the_order_of_refusals() {
    assert_eq!(decide(&batch(10, &[[0, 0]], 0)), Err((12, 0)));
    assert_eq!(decide(&batch(10, &[[5, 4], [0, 0]], 1)), Err((12, 0)));
    assert_eq!(decide(&batch(10, &[[5, 4], [0, 0]], 2)), Err((17, 0)));
    assert_eq!(decide(&batch(10, &[[0, 0], [5, 4]], 2)), Err((4, 0)));
    assert_eq!(decide(&batch(10, &[[3, 5], [0, 7]], 2)), Err((4, 1)));
    assert_eq!(
        decide(&batch(10, &[[3, 5], [4, 4], [12, 11]], 9)),
        Err((17, 2))
    );
}

#[test]
fn a_refusal_keeps_the_run_and_a_decision_the_places_past_it() {
    assert_eq!(seen(&batch(10, &[[3, 5], [0, 7]], 4)).run, b"abcd");
    assert_eq!(
        seen(&batch(10, &[[3, 5], [3, 0]], 4)).run,
        [1, 0, b'c', b'd']
    );
    assert_eq!(seen(&batch(10, &[], 2)).run, b"ab");
}

#[test]
fn no_seed_tells_the_right_rules_from_themselves() {
    let (_, right) = wrong::RIGHT;
    for seed in 1..=2_000 {
        let batch = generate(seed);
        assert_eq!(right(&batch), seen(&batch), "seed {seed}");
    }
}

#[test]
fn the_stored_output_of_the_program() {
    let versions = [[3, 0], [3, 5], [3, 10], [3, 11], [4, 4]];
    let batch = batch(10, &versions, 7);
    let path = concat!(env!("CARGO_MANIFEST_DIR"), "/../../crates/batch_demo/");
    let stored = |name: &str| std::fs::read(format!("{path}{name}")).expect("a stored file");
    assert_eq!(stored("stdin"), input(&batch));
    assert_eq!(stored("stdout"), printed(&seen(&batch)));
}
