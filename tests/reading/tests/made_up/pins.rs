use crate::{fails, failures, read};
use reading::pins::rows;

const FILES: [(&str, &str); 11] = [
    ("crates/a/stdout", "said\n"),
    ("crates.txt", "a:\n"),
    ("crates/a/src/lib.rt", "pub const SLOTS: usize = 9;\n\npub fn f(x: u64) -> u64\n    ensures { result ≡ x }\n{\n    x\n}\n"),
    (
        "crates/a/specs/Rows.antt",
        "-- Rows.\nrows =\n    -- P1 one\n    record { x = 1 }\n    -- P2 two\n    ∷ record { x = 2 }\n    ∷ []\n\npub other : ℕ\n",
    ),
    ("crates/a/proofs/P.antt", "-- P.\npub a_unique : (r s : R) → g r ≡ g s → r ≡ s\n"),
    ("crates/a/must-fail/e.edit", "file: src/lib.rt\nold:     x\nnew:     1\n"),
    ("docs/EXCEPTIONS.md", "## Not wholly stated\n\n| `a::f` | grounds of more than a word |\n"),
    ("docs/CONTRACTS.md", "| L.f.E1 | L:9 | it is so | `g` | **same** |\n"),
    ("tests/cases/runs/c.trace", "trace\n"),
    ("tests/cases/runs/c.expected", "out\n"),
    (".ci/run", "#!/bin/sh\nstage \"one\" rt ci\nstage \"two\" tests/run x\n"),
];

/// What the pins say where each file is changed by `change`, and dropped where it gives nothing.
fn changed(change: impl Fn(&str, &str) -> Option<String>) -> Vec<String> {
    let pins = read(&FILES).pin_text();
    let new: Vec<(&str, Option<String>)> = FILES.iter().map(|(p, t)| (*p, change(p, t))).collect();
    let files: Vec<(&str, &str)> = new.iter().filter_map(|(p, t)| Some((*p, t.as_deref()?))).collect();
    let reading = read(&[&files[..], &[("tests/pins", &pins)]].concat());
    failures(&reading, "pins")
}

fn replaced(from: &str, to: &str) -> Vec<String> {
    changed(|_, t| Some(t.replace(from, to)))
}

#[test]
fn an_unchanged_tree_meets_its_pins() {
    assert_eq!(replaced("\0", ""), Vec::<String>::new());
    assert_eq!(replaced("-- P1 one", "-- P1   another word"), Vec::<String>::new());
}

#[test]
fn what_vanished_or_changed_is_told() {
    for (from, to, words) in [
        ("    -- P2 two\n    ∷ record { x = 2 }\n", "", "row P2 vanished"),
        ("x = 2", "x = 3", "row P2 changed"),
        ("pub other : ℕ", "pub other : List ℕ", "definitions crates/a/specs/Rows.antt changed"),
        ("| L.f.E1 |", "| L.f.E2 |", "clause L.f.E1 vanished"),
        ("it is so", "it may be so", "clause L.f.E1 changed"),
        ("L:9", "L:8", "clause L.f.E1 changed"),
        ("**same**", "**stronger**", "clause L.f.E1 changed"),
        ("`a::f` | g", "`a::f`, `a::k` | g", "exception a::k, not wholly stated is new"),
        ("out\n", "other\n", "case runs/c changed"),
        ("said\n", "unsaid\n", "stored crates/a/stdout changed"),
        ("new:     1", "new:     0", "edit a/e changed"),
        ("result ≡ x", "result ≡ 0", "contract a::f changed"),
        ("SLOTS: usize = 9", "SLOTS: usize = 8", "type a::SLOTS changed"),
        ("r ≡ s", "r ≡ r", "theorem docs/EXCEPTIONS.md crates/a/proofs/P.antt::a_unique changed"),
        ("pub a_unique", "module _ (h : ⊥) where\n  pub a_unique", "theorem docs/EXCEPTIONS.md crates/a/proofs/P.antt::a_unique changed"),
        ("pub a_unique", "-- pub a_unique", "theorem docs/EXCEPTIONS.md crates/a/proofs/P.antt::a_unique vanished"),
        ("stage \"two\" tests/run x\n", "", "stage \"two\" tests/run x vanished"),
        ("rt ci\n", "rt ci || true\n", "script .ci/run changed"),
    ] {
        let failed = replaced(from, to);
        assert!(failed.iter().any(|f| f.contains(words)), "{words}: {failed:?}");
    }
    for (file, words) in [("tests/cases/runs/c.trace", "case runs/c vanished"), ("crates/a/must-fail/e.edit", "edit a/e vanished")] {
        let failed = changed(|p, t| (p != file).then(|| t.to_string()));
        assert!(failed.iter().any(|f| f.contains(words)), "{words}");
    }
}

#[test]
fn a_copy_under_another_name_is_told() {
    let failed = replaced("    -- P2 two\n    ∷ record { x = 2 }\n", "    -- P2 two\n    record { x = 1 }\n");
    assert!(failed.iter().any(|f| f.contains("row P2 is a copy of P1")), "{failed:?}");
    let reading = read(&[&FILES[..], &[("crates/a/must-fail/d.edit", "# d\nfile: src/lib.rt\nold:     x\nnew:     1\n")]].concat());
    assert!(fails(&reading, "edits", "does what") && fails(&reading, "pins", "is a copy of"));
}

#[test]
fn what_is_new_is_told() {
    let pins = read(&FILES).pin_text();
    let more = [("tests/pins", pins.as_str()), ("tests/cases/runs/d.trace", "new\n")];
    assert!(fails(&read(&[&FILES[..], &more].concat()), "pins", "case runs/d is new"));
}

#[test]
fn the_least_of_a_stage_stays_as_a_person_put_it() {
    let reading = read(&[&FILES[..], &[("tests/pins", "# Words.\nstage 203 \"one\" rt ci\n")]].concat());
    let text = reading.pin_text();
    assert!(
        text.starts_with("# Words.\n") && text.contains("\nstage 203 \"one\" rt ci\n") && text.contains("\nstage 1 \"two\" tests/run x\n")
    );
}

#[test]
fn rows_are_marked_inside_a_definition() {
    let found = rows(FILES[3].1);
    assert_eq!(found, [("P1".to_string(), "record { x = 1 }".to_string()), ("P2".to_string(), "record { x = 2 }".to_string())]);
    assert!(rows("-- P1 a word at the margin\n-- PS no number\n").is_empty());
}
