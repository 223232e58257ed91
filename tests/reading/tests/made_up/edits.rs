use crate::{crate_a, fails, failures};
use reading::edits::{reason, told};

const LIB: &str = concat!(
    "pub const N: u64 = 7;\n\nfn help(x: u64) -> u64 {\n    x + N\n}\n\n// old words\npub fn f(x: u64) -> u64\n",
    "    ensures { result ≡ g x }\n{\n    help(x)\n}\n\npub fn k(x: u64) -> u64\n    ensures { result ≡ x }\n",
    "{\n    x\n}\n",
);
const SPECS: &str = "-- Words.\nuse lib.{x}\n\nunfoldable pub g : ℕ → ℕ\ng x = x + 7\n";

/// The failures with this edit of crate a beside a good one.
fn with(edit: &str) -> Vec<String> {
    let good = "file: src/lib.rt\nold:     help(x)\nnew:     help(1)\n";
    let files = [
        ("crates/a/specs/S.antt", SPECS),
        ("crates/a/proofs/P.antt", "-- P.\np = refl\n"),
        ("crates/a/must-fail/good.edit", good),
        ("crates/a/must-fail/bad.edit", edit),
    ];
    failures(&crate_a(LIB, &files), "edits").into_iter().filter(|f| !f.contains("of two")).collect()
}

#[test]
fn an_edit_changes_code_contract_or_definition() {
    let none = Vec::<String>::new();
    assert_eq!(with("# why\nfile: src/lib.rt\nold:     x + N\nnew:     x + 1\n"), none);
    assert_eq!(with("file: src/lib.rt\nold:     ensures { result ≡ g x }\nnew:     ensures { result ≡ g 0 }\n"), none);
    assert_eq!(with("file: specs/S.antt\nold: g x = x + 7\nnew: g x = x + 8\n"), none);
}

#[test]
fn an_edit_of_a_comment_or_of_a_proof_is_none() {
    assert!(with("file: src/lib.rt\nold: // old words\nnew: // new words\n")[0].contains("no more than a comment"));
    assert!(with("file: src/lib.rt\nold:     help(x)\nnew:     help(x) // as before\n")[0].contains("no more than a comment"));
    assert!(with("file: src/lib.rt\nold:     help(x)\nnew:     help(  x)\n").is_empty(), "another text, though it means the same");
    assert!(with("file: specs/S.antt\nold: -- Words.\nnew: -- Others.\n")[0].contains("no more than a comment"));
    assert!(with("file: proofs/P.antt\nold: p = refl\nnew: p = omega\n")[0].contains("no one line of code or definitions"));
}

#[test]
fn an_edit_of_nothing_or_of_two_places_is_none() {
    assert!(with("file: src/lib.rt\nold:     gone\nnew:     here\n")[0].contains("no one line"));
    assert!(with("file: src/lib.rt\nold: pub fn\nnew: fn\n")[0].contains("no one line"));
    assert!(with("# only words\n")[0].contains("changes nothing"));
    assert!(with("file: src/lib.rt\nold:     help(x)\nnew:     1\nmore\n")[0].contains("no line of an edit"));
}

#[test]
fn a_change_applies_to_what_those_before_it_made() {
    let one = "file: src/lib.rt\nold: x + N\nnew: y + N\nold:     x\nnew:     1\n";
    assert_eq!(with(one), Vec::<String>::new(), "only then does the text stand there once");
    assert!(with("file: src/lib.rt\nold:     x\nnew:     1\nold: x + N\nnew: y + N\n")[0].contains("no one line"));
}

#[test]
fn an_edit_may_change_an_import_beside_what_it_changes() {
    let both = "file: specs/S.antt\nold: use lib.{x}\nnew: use lib.{y}\nold: g x = x + 7\nnew: g x = y + 7\n";
    assert_eq!(with(both), Vec::<String>::new());
    assert!(with("file: specs/S.antt\nold: use lib.{x}\nnew: use lib.{y}\n")[0].contains("has no name"));
}

#[test]
fn a_copy_under_another_name_is_none() {
    assert!(with("# other words\nfile: src/lib.rt\nold:     help(x)\nnew:     help(1) // one\n")[0].contains("does what"));
}

#[test]
fn each_public_function_has_two() {
    let two = [
        ("crates/a/must-fail/x.edit", "file: src/lib.rt\nold:     x + N\nnew:     x + 1\n"),
        ("crates/a/must-fail/y.edit", "file: src/lib.rt\nold: pub const N: u64 = 7;\nnew: pub const N: u64 = 8;\n"),
    ];
    let reading = crate_a(LIB, &two);
    assert_eq!(failures(&reading, "edits"), ["a::k: 0 edits of two"]);
    let of: Vec<_> = reading.edits.iter().map(|e| (e.unit.as_str(), e.counts.as_deref())).collect();
    assert_eq!(of, [("help", Some("f")), ("N", Some("f"))]);
    let page = "## Fewer than two edits\n\n| Function | Grounds |\n|---|---|\n| `a::*` | nothing of it could be wrong |\n";
    assert!(fails(&crate_a(LIB, &[&two[..], &[("docs/EXCEPTIONS.md", page)]].concat()), "edits", "a::k: 0 edits of two"));
    let page = page.replace("a::*", "a::k");
    assert_eq!(failures(&crate_a(LIB, &[&two[..], &[("docs/EXCEPTIONS.md", &page)]].concat()), "edits"), Vec::<String>::new());
}

#[test]
fn an_edit_counts_for_a_function_that_uses_it() {
    let wrong = "# of: k\nfile: src/lib.rt\nold:     x + N\nnew:     x + 1\n";
    assert!(with(wrong)[0].contains("which does not use `help`"));
}

const PLACE: &str = "./proofs/f/Answers.antt:9:13: error: `returns`: ";

/// What `rt ci` says of an edit whose check says this first.
fn refused(error: &str) -> String {
    format!("refused, as it must be: {error}")
}

#[test]
fn a_fact_that_fails_counts() {
    for error in [
        "`omega`: the goal does not follow from what it read. All of that holds, and the goal fails, at `x`",
        "`omega`: the part `.0` of the goal does not follow from what it read.",
        "as printed, the two types first differ where one has `1` (expected)",
        "expected type `x < t.line`, but this has type `x ≤ line_after n cs`",
        "expected type `mathlib.Core.Bool.true ≡ differ xs`, but this has",
        "expected type `ℕ → So (x <",
        "computed as far as they go, the two types are `Path (List ℕ) a b` (expected) and",
        "this `refused` lands at index `lib.IntN.pos 3` (position 1) but the expected type has `lib.IntN.pos 0`",
        "`search`: no proof of `x ≡ y`",
        "computed as a goal is, one side reads `Scanned (take n xs) 0` and the other",
        "give a proof of that as the last argument, `rw L t` (`rw L ?` shows it as a hole's goal), or add what is missing",
        "list the missing equation with its arguments, or rewrite by `rw` or `simp`",
        "`rw`: no occurrence of the path's left endpoint in the goal",
    ] {
        assert!(reason(&refused(&format!("{PLACE}{error}"))).is_ok(), "{error}");
    }
    let ensures = "it is not proved that what the function ensures holds when it returns (`returns`)";
    assert!(reason(&refused(&format!("note: src/lib.rt:9:1: {ensures}"))).is_ok());
}

#[test]
fn nothing_else_counts() {
    for error in [
        "`g` is not in scope",
        "the record has no field `x`",
        "`goal.returns-2`: module `Rattle.a.proofs.f.Goals` has no `returns-2`",
        "clause 2 of `x` has 1 explicit argument pattern but clause 1 has 2; every clause of one function takes the same arguments",
        "this pattern needs a function (or path) type to bind, but the signature at this point is `ℕ`",
        "this λ is checked against `ℕ`, which is not a function or extension (path) type",
        "missing field(s) of `R`: b",
        "record `Rattle.a.proofs.f.Lts.View.In-Then` has no part `if-x`",
        "too many arguments for this constructor",
        "`x` has no clause for 1 case; the missing clause is:",
        "the `(` at 11:5 is never closed (reached end of file)",
        "expected type `List ℕ`, but this has type `ℕ`",
        "expected type `List ℕ",
        "out of memory",
        "the kernel's limit of 50000000 steps was reached",
    ] {
        assert!(reason(&refused(&format!("{PLACE}{error}"))).is_err(), "{error}");
    }
    let fact = format!("{PLACE}`omega`: the goal does not follow from what it read.");
    assert!(reason(&refused(&fact)).is_ok());
    let consequence = "`close` was not admitted (it has holes or undetermined implicits, or was rejected), so this cannot be checked";
    assert!(reason(&refused(&format!("{PLACE}{consequence}"))).is_err());
    for other in [
        "",
        "refused, as it must be",
        &format!("NOT REFUSED: {fact}"),
        &format!("BAD EDIT: the prover cannot read the edited text, so no contract was tried: {fact}"),
        &format!("NOT TRIED: its check was killed, most likely for memory: {fact}"),
        &format!(
            "refused, as it must be (only because a proof file names what the edit took away, so this says little of the contract): {fact}"
        ),
        &format!("refused, as it must be (only by a limit of the prover, which gave no verdict): {fact}"),
        &refused("src/lib.rt:3:5: error[E0308]: mismatched types, so it is not proved that it ends"),
        &refused(&fact.replace("proofs/f/Answers", "specs/S")),
    ] {
        assert!(reason(other).is_err(), "{other}");
    }
}

#[test]
fn a_log_says_of_each_edit_what_it_said_last() {
    let log = "rt: a proved\nrt: must-fail a/e.edit: NOT TRIED: x\nrt: must-fail a/e.edit: refused, as it must be: y: z\nrt: ok\n";
    let said: Vec<_> = told(log).into_iter().collect();
    assert_eq!(said, [(("a".to_string(), "e".to_string()), "refused, as it must be: y: z".to_string())]);
}
