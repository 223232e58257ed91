use crate::{crate_a, fails, failures};
use reading::documents::{declared, mended, part, statements, with_part};

const PROOFS: &str = "-- P.\nuse lib.{x}\n\n-- so it is\npub so-it-is : (n : ℕ) →\n    So n\nso-it-is n = refl\n\n\
    module _ (h : Good) where\n  pub if-good : So 1\n  if-good = h\n";
const SPECS: &str = concat!(
    "-- Words.\n-- a number\nunfoldable pub g : ℕ → ℕ\ng x = x + 7\n\npub record R (n : ℕ) : Type 0 where\n  -- first\n",
    "  pub a : ℕ\n  pub b : ℕ\n",
);

fn page(text: &str) -> Vec<String> {
    let files = [("crates/a/proofs/P.antt", PROOFS), ("crates/a/specs/S.antt", SPECS), ("docs/D.md", text)];
    failures(&crate_a("pub fn f() {\n}\n", &files), "documents")
}

#[test]
fn names_files_and_links_are_there() {
    let good = "`a::f` `a::g` `so-it-is` `crates/a/specs` `crates/*/proofs` `S.antt` `std::x` \
        [d](../crates/a/specs/S.antt) `docs/` `1/2` `x = 3`\n";
    assert_eq!(page(good), Vec::<String>::new());
    for bad in ["`a::gone`", "`so-it-was`", "`crates/b/specs`", "`crates/*/gone`", "`T.antt`", "[d](S.antt)", "`gone/`"] {
        assert_eq!(page(bad).len(), 1, "{bad}");
    }
}

#[test]
fn a_name_of_several_words_is_declared_or_stands_in_code() {
    let files = [
        ("crates/a/proofs/P.antt", "-- P.\npub so_it-is : So\n"),
        ("host/src/it.rs", "fn on_abort() {}\n"),
        ("docs/CONTRACTS.md", "| `live_owner`, 2 atoms | I:9 | none | D1 |\n| L.take_it.E1 | L:9 | it is so | `a::f` | **same** |\n"),
    ];
    let said = |page: &str, text: &str| failures(&crate_a("pub fn f() {\n}\n", &[&files[..], &[(page, text)]].concat()), "documents");
    for good in ["`so_it-is`", "`on_abort(f)`", "`live_owner`", "`take_it`", "`f`"] {
        assert_eq!(said("docs/D.md", good), Vec::<String>::new(), "{good}");
    }
    for bad in ["`so_it_is`", "`on_aborts`", "`dead_owner`", "`take_them x`"] {
        assert_eq!(said("docs/D.md", bad).len(), 1, "{bad}");
        assert_eq!(said("docs/PORT.md", bad), Vec::<String>::new(), "{bad}: what it was called before");
    }
}

#[test]
fn a_link_into_a_page_finds_its_heading() {
    let text = |link: &str| page(&format!("# The rules, `all` of them\n\n## 1.2 Ids\n\n```\n# No heading\n```\n\n[x]({link})\n"));
    for good in ["#the-rules-all-of-them", "#12-ids", "D.md#12-ids", "D.md"] {
        assert_eq!(text(good), Vec::<String>::new(), "{good}");
    }
    for bad in ["#ids", "#no-heading", "D.md#12", "E.md#12-ids"] {
        assert_eq!(text(bad).len(), 1, "{bad}");
    }
}

#[test]
fn what_a_comment_declares_is_not_there() {
    let files = [("crates/a/proofs/P.antt", "-- P.\n{-\npub so-it-is : So\n-}\n"), ("docs/D.md", "`so-it-is`\n")];
    assert!(fails(&crate_a("", &files), "documents", "so-it-is is not there"));
}

#[test]
fn quotations_stand_in_their_file_whole() {
    let quote = |block: &str| page(&format!("From [S](../crates/a/specs/S.antt):\n\n```\n{block}\n```\n"));
    assert_eq!(quote("-- a number\ng : ℕ → ℕ\ng x = x + 7\n\nrecord R (n : ℕ) where\n  -- first\n  a : ℕ\n  b : ℕ"), Vec::<String>::new());
    for bad in ["g x = x + 8", "-- another", "record R (n : ℕ) where\n  b : ℕ", "g x = x + 7\n  b : ℕ"] {
        assert_eq!(quote(bad).len(), 1, "{bad}");
    }
}

#[test]
fn a_program_is_quoted_whole_or_in_part() {
    let program = "// A host.\nfn main() {\n    // begins\n    begin();\n}\n";
    let quote = |block: &str| {
        let text = format!("From [it](../host/examples/it.rs):\n\n```rust\n{block}```\n");
        failures(&crate_a("", &[("docs/D.md", &text), ("host/examples/it.rs", program)]), "documents")
    };
    for good in [program, "fn main() {\n    begin();\n", "    begin();\n"] {
        assert_eq!(quote(good), Vec::<String>::new(), "{good}");
    }
    let later = "From [it](../host/examples/it.rs).\n\nBut this is another's:\n\n```rust\n    end();\n```\n";
    assert_eq!(failures(&crate_a("", &[("docs/D.md", later), ("host/examples/it.rs", program)]), "documents"), Vec::<String>::new());
    for bad in ["// A host.\nfn main() {\n    begin();\n}\n", "// A host.\n", "    end();\n", "    // ends\n"] {
        assert_eq!(quote(bad).len(), 1, "{bad}");
    }
}

#[test]
fn a_table_of_files_declares_its_names() {
    let table = |name: &str| page(&format!("| Says | Theorem | File in crates/a/proofs |\n|---|---|---|\n| x | `{name}` | P.antt |\n"));
    assert_eq!(table("so-it-is"), Vec::<String>::new());
    assert!(!table("f").is_empty());
}

#[test]
fn statements_are_quoted_with_all_that_they_suppose() {
    let files = [("crates/a/proofs/P.antt", PROOFS)];
    let reading = crate_a("", &files);
    let said = statements(&reading.logic, "`so-it-is` and `if-good`\n");
    assert!(said.contains("```\nso-it-is : (n : ℕ) →\n    So n\nmodule _ (h : Good) where\n  if-good : So 1\n```\n"), "{said}");
    assert!(statements(&reading.logic, "`so` and\n```\n`if-good`\n```\n").is_empty());
}

#[test]
fn a_name_of_two_files_is_quoted_from_both() {
    let files = [
        ("crates/a/proofs/P.antt", "-- P.\npub same : So 1\nsame = refl\n"),
        ("crates/a/proofs/Q.antt", "-- Q.\npub same : So 2\nsame = refl\n"),
    ];
    let reading = crate_a("", &files);
    let row = |file: &str| format!("| x | `same` | crates/a/proofs/{file} |\n");
    let table = format!("| Says | Theorem | File in crates |\n|---|---|---|\n{}{}", row("P.antt"), row("Q.antt"));
    let said = statements(&reading.logic, &table);
    assert!(said.contains("same : So 1") && said.contains("same : So 2"), "{said}");
}

#[test]
fn a_written_part_is_held_to_the_tree() {
    let text = "a\n<!-- x: written by tests/tree -->\nold\n<!-- end of x -->\nb\n";
    assert_eq!(part(text, "x"), Some("old\n"));
    for text in [text, "a\n", &text.replace("written by tests/tree", "counted by others")] {
        assert_eq!(part(&with_part(text, "x", "new\n"), "x"), Some("new\n"), "{text}");
    }
    let hides = crate_a("", &[("docs/D.md", "<!-- x: written by tests/tree -->\n`a::gone`\n")]);
    assert!(fails(&hides, "written parts", "docs/D.md marks the parts x"));
    let trust = "`so-it-is`\n<!-- statements: written by tests/tree -->\n\
        [crates/a/proofs/P.antt](../crates/a/proofs/P.antt):\n\n```\nso-it-is : Unit\n```\n\
        <!-- end of statements -->\n";
    let files = [("crates/a/proofs/P.antt", PROOFS), ("docs/TRUST.md", trust)];
    assert!(fails(&crate_a("", &files), "written parts", "docs/TRUST.md, the part 'statements' is another"));
}

#[test]
fn what_has_moved_to_one_other_crate_is_mended() {
    let text = "`b::f` `b::f(x)` `b::gone` [b/e](../crates/b/must-fail/e.edit) `crates/a/x.rt`\n";
    let files = [("docs/D.md", text), ("crates/a/must-fail/e.edit", "file: src/lib.rt\nold: f()\nnew: g()\n"), ("crates/a/src/x.rt", "")];
    let reading = crate_a("pub fn f() {\n}\n", &files);
    let (text, done) = mended(&reading.tree, &declared(&reading.tree, &reading.code, &reading.logic), "docs/D.md");
    assert_eq!((text.as_str(), done.len()), ("`a::f` `a::f(x)` `b::gone` [a/e](../crates/a/must-fail/e.edit) `crates/a/src/x.rt`\n", 3));
}

#[test]
fn axioms_holes_and_slot_counts_are_told() {
    let proofs = |text: &str| crate_a("pub const SLOTS: usize = 256;\n", &[("crates/a/proofs/P.antt", text)]);
    assert_eq!(failures(&proofs("-- P.\n-- lem ? 9\np = x\n"), "trust").iter().filter(|f| !f.contains("docs/TRUST.md")).count(), 0);
    for (text, words) in [
        ("p = lem x\n", "axiom"),
        ("p = Core.lem x\n", "axiom"),
        ("axiom p : ⊥\n", "axiom"),
        ("p = ?\n", "holes"),
        ("p = {! x !}\n", "holes"),
        ("-- 256\n", "slot count"),
        ("p = 1_024\n", "slot count"),
        ("p = 0x100\n", "slot count"),
    ] {
        assert!(fails(&proofs(text), "trust", words), "{text}");
    }
    let twice = crate_a("pub const SLOTS: usize = 256;\nconst N: usize = 256usize;\n", &[]);
    assert!(fails(&twice, "trust", "slot count"));
}

#[test]
fn what_nobody_sees_is_told() {
    let right_to_left = format!("-- P.\np = x {}y\n", '\u{202e}');
    assert!(fails(&crate_a("", &[("crates/a/proofs/P.antt", &right_to_left)]), "trust", "nobody sees"));
    let node = "pub mod S\nsmall : ℕ\n";
    assert!(fails(&crate_a("", &[("crates/a/specs/Lib.antt", node)]), "trust", "more than the names of modules"));
}

#[test]
fn a_definition_with_a_librarys_name_is_told() {
    let specs = "-- S.\nuse lib.ListN.{length}\n\npub length : ℕ\nlength = 0\n";
    assert!(fails(&crate_a("", &[("crates/a/specs/S.antt", specs)]), "trust", "crates/a/specs/S.antt length"));
}

#[test]
fn each_clause_has_a_place_and_one_verdict() {
    let rows = |row: &str| failures(&crate_a("", &[("docs/CONTRACTS.md", row)]), "upstream clauses").join("; ");
    assert!(!rows("| L.f.E1 | L:9 | it is so | `g` | **same** |\n").contains("row"));
    assert!(rows("| L.f.E1 | | it is so | `g` | **same** |\n").contains("without its place"));
    assert!(rows("| L.f.E1 | I:9 | it is so | `g` | **same** |\n").contains("without its place"));
    assert!(rows("| L.f.E1 | L:9 | it is so | `g` | **same** or **different** |\n").contains("verdicts"));
    assert!(rows("| L.f.E1 | L:9 | a | `g` | **same** |\n| L.f.E1 | L:9 | a | `g` | **same** |\n").contains("twice"));
}
