//! Reads the tree, and holds it to its documents and to its pins.

pub mod clauses;
pub mod code;
pub mod documents;
pub mod edits;
pub mod logic;
pub mod pins;
pub mod promises;
pub mod reach;
pub mod text;
pub mod tree;
pub mod trust;

use std::collections::BTreeSet;
use tree::{Report, Tree};

/// A tree that was read.
pub struct Reading {
    pub tree: Tree,
    pub code: code::Code,
    pub logic: logic::Logic,
    pub edits: Vec<edits::Edit>,
    wrong_edits: Vec<String>,
    declared: BTreeSet<(String, String)>,
}

impl Reading {
    pub fn of(tree: Tree) -> Reading {
        let mut code = code::Code::read(&tree);
        let is_library = |c: &String| tree.files.contains_key(&format!("crates/{c}/src/lib.rt"));
        let libraries: Vec<String> = tree.crates.iter().map(|(c, _)| c.clone()).filter(is_library).collect();
        code.find_public(&libraries);
        let logic = logic::Logic::read(&tree);
        let (edits, wrong_edits) = edits::read(&tree, &code, &logic);
        let declared = documents::declared(&tree, &code, &logic);
        Reading { tree, code, logic, edits, wrong_edits, declared }
    }

    fn trust(&self) -> trust::Trust<'_> {
        trust::Trust { tree: &self.tree, code: &self.code, logic: &self.logic, edits: &self.edits }
    }

    /// The parts of documents that are written: document, name, text. A program without a report goes to `without`.
    fn parts(&self, without: &mut Vec<String>) -> Vec<(&'static str, &'static str, String)> {
        let (trust, document) = (self.trust(), self.tree.text(trust::DOCUMENT));
        let said = documents::part(&document, "programs").unwrap_or("");
        let mut parts = vec![
            ("docs/EXCEPTIONS.md", "unique", promises::unique_table(&self.tree, &self.code, &self.logic)),
            ("docs/IMPOSTORS.md", "edits", edits::list(&self.tree, &self.code, &self.edits)),
            (trust::DOCUMENT, "reading", trust.reading()),
            (trust::DOCUMENT, "programs", trust.programs(said, without)),
            (trust::DOCUMENT, "counts", trust.counts()),
        ];
        for document in pins::QUOTING {
            parts.push((document, "statements", documents::statements(&self.logic, &self.tree.text(document))));
        }
        parts
    }

    /// Gives names and edits that have moved to another crate their new places in the documents, and says which.
    pub fn mend(&mut self) -> std::io::Result<Vec<String>> {
        let mut all = Vec::new();
        for document in self.tree.documents() {
            let (text, done) = documents::mended(&self.tree, &self.declared, &document);
            if !done.is_empty() {
                self.tree.write(&document, text)?;
            }
            all.extend(done);
        }
        Ok(all)
    }

    /// Writes the parts anew, and what else the counts decide in docs/TRUST.md.
    pub fn write(&mut self) -> std::io::Result<()> {
        let text = self.trust().theorem_files(&self.tree.text(trust::DOCUMENT));
        let text = self.trust().groups(&text).0;
        self.tree.write(trust::DOCUMENT, text)?;
        for (document, name, new) in self.parts(&mut Vec::new()) {
            let text = documents::with_part(&self.tree.text(document), name, &new);
            self.tree.write(document, text)?;
        }
        Ok(())
    }

    /// Every check, by theme.
    pub fn check(&self) -> Vec<(&'static str, Report)> {
        let theme = |name, check: &dyn Fn(&mut Report)| {
            let mut report = Report::default();
            check(&mut report);
            (name, report)
        };
        vec![
            theme("crates", &|r| self.tree.check(r)),
            theme("promises and exceptions", &|r| promises::check(&self.tree, &self.code, &self.logic, r)),
            theme("edits", &|r| edits::check(&self.tree, &self.code, &self.edits, &self.wrong_edits, r)),
            theme("upstream clauses", &|r| clauses::check(&self.tree, r)),
            theme("trust", &|r| self.trust().check(r)),
            theme("documents", &|r| documents::check(&self.tree, &self.declared, r)),
            theme("written parts", &|r| self.check_parts(r)),
            theme("pins", &|r| self.check_pins(r)),
        ]
    }

    fn check_parts(&self, report: &mut Report) {
        let mut without = Vec::new();
        for (document, name, new) in self.parts(&mut without) {
            let text = self.tree.text(document);
            let said = documents::part(&text, name);
            report.expect(said == Some(&new), || {
                let lines = said.unwrap_or("").lines().filter(|l| !new.lines().any(|n| n == *l));
                let gone: Vec<&str> = lines.take(3).collect();
                format!("{document}, the part '{name}' is another (tests/tree --write): {}", gone.join(" / "))
            });
        }
        let known: Vec<(&str, &str)> = self.parts(&mut Vec::new()).iter().map(|(d, n, _)| (*d, *n)).collect();
        for document in self.tree.documents() {
            let text = self.tree.text(&document);
            let marks: Vec<&str> =
                text.lines().filter_map(|l| l.strip_prefix("<!-- ")?.split_once(": written by")).map(|(n, _)| n).collect();
            let mine: Vec<&str> = known.iter().filter(|(d, _)| *d == document).map(|(_, n)| *n).collect();
            let same = marks.len() == mine.len() && marks.iter().all(|m| mine.contains(m));
            report.expect(same, || format!("{document} marks the parts {}, and {} are written", marks.join(", "), mine.join(", ")));
        }
        report.none("no report of their check in target/log (tools/build report)", &without);
    }
}
