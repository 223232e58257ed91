//! docs/CONTRACTS.md: every upstream clause has one row, every row one verdict, and the counts are right.

use crate::text::cells;
use crate::tree::{Report, Tree};
use std::collections::BTreeSet;

const DOCUMENT: &str = "docs/CONTRACTS.md";
const VERDICTS: [&str; 5] = ["same", "stronger", "refused instead of required", "different", "left out"];

pub struct Row {
    pub id: String,
    /// Its place upstream, and what it says.
    pub line: String,
    pub clause: String,
    pub verdicts: Vec<String>,
    nine: bool,
}

/// Whether a cell is the id of a clause: file, function, R or E and a number.
fn is_id(cell: &str) -> bool {
    let parts: Vec<&str> = cell.split('.').collect();
    let digits = |s: &str| !s.is_empty() && s.chars().all(|c| c.is_ascii_digit());
    matches!(parts[..], [file, _, n] if ["L", "I"].contains(&file) && (n.starts_with(['R', 'E'])) && digits(&n[1..]))
}

pub fn rows(tree: &Tree) -> Vec<Row> {
    let text = tree.text(DOCUMENT);
    let (mut out, mut nine) = (Vec::new(), false);
    for line in text.lines() {
        nine = if line.starts_with("## ") { line == "## L: the nine functions" } else { nine };
        let row = cells(line);
        if row.len() > 3 && is_id(&row[0]) {
            let verdicts = row[row.len() - 1].split("**").skip(1).step_by(2).map(String::from).collect();
            out.push(Row { id: row[0].clone(), line: row[1].clone(), clause: row[2].clone(), verdicts, nine });
        }
    }
    out
}

/// The names that a row gives a place upstream.
pub fn named_upstream(tree: &Tree) -> BTreeSet<String> {
    let place = |cell: &String| cell.strip_prefix(['L', 'I']).is_some_and(|c| c.starts_with(':'));
    let rows: Vec<Vec<String>> = tree.text(DOCUMENT).lines().map(cells).filter(|row| row.get(1).is_some_and(place)).collect();
    let words = rows.iter().flat_map(|row| row[0].split(|c: char| !c.is_ascii_alphanumeric() && c != '_'));
    words.map(String::from).collect()
}

pub fn check(tree: &Tree, report: &mut Report) {
    let rows = rows(tree);
    let mut seen = BTreeSet::new();
    for row in &rows {
        let place = row.line.split_once(':').is_some_and(|(f, n)| row.id.starts_with(f) && n.starts_with(|c: char| c.is_ascii_digit()));
        report.expect(seen.insert(&row.id) && place, || format!("row {}: twice, or without its place upstream", row.id));
        let one = matches!(&row.verdicts[..], [v] if VERDICTS.contains(&v.as_str()));
        report.expect(one, || format!("row {}: verdicts {}", row.id, row.verdicts.join(", ")));
    }
    let text = tree.text(DOCUMENT);
    let mut once = |line: String| {
        let count = text.lines().filter(|l| **l == line).count();
        report.expect(count == 1, || format!("{DOCUMENT}, count line '{line}': {count} times, not once"));
    };
    for (of, name) in [("L.", "L"), ("I.", "I"), ("", "all")] {
        let these: Vec<&Row> = rows.iter().filter(|r| r.id.starts_with(of)).collect();
        let count = |v: &str| these.iter().filter(|r| r.verdicts.first().is_some_and(|w| w == v)).count();
        let each: Vec<String> = VERDICTS.iter().map(|v| format!("{v} {}", count(v))).collect();
        once(format!("- {name}: {} = {}", each.join(", "), these.len()));
    }
    let letters = |c: &str| c.as_bytes().windows(3).filter(|w| w[0] == b'(' && w[1].is_ascii_lowercase() && w[2] == b')').count();
    let ensures = rows.iter().filter(|r| r.nine && r.id.starts_with("L.") && r.id.contains(".E"));
    let atoms: usize = ensures.map(|r| letters(&r.clause).max(1)).sum();
    once(format!("- atoms of the ensures of L's nine functions, by their letters: {atoms}"));

    let is_entry = |w: &&str| w.len() > 1 && w.starts_with('D') && w[1..].chars().all(|c| c.is_ascii_digit());
    let mut named: BTreeSet<String> = BTreeSet::new();
    for document in tree.documents().iter().filter(|d| *d == "README.md" || d.starts_with("docs/")) {
        let text = tree.text(document);
        named.extend(text.split(|c: char| !c.is_alphanumeric() && c != '_').filter(is_entry).map(String::from));
    }
    let entries = tree.text("docs/DIFFERENCES.md");
    for entry in named {
        let count = entries.lines().filter(|l| l.starts_with(&format!("## {entry}. "))).count();
        report.expect(count == 1, || format!("docs/DIFFERENCES.md, entry {entry}: {count} times, not once"));
    }
}
