//! tests/pins: what a person has looked at. A row, a clause, a case, an edit, a definition, a theorem, a type, a contract,
//! an exception, a stored input or output, or a test that vanished, changed or came is told from what stands there. Nothing but a person changes that file.

use crate::Reading;
use crate::text::{bare, hash, squeezed};
use crate::tree::{Report, crate_of};
use std::collections::BTreeMap;

pub const FILE: &str = "tests/pins";
/// The documents whose theorems are quoted.
pub const QUOTING: [&str; 2] = ["docs/PROMISE.md", "docs/TRUST.md"];

/// By kind and name, the hash; of a stage of .ci/run its least number of passes, which no reading knows.
pub type Pins = BTreeMap<(String, String), String>;

pub fn pinned(text: &str) -> Pins {
    let lines = text.lines().filter(|l| !l.starts_with('#'));
    let parts = lines.filter_map(|l| l.split_once(' ').and_then(|(kind, rest)| Some((kind, rest.split_once(' ')?))));
    parts.map(|(kind, (value, name))| ((kind.into(), name.into()), value.into())).collect()
}

/// The rows of a file of definitions: each begins with a comment such as `-- P1 ..` inside a definition.
pub fn rows(text: &str) -> Vec<(String, String)> {
    let mark = |l: &str| {
        let word = l.strip_prefix(' ')?.trim_start().strip_prefix("-- ")?.split(' ').next()?;
        let number = word.strip_prefix(|c: char| c.is_ascii_uppercase())?;
        (!number.is_empty() && number.chars().all(|c| c.is_ascii_digit())).then(|| word.to_string())
    };
    let mut out: Vec<(String, String)> = Vec::new();
    let mut inside = false;
    for (line, said) in text.lines().zip(bare(text, false).lines()) {
        if let Some(name) = mark(line) {
            out.push((name, String::new()));
            inside = true;
        } else if line.trim().is_empty() {
            inside = false;
        } else if let Some((_, row)) = out.last_mut().filter(|_| inside) {
            *row = format!("{row} {}", squeezed(said)).trim().to_string();
        }
    }
    let alone = |row: String| row.trim_start_matches("∷ ").trim_end_matches("∷ []").trim().to_string();
    out.into_iter().map(|(name, row)| (name, alone(row))).collect()
}

impl Reading {
    /// Kind, name and text of all that is pinned.
    fn looked_at(&self) -> Vec<(&'static str, String, Vec<u8>)> {
        let tree = &self.tree;
        let mut all: Vec<(&str, String, String)> = Vec::new();
        for file in tree.of_crates("specs", ".antt").into_iter().filter(|f| !f.ends_with("/Lib.antt")) {
            all.extend(rows(&tree.text(&file)).into_iter().map(|(name, row)| ("row", name, row)));
            all.push(("definitions", file.clone(), squeezed(tree.bare(&file))));
        }
        for section in ["Not wholly stated", "Fewer than two edits"] {
            let names = crate::promises::excepted(tree, section, &mut Report::default());
            all.extend(names.into_iter().map(|n| ("exception", format!("{n}, {}", section.to_lowercase()), n)));
        }
        let clause = |r: crate::clauses::Row| (r.id.clone(), format!("{} {} {} {}", r.id, r.line, r.clause, r.verdicts.join(" ")));
        all.extend(crate::clauses::rows(tree).into_iter().map(clause).map(|(id, text)| ("clause", id, text)));
        all.extend(self.code.public().map(|f| ("contract", f.id(), f.contract())));
        let types = self.code.items.iter().filter(|i| i.open);
        all.extend(types.map(|i| ("type", format!("{}::{}", crate_of(&i.file), i.name), i.text.clone())));
        let quoted = |doc: &&'static str| {
            crate::documents::theorems(&self.logic, &tree.text(doc)).into_iter().map(|d| (*doc, d)).collect::<Vec<_>>()
        };
        for (document, d) in self.logic.unique().map(|d| ("docs/EXCEPTIONS.md", d)).chain(QUOTING.iter().flat_map(quoted)) {
            let said = format!("{} {} : {}", squeezed(&d.inside.join(" ")), d.name, d.statement());
            all.push(("theorem", format!("{document} {}::{}", d.file, d.name), said));
        }
        all.extend(self.edits.iter().map(|e| ("edit", format!("{}/{}", e.krate, e.name), e.deed())));
        for file in tree.files.keys().filter(|f| f.starts_with(".ci/") || f.starts_with("tests/")) {
            let text = tree.text(file);
            let said: Vec<&str> = text.lines().filter(|l| !l.trim_start().starts_with('#')).collect();
            all.extend(text.starts_with("#!").then(|| ("script", file.clone(), said.join("\n"))));
        }
        for folder in ["tests/reading/src", "tests/twin/src"] {
            let whole: String = tree.under(folder, ".rs").iter().map(|f| format!("{f}\n{}", tree.text(f))).collect();
            all.extend((!whole.is_empty()).then(|| ("script", folder.to_string(), whole)));
        }
        let mut all: Vec<(&str, String, Vec<u8>)> = all.into_iter().map(|(kind, name, text)| (kind, name, text.into_bytes())).collect();
        let of_crate =
            |f: &str| f.starts_with("crates/") && !["src", "specs", "proofs", "must-fail"].contains(&f.split('/').nth(2).unwrap_or(""));
        let stored = |f: &str| of_crate(f) || (f.starts_with("examples/") && (f.ends_with(".trace") || f.ends_with(".expected")));
        all.extend(tree.files.iter().filter(|(f, _)| stored(f)).map(|(f, bytes)| ("stored", f.clone(), bytes.clone())));
        for file in tree.under("tests/cases", ".trace") {
            let (trace, expected) = (&tree.files[&file], tree.files.get(&file.replace(".trace", ".expected")));
            let both = [&trace[..], b"\0expected\0", expected.map_or(b"", |e| &e[..])].concat();
            all.push(("case", file["tests/cases/".len()..file.len() - ".trace".len()].to_string(), both));
        }
        all
    }

    /// All that is pinned, as the tree has it; and what stands there twice.
    pub fn pins(&self) -> (Pins, Vec<String>) {
        let (mut pins, mut twice) = (Pins::new(), Vec::new());
        let mut contents: BTreeMap<(&str, Vec<u8>), String> = BTreeMap::new();
        for (kind, name, text) in self.looked_at() {
            if pins.insert((kind.into(), name.clone()), hash(&text)).is_some() {
                twice.push(format!("{kind} {name} stands twice"));
            }
            if let Some(other) = contents.insert((kind, text), name.clone()).filter(|_| ["row", "edit"].contains(&kind)) {
                twice.push(format!("{kind} {name} is a copy of {other}"));
            }
        }
        let stages = self.tree.text(".ci/run");
        let stages = stages.lines().filter_map(|l| l.strip_prefix("stage "));
        pins.extend(stages.map(|l| (("stage".to_string(), l.to_string()), String::new())));
        (pins, twice)
    }

    /// The file as a person would put it there: the least passes of each stage stay as they are.
    pub fn pin_text(&self) -> String {
        let old = pinned(&self.tree.text(FILE));
        let text = self.tree.text(FILE);
        let head: String = text.lines().take_while(|l| l.starts_with('#')).map(|l| format!("{l}\n")).collect();
        let line = |((kind, name), value): (&(String, String), &String)| {
            let kept = old.get(&(kind.clone(), name.clone())).filter(|_| kind == "stage");
            let value = kept.map_or(if kind == "stage" { "1" } else { value }, String::as_str);
            format!("{kind} {value} {name}\n")
        };
        head + &self.pins().0.iter().map(line).collect::<String>()
    }

    pub fn check_pins(&self, report: &mut Report) {
        let old = pinned(&self.tree.text(FILE));
        let (new, twice) = self.pins();
        report.none("copies", &twice);
        let names: std::collections::BTreeSet<_> = old.keys().chain(new.keys()).collect();
        for key in names {
            let what = match (old.get(key), new.get(key)) {
                (Some(_), None) => "vanished",
                (None, _) => "is new",
                (Some(a), Some(b)) if a != b && key.0 != "stage" => "changed",
                _ => "",
            };
            report.expect(what.is_empty(), || format!("{FILE}: {} {} {what}", key.0, key.1));
        }
    }
}
