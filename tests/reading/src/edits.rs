//! The edits that the check must refuse: what each changes, for which public function it counts, why it was refused.

use crate::code::Code;
use crate::logic::Logic;
use crate::promises::excepted;
use crate::text::{bare, line_of, squeezed, words};
use crate::tree::{Report, Tree, crate_of};
use std::collections::{BTreeMap, BTreeSet};
use std::path::Path;
use std::time::SystemTime;

#[derive(Debug, Default)]
pub struct Edit {
    pub krate: String,
    pub name: String,
    pub path: String,
    /// Why it is wrong, in its own words.
    pub why: String,
    of: Option<String>,
    /// For each change: file, old text, new text.
    pub changes: Vec<(String, String, String)>,
    /// What it changes: a function, a constant, a type or a definition; and `code`, `contract` or `definition`.
    pub unit: String,
    pub sort: &'static str,
    /// The public function for which it counts.
    pub counts: Option<String>,
}

impl Edit {
    fn read(path: &str, text: &str, wrong: &mut Vec<String>) -> Edit {
        let krate = crate_of(path).to_string();
        let name = path.rsplit('/').next().unwrap_or("").trim_end_matches(".edit").to_string();
        let mut edit = Edit { krate, name, path: path.into(), ..Edit::default() };
        let mut file = String::new();
        for line in text.lines().filter(|l| !l.trim().is_empty()) {
            if let Some(comment) = line.strip_prefix('#') {
                let comment = comment.trim_start_matches('#').trim_start();
                match comment.strip_prefix("of:") {
                    Some(of) => edit.of = Some(of.trim().to_string()),
                    None => edit.why = format!("{} {comment}", edit.why).trim().to_string(),
                }
            } else if let Some(name) = line.strip_prefix("file: ") {
                file = format!("crates/{}/{name}", edit.krate);
            } else if let Some(old) = line.strip_prefix("old: ") {
                edit.changes.push((file.clone(), old.to_string(), String::new()));
            } else if let Some(new) = line.strip_prefix("new:") {
                if let Some(last) = edit.changes.last_mut() {
                    last.2 = new.strip_prefix(' ').unwrap_or(new).to_string();
                }
            } else {
                wrong.push(format!("{path}: the line '{line}' is no line of an edit"));
            }
        }
        edit
    }

    /// What it does, whatever it is called and says of itself.
    pub fn deed(&self) -> String {
        let one = |(file, old, new): &(String, String, String)| {
            let code = file.ends_with(".rt");
            format!("{file}\n{}\n{}\n", squeezed(&bare(old, code)), squeezed(&bare(new, code)))
        };
        self.changes.iter().map(one).collect()
    }
}

/// The units of a crate, the lines in which they stand, and what each names.
#[derive(Default)]
struct Units {
    /// By file and line: the unit, and whether the line is one of a contract.
    at: BTreeMap<(String, usize), (String, bool)>,
    named: BTreeMap<String, BTreeSet<String>>,
    public: BTreeSet<String>,
}

impl Units {
    fn read(tree: &Tree, code: &Code, logic: &Logic, krate: &str) -> Units {
        let mut units = Units::default();
        for item in code.items.iter().filter(|i| crate_of(&i.file) == krate) {
            units.named.entry(item.name.clone()).or_default();
            units.at.extend(item.lines.clone().map(|l| ((item.file.clone(), l), (item.name.clone(), false))));
        }
        for f in code.functions.iter().filter(|f| f.krate == krate) {
            // a method of a trait is told by the type that has it, as its callers tell it
            let unit = if f.owner.is_empty() { &f.name } else { &f.owner };
            let named = units.named.entry(unit.clone()).or_default();
            named.extend(f.requires.iter().chain(&f.ensures).flat_map(|c| words(c)));
            named.extend(f.tokens.windows(2).filter(|w| w[1] == "(").map(|w| w[0].clone()));
            named.extend(f.parameters.iter().map(|p| &p.1).chain([&f.result]).chain(&f.tokens).flat_map(|t| capitals(t)));
            units.at.extend((f.line..=f.last).map(|l| ((f.file.clone(), l), (unit.clone(), l < f.body))));
            if f.public {
                units.public.insert(unit.clone());
            }
        }
        let specs = format!("crates/{krate}/specs/");
        for d in logic.declarations.iter().filter(|d| d.top && d.file.starts_with(&specs)) {
            let named = units.named.entry(d.name.clone()).or_default();
            let text = tree.bare(&d.file).lines().skip(d.line - 1).take(d.last + 1 - d.line);
            named.extend(text.flat_map(words));
            units.at.extend((d.line..=d.last).map(|l| ((d.file.clone(), l), (d.name.clone(), false))));
        }
        units
    }

    /// What a public function uses, directly or through others that are not public.
    fn reach(&self, from: &str) -> BTreeSet<String> {
        let (mut seen, mut waiting) = (BTreeSet::new(), vec![from.to_string()]);
        while let Some(unit) = waiting.pop() {
            for name in self.named.get(&unit).into_iter().flatten() {
                if self.named.contains_key(name) && !self.public.contains(name) && seen.insert(name.clone()) {
                    waiting.push(name.clone());
                }
            }
        }
        seen
    }
}

/// The words of a text of code that begin with a capital: constants and types.
fn capitals(text: &str) -> Vec<String> {
    let parts = text.split(|c: char| !c.is_ascii_alphanumeric() && c != '_');
    parts.filter(|w| w.starts_with(|c: char| c.is_ascii_uppercase())).map(String::from).collect()
}

/// Finds what an edit changes: its first change of something that has a name. Each change applies to what those before it made.
fn place(tree: &Tree, units: &Units, edit: &mut Edit, wrong: &mut Vec<String>) {
    let mut texts: BTreeMap<String, String> = BTreeMap::new();
    for (file, old, new) in edit.changes.clone() {
        let is_code = file.ends_with(".rt");
        let inside = ["src", "specs"].iter().any(|f| file.starts_with(&format!("crates/{}/{f}/", edit.krate)));
        let text = texts.entry(file.clone()).or_insert_with(|| tree.text(&file));
        let places: Vec<usize> = text.match_indices(&old).map(|(at, _)| line_of(text, at)).collect();
        let same = squeezed(&bare(&old, is_code)) == squeezed(&bare(&new, is_code));
        if places.len() != 1 || !inside || same {
            let why = if same { "changes no more than a comment" } else { "is of no one line of code or definitions" };
            wrong.push(format!("{}: its old text '{old}' in {file} {why}", edit.path));
        }
        *text = text.replacen(&old, &new, 1);
        let place = places.first().copied().unwrap_or(0);
        let commented = tree.bare(&file).lines().nth(place.max(1) - 1).is_none_or(|l| l.trim().is_empty());
        let found = units.at.get(&(file.clone(), place)).filter(|_| !commented && edit.unit.is_empty());
        if let Some((unit, contract)) = found {
            let sort = if *contract { "contract" } else { "code" };
            (edit.unit, edit.sort) = (unit.clone(), if is_code { sort } else { "definition" });
        }
    }
    if edit.changes.is_empty() || !edit.path.ends_with(".edit") {
        wrong.push(format!("{} changes nothing", edit.path));
    } else if edit.unit.is_empty() {
        wrong.push(format!("{}: what its old text stands in has no name", edit.path));
    }
}

/// Every edit, and what is wrong with any of them.
pub fn read(tree: &Tree, code: &Code, logic: &Logic) -> (Vec<Edit>, Vec<String>) {
    let (mut edits, mut wrong) = (Vec::new(), Vec::new());
    let mut deeds: BTreeMap<String, String> = BTreeMap::new();
    for (krate, _) in &tree.crates {
        let units = Units::read(tree, code, logic, krate);
        let public = code.public().filter(|f| f.krate == *krate && !f.ensures.is_empty()).map(|f| f.name.as_str());
        let reached: Vec<(&str, BTreeSet<String>)> = public.map(|f| (f, units.reach(f))).collect();
        for path in tree.under(&format!("crates/{krate}/must-fail"), "") {
            let mut edit = Edit::read(&path, &tree.text(&path), &mut wrong);
            place(tree, &units, &mut edit, &mut wrong);
            let users: Vec<&str> = reached.iter().filter(|(_, r)| r.contains(&edit.unit)).map(|(f, _)| *f).collect();
            edit.counts = match &users[..] {
                _ if units.public.contains(&edit.unit) => Some(edit.unit.clone()),
                [one] => Some(one.to_string()),
                _ => None,
            };
            if let Some(of) = edit.of.clone() {
                if edit.counts.as_ref().is_some_and(|c| *c != of) || (edit.counts.is_none() && !users.contains(&of.as_str())) {
                    wrong.push(format!("{path}: `# of: {of}`, which does not use `{}`", edit.unit));
                }
                edit.counts = Some(of);
            }
            if let Some(other) = deeds.insert(edit.deed(), path.clone()) {
                wrong.push(format!("{path} does what {other} does"));
            }
            edits.push(edit);
        }
    }
    (edits, wrong)
}

/// How many edits count for a public function.
fn number(edits: &[Edit], krate: &str, name: &str) -> usize {
    edits.iter().filter(|e| e.krate == krate && e.counts.as_deref() == Some(name)).count()
}

/// The list of docs/IMPOSTORS.md.
pub fn list(tree: &Tree, code: &Code, edits: &[Edit]) -> String {
    let shown = |text: &str| {
        let text = text.trim_start().replace('|', "\\|");
        if text.contains('`') { format!("`` {text} ``") } else { format!("`{text}`") }
    };
    let mut out = String::new();
    for (krate, _) in tree.crates.iter().filter(|(c, _)| edits.iter().any(|e| e.krate == *c)) {
        let counts = code.public().filter(|f| f.krate == *krate);
        let counts: Vec<String> = counts.map(|f| format!("`{}` {}", f.name, number(edits, krate, &f.name))).collect();
        let none = "No function that another crate can call".to_string();
        let counts = if counts.is_empty() { none } else { counts.join(", ") };
        out += &format!("### {krate}\n\n{counts}.\n\n| Edit | In | From | To | Why |\n|---|---|---|---|---|\n");
        for e in edits.iter().filter(|e| e.krate == *krate) {
            let sort = match e.sort {
                "contract" => ", its contract",
                "definition" => ", a definition",
                _ => "",
            };
            let of = e.counts.as_ref().filter(|c| **c != e.unit).map_or(String::new(), |c| format!(", for `{c}`"));
            let side =
                |pick: fn(&(String, String, String)) -> &String| e.changes.iter().map(|c| shown(pick(c))).collect::<Vec<_>>().join(" and ");
            let why = if e.why.is_empty() { String::new() } else { e.why.replace('|', "\\|") + " " };
            let (name, from, to) = (&e.name, side(|c| &c.1), side(|c| &c.2));
            let link = format!("[{name}](../crates/{krate}/must-fail/{name}.edit)");
            out += &format!("| {link} | `{}`{sort}{of} | {from} | {to} | {why}|\n", e.unit);
        }
        out += "\n";
    }
    out
}

/// Every edit changes something that is there, and every public function has two, or stands among the exceptions.
pub fn check(tree: &Tree, code: &Code, edits: &[Edit], wrong: &[String], report: &mut Report) {
    report.passed += edits.len();
    wrong.iter().for_each(|w| report.expect(false, || w.clone()));
    let named = excepted(tree, "Fewer than two edits", report);
    for f in code.public() {
        let (id, count) = (f.id(), number(edits, &f.krate, &f.name));
        report.expect((count >= 2) != named.contains(&id), || {
            let among = if named.contains(&id) { ", and stands among the exceptions" } else { " of two" };
            format!("{id}: {count} edits{among}")
        });
    }
    let ids: BTreeSet<String> = code.public().map(|f| f.id()).collect();
    report.none("an exception for no public function", &named.difference(&ids).cloned().collect::<Vec<_>>());
}

/// What a check says where a fact does not hold. Nothing else counts. `rt ci` prints the first line of it, cut short.
const FACTS: [&str; 16] = [
    "it is not proved that ",
    "the two types ",
    "the two values ",
    "the two sides ",
    "computed as a goal is, one side reads `",
    "expected type `",
    "` lands at index `",
    "`cc` met a bound of its own before the equations had joined `",
    "list the missing equation with its arguments, or rewrite by `rw` or `simp`",
    "`omega`: the goal does not follow",
    "` of the goal does not follow from what it read",
    "`search`: no proof of `",
    "`rw`: no occurrence of the path's ",
    "`rw`: no part of the goal ",
    "`rw` has no last argument, so what it leaves must be a path whose two ends are equal",
    "give a proof of that as the last argument, `rw L t`",
];

/// Whether an error says that a value of one type was expected, and one of another came: no fact is at stake.
fn of_values(error: &str) -> bool {
    let expected = error.split_once("expected type `").map(|(_, rest)| words(rest.split('`').next().unwrap_or(rest)));
    let data = ["ℕ", "Bool", "List", "Option", "String", "Char", "Prim", "mathlib"];
    let relates =
        |w: &String| ["≡", "≢", "≤", "<", "↔", "⊥", "→", "×"].iter().any(|r| w.contains(r)) || w.ends_with("Path") || w.ends_with("So");
    expected.is_some_and(|said| said.first().is_some_and(|w| data.contains(&w.as_str())) && !said.iter().any(relates))
}

/// Why an edit was refused, from what `rt ci` says of it after its name: the first error of its check that is not a mere
/// consequence of another. An error says that it is none that counts.
pub fn reason(said: &str) -> Result<String, String> {
    // one that was refused for a name that it took away, or by a limit of the prover, says so in brackets before the colon
    let error = said.strip_prefix("refused, as it must be: ").ok_or(said)?;
    let place = error.trim_start_matches("note: ").trim_start_matches("./");
    if error.contains(": error[") || (place.starts_with("specs/") && place.contains(".antt:")) {
        return Err(format!("the compiler's, or in the definitions: {error}"));
    }
    let consequence = error.contains("was not admitted (");
    if !consequence && FACTS.iter().any(|f| error.contains(f)) && !of_values(error) { Ok(error.into()) } else { Err(error.into()) }
}

/// What a log of `rt ci` or `rt must-fail` says last of each edit, by crate and name.
pub fn told(log: &str) -> BTreeMap<(String, String), String> {
    let line = |l: &str| {
        let (name, said) = l.strip_prefix("rt: must-fail ")?.split_once(".edit: ")?;
        let (krate, name) = name.split_once('/')?;
        Some(((krate.to_string(), name.to_string()), said.to_string()))
    };
    log.lines().filter_map(line).collect()
}

/// Each edit was tried on this tree, and refused because a fact no longer holds. The log's own time is when it was begun.
pub fn check_refused(tree: &Tree, edits: &[Edit], log: &Path, report: &mut Report) -> std::io::Result<()> {
    let of_log = |e: std::io::Error| std::io::Error::new(e.kind(), format!("{}: {e}", log.display()));
    let said = told(&String::from_utf8_lossy(&std::fs::read(log).map_err(of_log)?));
    let after = std::fs::metadata(log).and_then(|m| m.modified()).map_err(of_log)?;
    let changed = |path: &str| std::fs::metadata(tree.root.join(path)).and_then(|m| m.modified()).unwrap_or(SystemTime::now());
    for e in edits {
        let said = said.get(&(e.krate.clone(), e.name.clone())).ok_or("it was not tried".to_string()).and_then(|s| reason(s));
        let late = ["src", "specs", "proofs"].iter().flat_map(|f| tree.under(&format!("crates/{}/{f}", e.krate), ""));
        let late = late.chain([e.path.clone()]).find(|f| changed(f) > after);
        report.expect(said.is_ok() && late.is_none(), || {
            let why = said.err().or(late.map(|f| format!("{f} changed since it was tried"))).unwrap_or_default();
            format!("{}: {}", e.path, why.chars().take(300).collect::<String>())
        });
    }
    Ok(())
}
