//! The logic (.antt): what each file declares, and the theorems that say that at most one outcome fits.

use crate::text::{is_of_name, squeezed, words};
use crate::tree::Tree;
use std::collections::BTreeSet;

#[derive(Clone, Debug, Default)]
pub struct Declaration {
    pub file: String,
    pub name: String,
    pub open: bool,
    /// Not inside a record, a data type or a `where`.
    pub top: bool,
    /// Its first line, and the last before the next such declaration.
    pub line: usize,
    pub last: usize,
    /// The lines of its signature, without comments.
    pub signature: Vec<String>,
    /// Those of the heads of the modules around it, whose parameters it supposes.
    pub inside: Vec<String>,
}

impl Declaration {
    /// What stands after its name and a colon, as one line; nothing of a module's parameters.
    pub fn statement(&self) -> String {
        let whole = squeezed(&self.signature.join(" "));
        whole.split_once(&format!("{} :", self.name)).map_or(String::new(), |(_, s)| s.trim().to_string())
    }
}

const BEFORE_A_NAME: [&str; 9] = ["pub", "unfoldable", "abbrev", "opaque", "mutual", "record", "data", "module", "axiom"];

/// Whether a word opens a block of declarations.
fn opens(word: &str) -> bool {
    ["module", "record", "data"].contains(&word)
}

/// What a file declares; its text comes without comments.
pub fn declarations(file: &str, text: &str) -> Vec<Declaration> {
    let lines: Vec<&str> = text.lines().map(str::trim_end).collect();
    let indent = |l: &str| l.len() - l.trim_start().len();
    let mut out: Vec<Declaration> = Vec::new();
    // the blocks around the line: the indentation of their first line, whether they are modules, and their heads
    let mut blocks: Vec<(usize, bool, Vec<String>)> = Vec::new();
    let mut pending: Option<(usize, bool, usize)> = None;
    for (at, line) in lines.iter().enumerate().filter(|(_, l)| !l.trim().is_empty()) {
        let depth = indent(line);
        blocks.retain(|b| b.0 < depth);
        let mut head = line.trim_start();
        let (mut open, mut block) = (false, None);
        while let Some((word, rest)) = head.split_once(' ').filter(|(w, _)| BEFORE_A_NAME.contains(w)) {
            open |= word == "pub";
            block = if opens(word) { Some(word == "module") } else { block };
            head = rest.trim_start();
        }
        let name_end = head.find(|c| !is_of_name(c) && !"«»".contains(c)).unwrap_or(head.len());
        let (name, rest) = head.split_at(name_end);
        let signed = rest.trim_start().starts_with(':') && name != ":";
        if !name.is_empty() && (signed || block == Some(false)) {
            let goes_on = lines[at + 1..].iter().take_while(|l| !l.trim().is_empty() && indent(l) > depth);
            let signature = std::iter::once(line).chain(goes_on).map(|l| l.to_string()).collect();
            let (top, line, last) = (blocks.iter().all(|b| b.1), at + 1, lines.len());
            let inside = blocks.iter().flat_map(|b| b.2.clone()).collect();
            out.push(Declaration { file: file.into(), name: name.into(), open, top, line, last, signature, inside });
        }
        if let Some(module) = block {
            pending = Some((depth, module, at));
        }
        if line.ends_with(" where") || line.trim() == "where" {
            let (depth, module, from) = pending.take().unwrap_or((depth, false, at));
            blocks.push((depth, module, lines[from..=at].iter().map(|l| l.to_string()).collect()));
        }
    }
    let starts: Vec<usize> = out.iter().filter(|d| d.top).map(|d| d.line).collect();
    for d in &mut out {
        d.last = starts.iter().find(|s| **s > d.line).map_or(d.last, |s| s - 1);
    }
    out
}

#[derive(Default)]
pub struct Logic {
    pub declarations: Vec<Declaration>,
}

impl Logic {
    pub fn read(tree: &Tree) -> Logic {
        let files = tree.under("crates", ".antt");
        Logic { declarations: files.iter().flat_map(|f| declarations(f, tree.bare(f))).collect() }
    }

    /// The public theorems named `.._unique`.
    pub fn unique(&self) -> impl Iterator<Item = &Declaration> {
        self.theorems().filter(|d| d.name.ends_with("_unique") || d.name.ends_with("-unique"))
    }

    pub fn theorems(&self) -> impl Iterator<Item = &Declaration> {
        self.declarations.iter().filter(|d| d.top && d.open && d.file.contains("/proofs/"))
    }
}

/// The parts of a text at one depth of brackets, cut at a word.
pub fn cut<'a>(said: &'a [String], at: &str) -> Vec<&'a [String]> {
    let (mut out, mut depth, mut from) = (Vec::new(), 0, 0);
    for (i, w) in said.iter().enumerate() {
        match w.as_str() {
            "(" | "{" => depth += 1,
            ")" | "}" => depth -= 1,
            w if w == at && depth == 0 => {
                out.push(&said[from..i]);
                from = i + 1;
            }
            _ => {}
        }
    }
    out.push(&said[from..]);
    out
}

/// The parts of an application: words with what is read off them, and whole brackets.
pub fn atoms(said: &[String]) -> Vec<Vec<String>> {
    let mut out: Vec<Vec<String>> = Vec::new();
    let mut depth = 0;
    for w in said {
        if depth == 0 && !w.starts_with('.') {
            out.push(Vec::new());
        }
        if let Some(last) = out.last_mut() {
            last.push(w.clone());
        }
        depth += i32::from(w == "(" || w == "{") - i32::from(w == ")" || w == "}");
    }
    out
}

/// The text without a bracket around the whole of it.
pub fn unwrapped(mut said: &[String]) -> &[String] {
    while said.len() > 2 && said[0] == "(" && atoms(said).len() == 1 && said[said.len() - 1] == ")" {
        said = &said[1..said.len() - 1];
    }
    said
}

/// What is read off a reference: what it refers to, and where that stands.
const NOW: &str = ".now";
const PLACE: &str = ".ref_ptr";
/// An answer that may hand out a reference, with what that refers to and where it stands in its place: by its definition, in
/// crates/tiles/specs.
const SEEN: &str = "seen_as";

/// The places at which two lists of arguments are said to be equal: as two values, or as two references, of which it is said
/// what they refer to and where that stands.
fn told(first: &[Vec<String>], second: &[Vec<String>], conclusion: &[String]) -> Result<BTreeSet<usize>, String> {
    let (mut equal, mut seen) = (BTreeSet::new(), Vec::new());
    for equation in cut(conclusion, "×") {
        let sides: Vec<Vec<String>> = cut(unwrapped(equation), "≡").iter().map(|s| unwrapped(s).to_vec()).collect();
        let of = |word: &str, side: &[String]| match word {
            "" => side.to_vec(),
            SEEN => [&[word.to_string()], side].concat(),
            _ => [side, &[word.to_string()]].concat(),
        };
        let says = |word: &str, i: usize| sides == [of(word, &first[i]), of(word, &second[i])] && first[i] != second[i];
        let found = (1..first.len()).find_map(|i| ["", SEEN, NOW, PLACE].into_iter().find(|w| says(w, i)).map(|w| (i - 1, w)));
        let Some((place, word)) = found else { return Err(format!("it ends in {}", equation.join(" "))) };
        seen.push((place, word));
        if word.is_empty() || word == SEEN || (seen.contains(&(place, NOW)) && seen.contains(&(place, PLACE))) {
            equal.insert(place);
        }
    }
    Ok(equal)
}

/// What a uniqueness theorem says: of two outcomes that meet this predicate, the arguments at these places are equal,
/// whatever the others are. An error says why it is no such theorem.
pub fn uniqueness(inside: &[String], statement: &str) -> Result<(String, BTreeSet<usize>), String> {
    if inside.iter().any(|l| l.contains(':')) {
        return Err("it stands in a module with parameters".into());
    }
    let said = words(statement);
    let mut parts = cut(&said, "→");
    let conclusion = parts.pop().unwrap_or_default();
    let mut bound = Vec::new();
    let mut hypotheses = Vec::new();
    for part in parts {
        let groups = atoms(part);
        let binder = |g: &Vec<String>| (g[0] == "(" || g[0] == "{") && cut(&g[1..g.len() - 1], ":").len() == 2;
        if groups.iter().all(binder) {
            bound.extend(groups.iter().flat_map(|g| cut(&g[1..g.len() - 1], ":")[0].to_vec()));
        } else {
            hypotheses.push(groups);
        }
    }
    let [first, second] = &hypotheses[..] else { return Err("it has not two hypotheses".into()) };
    if first[0] != second[0] || first.len() != second.len() {
        return Err("its two hypotheses are not of one predicate".into());
    }
    let variables: Vec<&Vec<String>> = first[1..].iter().chain(&second[1..]).collect();
    if let Some(other) = variables.iter().find(|v| v.len() != 1 || !bound.contains(&v[0])) {
        return Err(format!("{} is no variable of it", other.join(" ")));
    }
    let distinct = |one: &[Vec<String>]| one.iter().collect::<BTreeSet<_>>().len() == one.len();
    if !distinct(&first[1..]) || !distinct(&second[1..]) {
        return Err("an argument stands in two places".into());
    }
    if let Some(other) = bound.iter().find(|b| !variables.iter().any(|v| v[0] == **b)) {
        return Err(format!("{other} is supposed beside the two outcomes"));
    }
    let equal = told(first, second, unwrapped(conclusion))?;
    let others = (1..first.len()).find(|&i| first[i] != second[i] && !equal.contains(&(i - 1)));
    match others {
        Some(i) => Err(format!("{} and {} are not said to be equal", first[i][0], second[i][0])),
        None => Ok((first[0].join(" "), equal)),
    }
}
