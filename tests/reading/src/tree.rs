//! The repository as files, and what a run of the checks has to say.

use crate::text::bare;
use std::collections::{BTreeMap, BTreeSet};
use std::path::{Path, PathBuf};

#[derive(Default)]
pub struct Tree {
    pub root: PathBuf,
    /// Every file but those of `target`, `.git` and what checks keep in `crates/*/out`, by its path from the top.
    pub files: BTreeMap<String, Vec<u8>>,
    /// Code, definitions and proofs without their comments.
    bare: BTreeMap<String, String>,
    /// The crates in the order of crates.txt, and what each stands on. `NAME staticlib:` lists a static library.
    pub crates: Vec<(String, Vec<String>)>,
}

impl Tree {
    pub fn read(root: &Path) -> std::io::Result<Tree> {
        let mut files = BTreeMap::new();
        let mut folders = vec![root.to_path_buf()];
        while let Some(folder) = folders.pop() {
            for entry in std::fs::read_dir(folder)? {
                let path = entry?.path();
                let name = path.strip_prefix(root).unwrap_or(&path).to_string_lossy().into_owned();
                let kept = name.starts_with("crates/") && name.ends_with("/out") && name.matches('/').count() == 2;
                if name == "target" || name == ".git" || kept {
                } else if path.is_dir() {
                    folders.push(path);
                } else {
                    files.insert(name, std::fs::read(&path)?);
                }
            }
        }
        Ok(Tree::of(root, files))
    }

    pub fn of(root: &Path, files: BTreeMap<String, Vec<u8>>) -> Tree {
        let mut tree = Tree { root: root.to_path_buf(), files, ..Tree::default() };
        for path in tree.files.keys().filter(|p| p.ends_with(".rt") || p.ends_with(".antt")) {
            tree.bare.insert(path.clone(), bare(&tree.text(path), path.ends_with(".rt")));
        }
        let list = tree.text("crates.txt");
        let crates = list.lines().filter(|l| !l.starts_with('#')).filter_map(|l| l.split_once(':'));
        let name = |c: &str| c.trim_end().strip_suffix(" staticlib").unwrap_or(c).trim().to_string();
        tree.crates = crates.map(|(c, on)| (name(c), on.split_whitespace().map(String::from).collect())).collect();
        tree
    }

    pub fn text(&self, path: &str) -> String {
        self.files.get(path).map_or(String::new(), |bytes| String::from_utf8_lossy(bytes).into_owned())
    }

    pub fn bare(&self, path: &str) -> &str {
        self.bare.get(path).map_or("", String::as_str)
    }

    /// The files under a folder with this ending, in order.
    pub fn under(&self, folder: &str, ending: &str) -> Vec<String> {
        let inside = |p: &&String| p.starts_with(folder) && p[folder.len()..].starts_with('/') && p.ends_with(ending);
        self.files.keys().filter(inside).cloned().collect()
    }

    /// The files `crates/NAME/FOLDER/**ENDING` of every crate, crate by crate.
    pub fn of_crates(&self, folder: &str, ending: &str) -> Vec<String> {
        self.crates.iter().flat_map(|(c, _)| self.under(&format!("crates/{c}/{folder}"), ending)).collect()
    }

    pub fn documents(&self) -> Vec<String> {
        self.files.keys().filter(|p| p.ends_with(".md")).cloned().collect()
    }

    /// A file that a run left in `target`.
    pub fn made(&self, path: &str) -> Option<String> {
        std::fs::read(self.root.join("target").join(path)).ok().map(|b| String::from_utf8_lossy(&b).into_owned())
    }

    /// crates.txt and crates/ say the same, and no crate stands on one below it.
    pub fn check(&self, report: &mut Report) {
        let folders: BTreeSet<&str> =
            self.files.keys().filter_map(|p| p.strip_prefix("crates/")?.split_once('/')).map(|(c, _)| c).collect();
        for folder in &folders {
            report.expect(self.crates.iter().any(|(c, _)| c == folder), || format!("crates/{folder}: not in crates.txt"));
        }
        for (at, (name, on)) in self.crates.iter().enumerate() {
            report.expect(folders.contains(name.as_str()), || format!("crates.txt: there is no crates/{name}"));
            let twice = self.crates[..at].iter().any(|(c, _)| c == name);
            let below = on.iter().find(|o| self.crates[at..].iter().any(|(c, _)| c == *o));
            report.expect(!twice && below.is_none(), || format!("crates.txt: {name} stands twice, or on {below:?} below it"));
        }
    }

    pub fn write(&mut self, path: &str, text: String) -> std::io::Result<()> {
        std::fs::write(self.root.join(path), &text)?;
        self.files.insert(path.to_string(), text.into_bytes());
        Ok(())
    }
}

/// The crate in whose folder a file stands.
pub fn crate_of(path: &str) -> &str {
    path.split('/').nth(1).unwrap_or("")
}

#[derive(Default)]
pub struct Report {
    pub passed: usize,
    pub failures: Vec<String>,
}

impl Report {
    pub fn expect(&mut self, holds: bool, otherwise: impl FnOnce() -> String) {
        if holds { self.passed += 1 } else { self.failures.push(otherwise()) }
    }

    /// A list of what must not be there is empty.
    pub fn none(&mut self, what: &str, found: &[String]) {
        self.expect(found.is_empty(), || format!("{what}: {}", found.join("; ")));
    }
}
