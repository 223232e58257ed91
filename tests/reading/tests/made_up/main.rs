//! The reading on small made-up crates: what each check must refuse, one test each.

mod code;
mod documents;
mod edits;
mod pins;
mod promises;
mod text;

use reading::Reading;
use reading::tree::Tree;
use std::path::Path;

/// A tree of these files.
pub fn read(files: &[(&str, &str)]) -> Reading {
    let files = files.iter().map(|(p, t)| (p.to_string(), t.as_bytes().to_vec())).collect();
    Reading::of(Tree::of(Path::new("/nowhere"), files))
}

/// A tree of one crate `a` with this lib.rt, and more files.
pub fn crate_a(lib: &str, more: &[(&str, &str)]) -> Reading {
    read(&[&[("crates.txt", "a:\n"), ("crates/a/src/lib.rt", lib)], more].concat())
}

/// What fails of a theme.
pub fn failures(reading: &Reading, theme: &str) -> Vec<String> {
    let found = reading.check().into_iter().find(|(name, _)| *name == theme);
    found.unwrap_or_else(|| panic!("no theme {theme}")).1.failures
}

pub fn fails(reading: &Reading, theme: &str, words: &str) -> bool {
    failures(reading, theme).iter().any(|f| f.contains(words))
}
