//! What a set of texts reaches: a count for every cell that has to be hit.

use crate::{cells_of_calls, cells_of_texts};
use std::collections::BTreeMap;
use std::fmt::{self, Display};

#[derive(Default)]
pub struct Coverage {
    counts: BTreeMap<String, u64>,
    /// Answers that are not the first refusal in the order of checks.
    out_of_order: u64,
    /// What is counted: texts, and what stands in them.
    nouns: [&'static str; 2],
    pub texts: u64,
    pub items: u64,
}

impl Coverage {
    /// All cells that traces have to hit, each with count 0.
    pub fn new() -> Self {
        let cells = [cells_of_calls::required(), cells_of_texts::required()];
        Coverage::of(cells.concat(), ["traces", "records"])
    }

    pub fn of(cells: Vec<String>, nouns: [&'static str; 2]) -> Self {
        Coverage {
            counts: cells.into_iter().map(|cell| (cell, 0)).collect(),
            nouns,
            ..Coverage::default()
        }
    }

    pub fn add(&mut self, text: &[u8]) {
        self.texts += 1;
        cells_of_texts::count(text, self);
        cells_of_calls::count(text, self);
    }

    /// Counts a cell; one that nothing asks for is passed over.
    pub fn hit(&mut self, cell: &str) {
        if let Some(count) = self.counts.get_mut(cell) {
            *count += 1;
        }
    }

    pub fn hit_if(&mut self, condition: bool, cell: &str) {
        if condition {
            self.hit(cell);
        }
    }

    pub fn out_of_order(&mut self) {
        self.out_of_order += 1;
    }

    pub fn missing(&self) -> Vec<&str> {
        let missed = self.counts.iter().filter(|(_, count)| **count == 0);
        missed.map(|(cell, _)| cell.as_str()).collect()
    }

    pub fn is_complete(&self) -> bool {
        self.missing().is_empty() && self.out_of_order == 0
    }
}

impl Display for Coverage {
    fn fmt(&self, out: &mut fmt::Formatter) -> fmt::Result {
        for (cell, count) in &self.counts {
            let mark = if *count == 0 { "  MISSING" } else { "" };
            writeln!(out, "{count:>8}  {cell}{mark}")?;
        }
        writeln!(
            out,
            "{} {}, {} {}, {} cells, {} missing, {} answers out of order",
            self.texts,
            self.nouns[0],
            self.items,
            self.nouns[1],
            self.counts.len(),
            self.missing().len(),
            self.out_of_order
        )
    }
}
