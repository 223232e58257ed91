//! What the seeds reach. A cell that no question fell into fails.

use crate::decode::Reading;
use crate::question::Question;
use std::collections::BTreeMap;
use twin::table::{PINS, SLOTS, Table};
use twin::waits::grounds;

/// The conditions of the table check, each broken alone, by the twin's names.
const CONDITIONS: &[&str] = &[
    "sample 0",
    "sample above clock",
    "line 0",
    "line above clock",
    "empty slot with xmin",
    "xmin 0",
    "xmin above txid",
    "txid from clock",
    "txid below line",
    "txid twice",
    "pin below line",
    "pin above clock",
];

const OTHERS: &[&str] = &[
    "image that passes",
    "several conditions",
    "empty image",
    "image one byte short",
    "image one byte long",
    "image one slot short",
    "image one slot long",
    "image without its pins",
    "18 alone",
    "18 before 10",
    "18 before 4",
    "one byte short",
    "one byte long",
    "10 alone",
    "10 before 4",
    "one id too many",
    "10,000 ids and more",
    "4 alone",
    "empty list",
    "full list",
    "first of the list",
    "last of the list",
    "last of a full list",
    "below xmax, not listed",
    "xmax itself",
    "above xmax",
    "listed, and at or above xmax",
    "own, and not settled",
    "own, and settled",
    "own of none, id 0",
    "another's, and not settled",
];

/// The conditions that a table breaks: the twin's of slots and counters, and those of its pins.
fn broken(table: &Table) -> Vec<&'static str> {
    let (line, clock) = (table.vacuum_line(), table.clock());
    let mut names = grounds::entry(table);
    let taken = table.pins().iter().copied().filter(|xmin| *xmin != 0);
    let pins: Vec<u64> = taken.collect();
    names.retain(|name| !name.starts_with("pin "));
    names.extend(
        pins.iter()
            .any(|xmin| *xmin < line)
            .then_some("pin below line"),
    );
    names.extend(
        pins.iter()
            .any(|xmin| *xmin > clock)
            .then_some("pin above clock"),
    );
    names
}

pub struct Cells(BTreeMap<&'static str, usize>);

impl Cells {
    pub fn none() -> Self {
        let all = CONDITIONS.iter().chain(OTHERS);
        Cells(all.map(|name| (*name, 0)).collect())
    }

    /// The cells that stayed empty.
    pub fn empty(&self) -> Vec<&'static str> {
        let empty = self.0.iter().filter(|cell| *cell.1 == 0);
        empty.map(|cell| *cell.0).collect()
    }

    pub fn len(&self) -> usize {
        self.0.len()
    }

    fn put(&mut self, name: &'static str, there: bool) {
        let cell = self.0.get_mut(name).expect("every cell has its name above");
        *cell += usize::from(there);
    }

    pub fn add(&mut self, question: &Question) {
        match question {
            Question::Check(image) => self.image(image),
            Question::Settled { xmax, list, id } => self.list(*xmax, list, *id),
            Question::Usable {
                xmax,
                list,
                id,
                own,
            } => self.own(*xmax, list, *id, *own),
        }
    }

    fn image(&mut self, image: &[u8]) {
        let length = 8 * (2 * SLOTS + PINS + 3);
        self.put("empty image", image.is_empty());
        self.put("image one byte short", image.len() + 1 == length);
        self.put("image one byte long", image.len() == length + 1);
        self.put("image one slot short", image.len() + 16 == length);
        self.put("image one slot long", image.len() == length + 16);
        self.put("image without its pins", image.len() + 8 * PINS == length);
        if let Some(table) = Reading(None).table(image) {
            let broken = broken(&table);
            self.put("image that passes", broken.is_empty());
            self.put("several conditions", broken.len() > 1);
            if let [condition] = broken[..] {
                self.put(condition, true);
            }
        }
    }

    fn list(&mut self, xmax: u64, list: &[u8], id: u64) {
        let (torn, zero) = (!list.len().is_multiple_of(8), id == 0);
        let (count, long) = (list.len() / 8, list.len() / 8 > SLOTS);
        self.put("18 alone", torn && !long && !zero);
        self.put("18 before 10", torn && long);
        self.put("18 before 4", torn && !long && zero);
        self.put("one byte short", list.len() % 8 == 7);
        self.put("one byte long", list.len() % 8 == 1);
        if torn {
            return;
        }
        self.put("10 alone", long && !zero);
        self.put("10 before 4", long && zero);
        self.put("one id too many", count == SLOTS + 1);
        self.put("10,000 ids and more", count >= 10_000);
        self.put("4 alone", !long && zero);
        if long || zero {
            return;
        }
        let ids: Vec<&[u8]> = list.chunks(8).collect();
        let bytes = id.to_le_bytes();
        let at = ids.iter().position(|other| *other == bytes);
        self.put("empty list", count == 0);
        self.put("full list", count == SLOTS);
        self.put("first of the list", id < xmax && at == Some(0));
        let last = at.is_some() && at == count.checked_sub(1);
        self.put("last of the list", id < xmax && last);
        self.put("last of a full list", id < xmax && last && count == SLOTS);
        self.put("below xmax, not listed", id < xmax && at.is_none());
        self.put("xmax itself", id == xmax);
        self.put("above xmax", id > xmax);
        self.put("listed, and at or above xmax", id >= xmax && at.is_some());
    }

    fn own(&mut self, xmax: u64, list: &[u8], id: u64, own: u64) {
        let question = Question::Settled {
            xmax,
            list: list.to_vec(),
            id,
        };
        let settled = Reading(None).answer(&question);
        self.put("own, and not settled", settled == 0 && own == id);
        self.put("own, and settled", settled == 1 && own == id);
        self.put("own of none, id 0", settled == 4 && own == 0);
        self.put("another's, and not settled", settled == 0 && own != id);
    }
}
