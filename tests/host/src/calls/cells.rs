//! What the calls reach. A cell that no call fell into fails.

use std::collections::BTreeMap;
use twin::grounds;
use twin::replay;
use twin::table::Table;
use twin::trace::{Op, Record};

const OTHERS: [&str; 9] = [
    "18 alone",
    "18 before 12",
    "12 for out",
    "12 for ids",
    "12 for both",
    "lists all slots",
    "a slot is named",
    "a pin is named",
    "nobody is named",
];

pub struct Cells(BTreeMap<String, u64>);

impl Cells {
    /// Every answer of every op, and every pair of refusals that an order decides.
    pub fn none() -> Self {
        let mut names: Vec<String> = OTHERS.map(String::from).into();
        for op in Op::ALL {
            let (name, order) = (op.name(), grounds::order(op));
            names.push(format!("{name} answers 0"));
            for (place, first) in order.iter().enumerate() {
                names.push(format!("{name} answers {first}"));
                let later = order[place + 1..].iter();
                let later = later.filter(|second| grounds::together(*first, **second));
                names.extend(later.map(|second| format!("{name} {first} before {second}")));
            }
        }
        Cells(names.into_iter().map(|name| (name, 0)).collect())
    }

    pub fn empty(&self) -> Vec<&str> {
        let empty = self.0.iter().filter(|cell| *cell.1 == 0);
        empty.map(|cell| cell.0.as_str()).collect()
    }

    pub fn len(&self) -> usize {
        self.0.len()
    }

    pub fn put(&mut self, name: &str) {
        let cell = self.0.get_mut(name).expect("every cell has its name above");
        *cell += 1;
    }

    /// The call that is about to be made on the table.
    pub fn add(&mut self, table: &Table, record: &Record) {
        let name = record.op.name();
        let holding = grounds::holding(table, record);
        match holding[..] {
            [] => self.put(&format!("{name} answers 0")),
            [first, ref later @ ..] => {
                self.put(&format!("{name} answers {first}"));
                for second in later
                    .iter()
                    .filter(|second| grounds::together(first, **second))
                {
                    self.put(&format!("{name} {first} before {second}"));
                }
            }
        }
        if holding.is_empty() && matches!(record.op, Op::Oldest | Op::Vacuum) {
            self.put(match replay::run(&mut table.clone(), record).holder {
                65_535 => "nobody is named",
                2_000.. => "a pin is named",
                _ => "a slot is named",
            });
        }
        let full = table.slots().iter().all(|slot| slot.txid != 0);
        if holding.is_empty() && full && matches!(record.op, Op::Snap | Op::Own | Op::Pin) {
            self.put("lists all slots");
        }
    }
}
