//! The check of a wait: the rule of each event, the order of the checks, and the report.

use super::events::{Event, Kind};
use super::read;
use crate::table::{Refusal, SLOTS, Table};

/// Nobody, or a registration.
pub type Owner = Option<(u16, u64)>;

/// The five numbers of a verdict: its own, and what it carries.
#[derive(Clone, Copy, Debug, Default, PartialEq, Eq)]
pub struct Told {
    pub answer: u64,
    pub slot: u64,
    pub id: u64,
    pub seen: u64,
    pub at: u64,
}

impl Told {
    fn at(answer: u64, at: usize) -> Told {
        Told {
            answer,
            at: at as u64,
            ..Told::default()
        }
    }

    fn of_owner(refusal: Refusal) -> Told {
        let told = Told::at(refusal.number().into(), 0);
        match refusal {
            Refusal::InvalidSlot { slot } => Told {
                slot: slot.into(),
                ..told
            },
            Refusal::SlotOwnershipMismatch {
                slot,
                expected,
                observed,
            } => Told {
                slot: slot.into(),
                id: expected,
                seen: observed,
                ..told
            },
            _ => told,
        }
    }

    pub fn text(&self) -> String {
        let Told {
            answer,
            slot,
            id,
            seen,
            at,
        } = self;
        format!("answer={answer}\nslot={slot}\nid={id}\nseen={seen}\nat={at}\n")
    }
}

/// The table after the event, or none where the event breaks its rule.
pub fn step(table: &Table, owner: Owner, event: &Event) -> Option<Table> {
    let mut after = table.clone();
    match event.kind {
        Kind::Register => {
            let place = nameable(owner, event.slot)?;
            if table.slots()[place].txid != 0 {
                return None;
            }
            after.stamp(event.id).ok()?;
            after.put(place, event.id, event.id);
        }
        Kind::End => {
            let place = taken(table, owner, event.slot)?;
            after.put(place, 0, 0);
        }
        Kind::Horizon => {
            let place = taken(table, owner, event.slot)?;
            if event.xmin == 0 || event.xmin > least_active(table)? {
                return None;
            }
            after.put(place, table.slots()[place].txid, event.xmin);
        }
        Kind::Reserve => {
            after.stamp(event.id).ok()?;
        }
        Kind::Observe => after.observe(event.clock, event.sample).ok()?,
    }
    Some(after)
}

/// A slot of the table that is not the owner's.
fn nameable(owner: Owner, slot: u16) -> Option<usize> {
    let owners = owner.is_some_and(|(own, _)| own == slot);
    let place = usize::from(slot);
    (place < SLOTS && !owners).then_some(place)
}

/// The same, and taken.
fn taken(table: &Table, owner: Owner, slot: u16) -> Option<usize> {
    nameable(owner, slot).filter(|&place| table.slots()[place].txid != 0)
}

/// The least id of all taken slots.
pub fn least_active(table: &Table) -> Option<u64> {
    let ids = table.slots().iter().map(|slot| slot.txid);
    ids.filter(|&id| id != 0).min()
}

/// The table at the end and a verdict of zeros; or the entry table and a refusal.
pub fn check(entry: &Table, owner: Owner, text: &[u8]) -> (Told, Table) {
    match accepted(entry, owner, text) {
        Ok(end) => (Told::default(), end),
        Err(told) => (told, entry.clone()),
    }
}

fn accepted(entry: &Table, owner: Owner, text: &[u8]) -> Result<Table, Told> {
    let events = read::events(text).map_err(|broken| Told::at(9, broken.line))?;
    if !entry.passes() {
        return Err(Told::at(21, 0));
    }
    if let Some((slot, id)) = owner {
        entry.owned_slot(slot, id).map_err(Told::of_owner)?;
    }
    let mut table = entry.clone();
    for (number, event) in (1..).zip(&events) {
        table = step(&table, owner, event).ok_or(Told::at(22, number))?;
    }
    Ok(table)
}

/// A wait as a host hands it in: two texts, and who waited.
#[derive(Clone, Debug, PartialEq, Eq)]
pub struct Wait {
    pub table: Vec<u8>,
    pub owner: Owner,
    pub text: Vec<u8>,
}

/// What has to be answered: the five lines and the table; the five lines alone where the table's text breaks a rule.
pub fn report(wait: &Wait) -> Vec<u8> {
    let said = match read::table(&wait.table) {
        Err(broken) => Told::at(9, broken.line).text(),
        Ok(entry) => {
            let (told, table) = check(&entry, wait.owner, &wait.text);
            told.text() + &read::text_of_table(&table)
        }
    };
    said.into_bytes()
}
