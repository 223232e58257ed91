//! A replay told over time: who was registered or pinned from which record to which, the xmin that each retained, and after
//! each record the clock and the oldest retained xmin. All of it is read off the answers: what was taken, kept and given
//! up, at which slot and with which xmin, and whom an oldest or a vacuum named.

use super::places::Place;
use super::records::{self, Answer, Record};
use super::teller::Teller;

/// Clock and line of a fresh table (SPEC 2.3).
pub const FRESH: u64 = 1;

pub struct Story<'a> {
    pub steps: Vec<Step<'a>>,
    pub stays: Vec<Stay>,
}

/// A record, its answer, and how things stand after it. Records count from 1.
pub struct Step<'a> {
    pub number: usize,
    pub record: Record<'a>,
    pub answer: Answer,
    pub clock: u64,
    pub oldest: Option<u64>,
    pub holder: Holder,
}

impl Step<'_> {
    /// Whether it is an accepted vacuum.
    pub fn is_vacuum(&self) -> bool {
        self.record.op == "vacuum" && self.answer.accepted()
    }
}

/// A registration, or a pin, from its taking to its end; `to` is the record that ended it.
#[derive(Debug, PartialEq)]
pub struct Stay {
    pub place: Place,
    pub id: Option<u64>,
    pub from: usize,
    pub to: Option<usize>,
    pub holds: Vec<Hold>,
}

/// A part of a stay in which it retained one xmin.
#[derive(Debug, PartialEq)]
pub struct Hold {
    pub xmin: u64,
    pub from: usize,
    pub to: Option<usize>,
}

/// Whom a record named as holder; only an accepted oldest or vacuum names anybody.
#[derive(Clone, Copy, Debug, PartialEq)]
pub enum Holder {
    NotAsked,
    Nobody,
    Hold(HoldAt),
}

/// A hold by its stay, and its place among the stay's.
#[derive(Clone, Copy, Debug, PartialEq, Eq, PartialOrd, Ord)]
pub struct HoldAt {
    pub stay: usize,
    pub hold: usize,
}

impl<'a> Story<'a> {
    /// From a trace that was accepted and all that its replay printed, holders included.
    pub fn of(text: &'a [u8], said: &[u8]) -> Result<Story<'a>, String> {
        let unread = "the replay's output could not be read";
        let text = std::str::from_utf8(text).map_err(|_| unread)?;
        let said = std::str::from_utf8(said).map_err(|_| unread)?;
        let records = records::records(text).ok_or(unread)?;
        let answers = records::answers(said).ok_or(unread)?;
        if records.len() != answers.len() {
            return Err(unread.to_string());
        }
        let mut teller = Teller::new(records::has_pins(text.as_bytes()));
        for (record, answer) in records.into_iter().zip(answers) {
            teller.tell(record, answer)?;
        }
        Ok(teller.story)
    }

    pub fn hold(&self, at: HoldAt) -> (&Stay, &Hold) {
        let stay = &self.stays[at.stay];
        (stay, &stay.holds[at.hold])
    }

    /// The accepted vacuums.
    pub fn vacuums(&self) -> impl Iterator<Item = &Step<'a>> {
        self.steps.iter().filter(|step| step.is_vacuum())
    }

    /// Clock and line at the end.
    pub fn end(&self) -> (u64, u64) {
        let last = self.steps.last();
        last.map_or((FRESH, FRESH), |step| (step.clock, step.answer.line))
    }
}
