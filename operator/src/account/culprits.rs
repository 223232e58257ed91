//! Who held the line: of each hold that a vacuum named, from which record to which it lasted and how far it kept the line
//! back.

use super::story::{Hold, HoldAt, Holder, Stay, Story};
use std::collections::BTreeMap;

pub struct Culprit<'a> {
    pub stay: &'a Stay,
    pub hold: &'a Hold,
    /// The vacuums that named it.
    pub vacuums: Vec<usize>,
    /// The line that the last of them gave.
    pub line: u64,
    /// The most ids that one of them left: its sample less the line that it gave.
    pub back: u64,
}

impl Culprit<'_> {
    /// The records from its taking to its end, or to the end of the trace.
    pub fn length(&self, records: usize) -> usize {
        self.hold.to.unwrap_or(records) - self.hold.from
    }
}

/// Longest first, then by the ids kept back, then by age.
pub fn culprits<'a>(story: &'a Story) -> Vec<Culprit<'a>> {
    let mut found: BTreeMap<HoldAt, Culprit> = BTreeMap::new();
    for step in story.vacuums() {
        let Holder::Hold(at) = step.holder else {
            continue;
        };
        let (stay, hold) = story.hold(at);
        let culprit = found.entry(at).or_insert(Culprit {
            stay,
            hold,
            vacuums: Vec::new(),
            line: 0,
            back: 0,
        });
        culprit.vacuums.push(step.number);
        culprit.line = step.answer.line;
        let back = step.record.sample.saturating_sub(step.answer.line);
        culprit.back = culprit.back.max(back);
    }
    let mut all: Vec<Culprit> = found.into_values().collect();
    let records = story.steps.len();
    all.sort_by_key(|one| {
        (
            std::cmp::Reverse((one.length(records), one.back)),
            one.hold.from,
        )
    });
    all
}

/// A stretch of records in which the line had one holder: of those that were named and have not let go, the one named last.
#[derive(Debug, PartialEq)]
pub struct Reign {
    pub at: HoldAt,
    pub from: usize,
    pub to: Option<usize>,
}

pub fn reigns(story: &Story) -> Vec<Reign> {
    let mut all: Vec<Reign> = Vec::new();
    let mut holding: Vec<HoldAt> = Vec::new();
    let mut now = None;
    for step in &story.steps {
        holding.retain(|at| story.hold(*at).1.to.is_none_or(|to| to > step.number));
        if let (true, Holder::Hold(at)) = (step.is_vacuum(), step.holder) {
            holding.retain(|one| *one != at);
            holding.push(at);
        }
        let last = holding.last().copied();
        if last == now {
            continue;
        }
        if let Some(former) = all.last_mut().filter(|_| now.is_some()) {
            former.to = Some(step.number);
        }
        now = last;
        all.extend(now.map(|at| Reign {
            at,
            from: step.number,
            to: None,
        }));
    }
    all
}

#[cfg(test)]
mod tests {
    use super::*;
    use crate::account::made_up;
    use crate::account::places::Place;

    #[test]
    fn the_longest_hold_stands_first() {
        let (text, said) = made_up::with_pins();
        let story = made_up::story_of(&text, &said);
        let all: Vec<_> = culprits(&story)
            .into_iter()
            .map(|one| {
                (
                    one.stay.place,
                    one.length(9),
                    one.vacuums,
                    one.line,
                    one.back,
                )
            })
            .collect();
        let expected = [
            (Place::Slot(1), 6, vec![8, 9], 2, 4),
            (Place::Pin(0), 4, vec![5], 1, 5),
        ];
        assert_eq!(all, expected);
    }

    #[test]
    fn a_reign_ends_where_it_is_let_go() {
        let (text, said) = made_up::with_pins();
        let story = made_up::story_of(&text, &said);
        let pin = HoldAt { stay: 1, hold: 0 };
        let slot = HoldAt { stay: 2, hold: 0 };
        let expected = [
            Reign {
                at: pin,
                from: 5,
                to: Some(6),
            },
            Reign {
                at: slot,
                from: 8,
                to: None,
            },
        ];
        assert_eq!(reigns(&story), expected);
    }

    /// Slot 1 is named, then slot 0 takes a snapshot as old and is named in its place, while slot 1 still holds: when slot 0 ends,
    /// it is slot 1 again.
    #[test]
    fn a_reign_ends_where_another_is_named() {
        let text = made_up::trace(
            "proc-2",
            &[
                "begin 0 0 5 0 0",
                "begin 0 0 6 0 0",
                "own 1 6 0 7 3",
                "vacuum 0 0 0 7 7",
                "own 0 5 0 7 3",
                "vacuum 0 0 0 7 7",
                "end 0 5 0 0 0",
            ],
        );
        let said = made_up::output(&[
            "0 0 5 0 0 0 1 0 0",
            "0 1 6 0 0 0 1 0 0",
            "0 0 0 0 3 7 1 2 0",
            "0 0 0 0 0 0 3 0 1",
            "0 0 0 0 3 7 3 2 0",
            "0 0 0 0 0 0 3 0 0",
            "0 0 0 0 0 0 3 0 0",
        ]);
        let story = made_up::story_of(&text, &said);
        let spans: Vec<_> = reigns(&story)
            .iter()
            .map(|one| (one.at.stay, one.from, one.to))
            .collect();
        assert_eq!(spans, [(1, 4, Some(6)), (0, 6, Some(7)), (1, 7, None)]);
    }
}
