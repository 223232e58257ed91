//! Tells a story record by record: which answer takes a place, keeps another xmin there, or gives it up, and where the clock
//! then stands.

use super::places::{self, Place};
use super::records::{Answer, Record};
use super::story::{Hold, HoldAt, Holder, Stay, Step, Story};
use std::collections::BTreeMap;

pub struct Teller<'a> {
    /// Whether a holder may be a pin.
    pins: bool,
    /// The stays that have not ended, by their places.
    open: BTreeMap<Place, usize>,
    pub story: Story<'a>,
}

impl<'a> Teller<'a> {
    pub fn new(pins: bool) -> Teller<'a> {
        Teller {
            pins,
            open: BTreeMap::new(),
            story: Story {
                steps: Vec::new(),
                stays: Vec::new(),
            },
        }
    }

    pub fn tell(&mut self, record: Record<'a>, answer: Answer) -> Result<(), String> {
        let number = self.story.steps.len() + 1;
        if answer.accepted() {
            self.accepted(number, &record, &answer).ok_or_else(|| {
                format!("the answer of record {number} does not fit the ones before it")
            })?;
        }
        let holder = self
            .holder(&record, &answer)
            .ok_or_else(|| format!("record {number} names a holder that is not there"))?;
        let clock = clock_after(self.story.end().0, &record, &answer);
        let retained = self
            .open
            .values()
            .filter_map(|&stay| self.story.stays[stay].holds.last());
        let oldest = retained.map(|hold| hold.xmin).min();
        self.story.steps.push(Step {
            number,
            record,
            answer,
            clock,
            oldest,
            holder,
        });
        Ok(())
    }

    /// What an accepted record took, kept or gave up.
    fn accepted(&mut self, number: usize, record: &Record, answer: &Answer) -> Option<()> {
        match record.op {
            "begin" => self.take(number, Place::Slot(answer.slot), Some(answer.id), answer.id),
            "pin" => self.take(number, Place::Pin(answer.slot), None, answer.xmin),
            "own" => self.keep(number, Place::Slot(record.slot), answer.xmin),
            "end" | "finish" => self.leave(number, Place::Slot(record.slot)),
            "unpin" => self.leave(number, Place::Pin(record.slot)),
            _ => Some(()),
        }
    }

    fn take(&mut self, from: usize, place: Place, id: Option<u64>, xmin: u64) -> Option<()> {
        let to = None;
        let holds = vec![Hold { xmin, from, to }];
        let stay = Stay {
            place,
            id,
            from,
            to,
            holds,
        };
        self.story.stays.push(stay);
        let before = self.open.insert(place, self.story.stays.len() - 1);
        before.is_none().then_some(())
    }

    /// A snapshot with the xmin that is retained already changes nothing.
    fn keep(&mut self, from: usize, place: Place, xmin: u64) -> Option<()> {
        let stay = &mut self.story.stays[*self.open.get(&place)?];
        let last = stay.holds.last_mut()?;
        if last.xmin != xmin {
            last.to = Some(from);
            stay.holds.push(Hold {
                xmin,
                from,
                to: None,
            });
        }
        Some(())
    }

    fn leave(&mut self, number: usize, place: Place) -> Option<()> {
        let stay = &mut self.story.stays[self.open.remove(&place)?];
        stay.to = Some(number);
        stay.holds.last_mut()?.to = Some(number);
        Some(())
    }

    fn holder(&self, record: &Record, answer: &Answer) -> Option<Holder> {
        if !answer.accepted() || !matches!(record.op, "oldest" | "vacuum") {
            return Some(Holder::NotAsked);
        }
        let Some(place) = places::named(answer.holder, self.pins) else {
            return Some(Holder::Nobody);
        };
        let stay = *self.open.get(&place)?;
        let hold = self.story.stays[stay].holds.len() - 1;
        Some(Holder::Hold(HoldAt { stay, hold }))
    }
}

/// The clock goes past a number that was reserved, by refusal 1 too, and to one that was observed (SPEC 4.3, 4.4).
fn clock_after(clock: u64, record: &Record, answer: &Answer) -> u64 {
    match (record.op, answer.number) {
        ("begin" | "stamp" | "finish", 0) | (_, 1) => answer.id.saturating_add(1),
        ("snap" | "own" | "oldest" | "vacuum" | "pin", 0) => record.clock,
        _ => clock,
    }
}

#[cfg(test)]
mod tests {
    use super::*;
    use crate::account::made_up;

    #[test]
    fn pins_are_stays_of_their_own() {
        let (text, said) = made_up::with_pins();
        let story = made_up::story_of(&text, &said);
        let stays: Vec<_> = story
            .stays
            .iter()
            .map(|stay| (stay.place, stay.id, stay.from, stay.to))
            .collect();
        let expected = [
            (Place::Slot(0), Some(1), 1, Some(4)),
            (Place::Pin(0), None, 2, Some(6)),
            (Place::Slot(1), Some(2), 3, None),
        ];
        assert_eq!(stays, expected);
        assert_eq!(story.stays[1].holds[0].xmin, 1);
        assert_eq!(
            story.steps[4].holder,
            Holder::Hold(HoldAt { stay: 1, hold: 0 })
        );
        assert_eq!(story.steps[6].holder, Holder::NotAsked);
        assert_eq!(
            story.steps[7].holder,
            Holder::Hold(HoldAt { stay: 2, hold: 0 })
        );
    }

    #[test]
    fn the_clock_and_the_oldest_follow_the_answers() {
        let (text, said) = made_up::with_pins();
        let story = made_up::story_of(&text, &said);
        let clocks: Vec<u64> = story.steps.iter().map(|step| step.clock).collect();
        assert_eq!(clocks, [2, 2, 3, 4, 6, 6, 6, 6, 6]);
        let oldest: Vec<_> = story.steps.iter().filter_map(|step| step.oldest).collect();
        assert_eq!(oldest, [1, 1, 1, 1, 1, 2, 2, 2, 2]);
        assert_eq!(story.end(), (6, 2));
        assert_eq!(story.vacuums().count(), 3);
    }

    #[test]
    fn a_new_snapshot_is_a_new_hold_only_with_another_xmin() {
        let text = made_up::trace(
            "proc-2",
            &[
                "begin 0 0 5 0 0",
                "own 0 5 0 6 3",
                "own 0 5 0 6 3",
                "end 0 5 0 0 0",
            ],
        );
        let said = made_up::output(&[
            "0 0 5 0 0 0 1 0 0",
            "0 0 0 0 3 6 1 1 0",
            "0 0 0 0 3 6 1 1 0",
            "0 0 0 0 0 0 1 0 0",
        ]);
        let story = made_up::story_of(&text, &said);
        let holds: Vec<_> = story.stays[0]
            .holds
            .iter()
            .map(|hold| (hold.xmin, hold.from, hold.to))
            .collect();
        assert_eq!(holds, [(5, 1, Some(2)), (3, 2, Some(4))]);
        assert_eq!(story.steps[3].oldest, None);
    }

    #[test]
    fn a_refused_call_changes_nothing_but_for_the_number_of_refusal_1() {
        let text = made_up::trace(
            "proc-2",
            &["begin 0 0 9 0 0", "finish 0 9 4 0 0", "begin 0 0 400 0 0"],
        );
        let said = made_up::output(&[
            "0 0 9 0 0 0 1 0 0",
            "6 0 0 0 0 0 1 0 0",
            "1 0 400 0 0 0 1 0 0",
        ]);
        let story = made_up::story_of(&text, &said);
        let clocks: Vec<u64> = story.steps.iter().map(|step| step.clock).collect();
        assert_eq!(clocks, [10, 10, 401]);
        assert_eq!((story.stays.len(), story.stays[0].to), (1, None));
    }

    #[test]
    fn an_output_that_does_not_fit_is_told() {
        let text = made_up::trace("proc-2", &["end 0 9 0 0 0"]);
        let failed = |said: &str| Story::of(text.as_bytes(), said.as_bytes()).err();
        let fits_not = "the answer of record 1 does not fit the ones before it";
        assert_eq!(
            failed(&made_up::output(&["0 0 0 0 0 0 1 0 0"])).as_deref(),
            Some(fits_not)
        );
        assert_eq!(
            failed("records=0\n").as_deref(),
            Some("the replay's output could not be read")
        );
        assert_eq!(
            failed("answer=9\nat=1\n").as_deref(),
            Some("the replay's output could not be read")
        );
    }
}
