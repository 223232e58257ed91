//! A call, its answer and its holder, in words.

use super::records::{Answer, Record};
use super::refusals;
use super::story::{Holder, Stay, Step, Story};

/// The op and the fields that were given, as `own slot=2 id=3 clock=8 sample=8`. Fields that are 0 and not read are not told.
pub fn call(record: &Record) -> String {
    let reads: &[&str] = match record.op {
        "begin" | "stamp" => &["stamp"],
        "end" => &["slot", "id"],
        "snap" | "oldest" | "vacuum" | "pin" => &["clock", "sample"],
        "own" => &["slot", "id", "clock", "sample"],
        "finish" => &["slot", "id", "stamp"],
        "unpin" => &["slot"],
        _ => &["slot", "id", "stamp", "clock", "sample"],
    };
    let mut words = record.op.to_string();
    for field in reads {
        words.push_str(&match *field {
            "slot" => format!(" slot={}", record.slot),
            "id" => format!(" id={}", record.id),
            "stamp" => format!(" stamp={}", record.stamp),
            "clock" => format!(" clock={}", record.clock),
            _ => format!(" sample={}", record.sample),
        });
    }
    words
}

/// What came back, by the numbers that the answer carries.
pub fn answer(op: &str, answer: &Answer) -> String {
    if !answer.accepted() {
        return refused(answer);
    }
    let Answer { slot, id, xmin, .. } = answer;
    match op {
        "begin" => format!("slot {slot}, id {id}"),
        "end" => "ended".to_string(),
        "finish" => format!("finished, stamp {id}"),
        "stamp" => format!("stamp {id}"),
        "snap" | "own" => snapshot(answer),
        "pin" => format!("pin {slot}, {}", snapshot(answer)),
        "unpin" => "released".to_string(),
        "oldest" => format!("xmin {xmin}"),
        "vacuum" => format!("line {}", answer.line),
        _ => "accepted".to_string(),
    }
}

fn snapshot(answer: &Answer) -> String {
    let Answer {
        xmin, xmax, count, ..
    } = answer;
    format!("xmin {xmin}, xmax {xmax}, {count} in flight")
}

fn refused(answer: &Answer) -> String {
    let Answer { slot, id, seen, .. } = answer;
    let name = refusals::name(answer.number);
    match answer.number {
        1 => format!("refused {name}: {id} is used up"),
        2 => format!("refused {name}: slot {slot}"),
        3 if *seen == 0 => format!("refused {name}: slot {slot} is empty, not {id}"),
        3 => format!("refused {name}: slot {slot} holds {seen}, not {id}"),
        15 | 16 => format!("refused {name}: pin {slot}"),
        _ => format!("refused {name}"),
    }
}

/// `slot 2, id 3`, or `pin 3`.
pub fn stay(stay: &Stay) -> String {
    match stay.id {
        Some(id) => format!("{}, id {id}", stay.place),
        None => stay.place.to_string(),
    }
}

/// Whom the record named; a dash where nobody was asked for.
pub fn holder(story: &Story, step: &Step) -> String {
    match step.holder {
        Holder::NotAsked => "-".to_string(),
        Holder::Nobody => "nobody".to_string(),
        Holder::Hold(at) => stay(story.hold(at).0),
    }
}

/// A record in one sentence, as the picture shows it.
pub fn step(story: &Story, step: &Step) -> String {
    let held = match step.holder {
        Holder::NotAsked => String::new(),
        _ => format!(", held by {}", holder(story, step)),
    };
    let (call, answer) = (call(&step.record), answer(step.record.op, &step.answer));
    format!(
        "record {}: {call}: {answer}{held}; clock {}, line {}",
        step.number, step.clock, step.answer.line
    )
}

/// `from record 5 to 13`, or to the end.
pub fn span(from: usize, to: Option<usize>) -> String {
    match to {
        Some(to) => format!("from record {from} to {to}"),
        None => format!("from record {from} to the end"),
    }
}

/// `1 id`, `2 ids`.
pub fn counted(number: u64, what: &str) -> String {
    format!("{number} {what}{}", if number == 1 { "" } else { "s" })
}

#[cfg(test)]
mod tests {
    use super::*;
    use crate::account::made_up;

    fn told(number: usize) -> String {
        let (text, said) = made_up::with_pins();
        let story = made_up::story_of(&text, &said);
        step(&story, &story.steps[number - 1])
    }

    #[test]
    fn records_in_one_sentence() {
        assert_eq!(
            told(1),
            "record 1: begin stamp=1: slot 0, id 1; clock 2, line 1"
        );
        assert_eq!(
            told(2),
            "record 2: pin clock=2 sample=2: pin 0, xmin 1, xmax 2, 1 in flight; clock 2, line 1"
        );
        assert_eq!(
            told(4),
            "record 4: finish slot=0 id=1 stamp=3: finished, stamp 3; clock 4, line 1"
        );
        assert_eq!(
            told(5),
            "record 5: vacuum clock=6 sample=6: line 1, held by pin 0; clock 6, line 1"
        );
        assert_eq!(told(6), "record 6: unpin slot=0: released; clock 6, line 1");
        assert_eq!(
            told(7),
            "record 7: unpin slot=0: refused 16 FreePin: pin 0; clock 6, line 1"
        );
        assert_eq!(
            told(8),
            "record 8: vacuum clock=6 sample=6: line 2, held by slot 1, id 2; clock 6, line 2"
        );
    }

    #[test]
    fn refusals_carry_what_the_answer_has() {
        let refusal = |number, slot, id, seen| {
            let given = Answer {
                number,
                slot,
                id,
                seen,
                ..Answer::default()
            };
            answer("end", &given)
        };
        assert_eq!(
            refusal(1, 0, 400, 0),
            "refused 1 NoFreeSlot: 400 is used up"
        );
        assert_eq!(refusal(2, 300, 0, 0), "refused 2 InvalidSlot: slot 300");
        assert_eq!(
            refusal(3, 0, 2, 1),
            "refused 3 SlotOwnershipMismatch: slot 0 holds 1, not 2"
        );
        assert_eq!(
            refusal(3, 0, 5, 0),
            "refused 3 SlotOwnershipMismatch: slot 0 is empty, not 5"
        );
        assert_eq!(refusal(6, 0, 0, 0), "refused 6 BadReservation");
        assert_eq!(refusal(14, 0, 0, 0), "refused 14 NoFreePin");
    }
}
