//! The records of a trace and the answers of its replay, as numbers. The text is one that the library accepted and the
//! output is the library's, so what can't be read here is a fault of this program, and no rule is looked at.

/// A call as it was captured.
#[derive(Clone, Debug, PartialEq)]
pub struct Record<'a> {
    pub op: &'a str,
    pub slot: u64,
    pub id: u64,
    pub stamp: u64,
    pub clock: u64,
    pub sample: u64,
}

/// What the replay printed for it (SPEC 10.2); `line` is its `vacuum`.
#[derive(Clone, Debug, Default, PartialEq)]
pub struct Answer {
    pub number: u64,
    pub slot: u64,
    pub id: u64,
    pub seen: u64,
    pub xmin: u64,
    pub xmax: u64,
    pub line: u64,
    pub count: u64,
    pub holder: u64,
}

/// A header that prints no holder, and the one under which the same calls print it.
const SILENT: &[u8] = b"trace=proc-1\n";
const TELLING: &[u8] = b"trace=proc-2\n";

/// The text to be replayed for the holders: itself, but for a first line that would keep them back.
pub fn telling(text: &[u8]) -> Vec<u8> {
    match text.strip_prefix(SILENT) {
        Some(records) => [TELLING, records].concat(),
        None => text.to_vec(),
    }
}

/// Whether a holder's number may be a pin's: the first two headers know none.
pub fn has_pins(text: &[u8]) -> bool {
    !text.starts_with(SILENT) && !text.starts_with(TELLING)
}

pub fn records(text: &str) -> Option<Vec<Record<'_>>> {
    let lines: Vec<&str> = text.lines().skip(1).collect();
    lines.chunks(6).map(record).collect()
}

fn record<'a>(lines: &[&'a str]) -> Option<Record<'a>> {
    let &[op, slot, id, stamp, clock, sample] = lines else {
        return None;
    };
    let number = |line: &str, key: &str| line.strip_prefix(key)?.parse().ok();
    Some(Record {
        op: op.strip_prefix("op=")?,
        slot: number(slot, "slot=")?,
        id: number(id, "id=")?,
        stamp: number(stamp, "stamp=")?,
        clock: number(clock, "clock=")?,
        sample: number(sample, "sample=")?,
    })
}

/// The answers of a whole output, the last line of which counts them; the program's line of the second engine may follow.
pub fn answers(said: &str) -> Option<Vec<Answer>> {
    let mut answers: Vec<Answer> = Vec::new();
    let mut counted = None;
    for line in said.lines() {
        let (key, value) = line.split_once('=')?;
        let value: u64 = value.parse().ok()?;
        match key {
            "answer" => answers.push(Answer {
                number: value,
                ..Answer::default()
            }),
            "records" => counted = Some(value),
            "agree" if counted.is_some() => {}
            // of the ids in flight only their count is told
            "in" => {}
            _ => *answers.last_mut()?.part(key)? = value,
        }
    }
    (counted == Some(answers.len() as u64)).then_some(answers)
}

impl Answer {
    pub fn accepted(&self) -> bool {
        self.number == 0
    }

    /// The number that a line of this key sets.
    fn part(&mut self, key: &str) -> Option<&mut u64> {
        Some(match key {
            "slot" => &mut self.slot,
            "id" => &mut self.id,
            "seen" => &mut self.seen,
            "xmin" => &mut self.xmin,
            "xmax" => &mut self.xmax,
            "vacuum" => &mut self.line,
            "count" => &mut self.count,
            "holder" => &mut self.holder,
            _ => return None,
        })
    }
}

#[cfg(test)]
mod tests {
    use super::*;
    use crate::account::made_up;

    #[test]
    fn a_record_is_six_numbers() {
        let text = made_up::trace("proc-2", &["own 2 3 0 8 7"]);
        let read = records(&text).unwrap();
        assert_eq!(read.len(), 1);
        let own = &read[0];
        assert_eq!((own.op, own.slot, own.id), ("own", 2, 3));
        assert_eq!((own.stamp, own.clock, own.sample), (0, 8, 7));
    }

    #[test]
    fn an_answer_keeps_the_count_and_not_the_list() {
        let said = "answer=0\nslot=0\nid=0\nseen=0\nxmin=3\nxmax=6\nvacuum=1\ncount=2\nholder=0\nin=5\nin=4\nrecords=1\n";
        let read = answers(said).unwrap();
        assert_eq!(read.len(), 1);
        assert_eq!((read[0].xmin, read[0].xmax, read[0].count), (3, 6, 2));
        assert_eq!((read[0].line, read[0].seen), (1, 0));
    }

    #[test]
    fn a_cut_or_strange_output_is_not_taken() {
        assert_eq!(answers("answer=0\nslot=0\n"), None);
        assert_eq!(answers("answer=0\nrecords=2\n"), None);
        assert_eq!(answers("slot=0\nrecords=0\n"), None);
        assert_eq!(answers("answer=0\nother=0\nrecords=1\n"), None);
        assert_eq!(answers("answer=9\nat=1\n"), None);
        assert_eq!(answers("records=0\n"), Some(Vec::new()));
        assert_eq!(answers("records=0\nagree=1\n"), Some(Vec::new()));
        assert_eq!(answers("agree=1\nrecords=0\n"), None);
    }

    #[test]
    fn the_first_header_alone_is_exchanged() {
        assert_eq!(telling(b"trace=proc-1\nop="), b"trace=proc-2\nop=");
        assert_eq!(telling(b"trace=proc-2\nop="), b"trace=proc-2\nop=");
        assert_eq!(telling(b"trace=proc-3\nop="), b"trace=proc-3\nop=");
        assert_eq!(telling(b"trace=proc-12\n"), b"trace=proc-12\n");
    }

    #[test]
    fn pins_come_with_the_third_header() {
        assert!(!has_pins(b"trace=proc-1\n"));
        assert!(!has_pins(b"trace=proc-2\n"));
        assert!(has_pins(b"trace=proc-3\n"));
    }
}
