//! The three runs of words that a call is lent, each with words around it that nobody may touch.

use crate::raw;
use twin::random::Random;
use twin::table::SLOTS;
use twin::trace::{Op, Record};

/// So many words stand before a run, and behind it.
const AROUND: usize = 3;

#[derive(Clone, Debug, PartialEq, Eq)]
struct Run(Vec<u64>);

impl Run {
    fn of(words: &[u64]) -> Run {
        let around = [0xa5a5_a5a5_a5a5_a5a5; AROUND];
        Run([&around, words, &around].concat())
    }

    fn words(&self) -> &[u64] {
        &self.0[AROUND..self.0.len() - AROUND]
    }

    fn words_mut(&mut self) -> &mut [u64] {
        let end = self.0.len() - AROUND;
        &mut self.0[AROUND..end]
    }
}

#[derive(Clone, Debug, PartialEq, Eq)]
pub struct Runs {
    table: Run,
    out: Run,
    ids: Run,
}

impl Runs {
    pub fn of(table: Vec<u64>) -> Runs {
        Runs::with(&table, 8, SLOTS)
    }

    pub fn with(table: &[u64], out: usize, ids: usize) -> Runs {
        Runs {
            table: Run::of(table),
            out: Run::of(&vec![7; out]),
            ids: Run::of(&vec![9; ids]),
        }
    }

    /// Another answer's words, and at times more room than is needed.
    pub fn renew(&mut self, random: &mut Random) {
        let more = |random: &mut Random| random.pick(&[0, 0, 0, 1, 5]);
        let filled = |length: usize, random: &mut Random| {
            let words: Vec<u64> = (0..length as u64)
                .map(|place| place ^ random.draw())
                .collect();
            Run::of(&words)
        };
        self.out = filled(8 + more(random), random);
        if random.once_in(64) {
            self.ids = filled(SLOTS + more(random), random);
        }
    }

    pub fn table(&self) -> &[u64] {
        self.table.words()
    }

    pub fn table_mut(&mut self) -> &mut [u64] {
        self.table.words_mut()
    }

    pub fn out(&self) -> &[u64] {
        self.out.words()
    }

    pub fn out_mut(&mut self) -> &mut [u64] {
        self.out.words_mut()
    }

    pub fn ids_mut(&mut self) -> &mut [u64] {
        self.ids.words_mut()
    }

    /// Makes the call of a record; what is answered.
    pub fn call(&mut self, record: &Record) -> u64 {
        let Record {
            op,
            slot,
            id,
            stamp,
            clock,
            sample,
        } = *record;
        let lent = |run: &mut Run| (run.words_mut().as_mut_ptr(), run.words().len());
        let (table, words) = lent(&mut self.table);
        let (out, room) = lent(&mut self.out);
        let (ids, places) = lent(&mut self.ids);
        // Three runs that live, apart from each other, and that nobody else has during the call.
        unsafe {
            match op {
                Op::Begin => raw::sockhurdle_begin(table, words, stamp, out, room),
                Op::End => raw::sockhurdle_end(table, words, slot, id, out, room),
                Op::Snap => {
                    raw::sockhurdle_snap(table, words, clock, sample, out, room, ids, places)
                }
                Op::Own => raw::sockhurdle_own(
                    table, words, slot, id, clock, sample, out, room, ids, places,
                ),
                Op::Oldest => raw::sockhurdle_oldest(table, words, clock, sample, out, room),
                Op::Vacuum => raw::sockhurdle_vacuum(table, words, clock, sample, out, room),
                Op::Stamp => raw::sockhurdle_stamp(table, words, stamp, out, room),
                Op::Finish => raw::sockhurdle_finish(table, words, slot, id, stamp, out, room),
                Op::Pin => raw::sockhurdle_pin(table, words, clock, sample, out, room, ids, places),
                Op::Unpin => raw::sockhurdle_unpin(table, words, slot, out, room),
            }
        }
    }

    /// Makes the run of the table fresh.
    pub fn fresh(&mut self) -> u64 {
        let words = self.table.words_mut();
        // The words live, and nobody else has them.
        unsafe { raw::sockhurdle_fresh(words.as_mut_ptr(), words.len()) }
    }

    pub fn check(&self) -> u64 {
        let words = self.table.words();
        // The same.
        unsafe { raw::sockhurdle_check(words.as_ptr(), words.len()) }
    }

    pub fn first_difference(&self, expected: &Runs) -> String {
        let pairs = [
            ("table", &self.table, &expected.table),
            ("out", &self.out, &expected.out),
            ("ids", &self.ids, &expected.ids),
        ];
        for (name, said, expected) in pairs {
            let found = said.0.iter().zip(&expected.0).position(|(a, b)| a != b);
            if let Some(place) = found {
                let (said, expected) = (said.0[place], expected.0[place]);
                return format!("{name} has {said} at {place} - {AROUND}, not {expected}");
            }
        }
        "the runs are equal".to_string()
    }
}
