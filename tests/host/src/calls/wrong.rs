//! Wrong calls, each made of the right one by a slip: the comparison has to tell every one of them from it.

use crate::plain::Expected;
use crate::runs::Runs;
use twin::table::{PINS, SLOTS};
use twin::trace::{Op, Record};

const CLOCK: usize = 2 * SLOTS + PINS;
const SAMPLE: usize = CLOCK + 1;
const LINE: usize = CLOCK + 2;

/// A call as it was made: the record, the number, and the runs before it.
struct Made<'a> {
    record: &'a Record,
    number: u64,
    before: &'a Runs,
}

impl Made<'_> {
    fn accepted(&self, op: Op) -> bool {
        self.number == 0 && self.record.op == op
    }

    fn slot(&self) -> usize {
        usize::from(self.record.slot)
    }
}

type Slip = fn(&Made, &mut Runs);

#[derive(Clone, Copy)]
pub struct Wrong {
    pub name: &'static str,
    slip: Slip,
}

impl Wrong {
    /// Whether the wrong call leaves other runs than the right one.
    pub fn differs(&self, record: &Record, before: &Runs, expected: &Expected) -> bool {
        let made = Made {
            record,
            number: expected.number,
            before,
        };
        let mut runs = expected.runs.clone();
        (self.slip)(&made, &mut runs);
        runs != expected.runs
    }
}

const fn wrong(name: &'static str, slip: Slip) -> Wrong {
    Wrong { name, slip }
}

fn leave(made: &Made, runs: &mut Runs, place: usize) {
    runs.table_mut()[place] = made.before.table()[place];
}

pub const WRONGS: &[Wrong] = &[
    wrong(
        "the own snapshot stores the id for the xmin",
        |made, runs| {
            if made.accepted(Op::Own) {
                runs.table_mut()[SLOTS + made.slot()] = made.record.id;
            }
        },
    ),
    wrong("the own snapshot stores no xmin", |made, runs| {
        if made.accepted(Op::Own) {
            leave(made, runs, SLOTS + made.slot());
        }
    }),
    wrong("the line is left out", |made, runs| leave(made, runs, LINE)),
    wrong("the line is told before the call", |made, runs| {
        runs.out_mut()[5] = made.before.table()[LINE];
    }),
    wrong("the clock is left out", |made, runs| {
        leave(made, runs, CLOCK)
    }),
    wrong("the sample is left out", |made, runs| {
        leave(made, runs, SAMPLE)
    }),
    wrong("clock and sample are exchanged", |made, runs| {
        if made.number == 0 && made.record.op.reads_clock() {
            runs.table_mut().swap(CLOCK, SAMPLE);
        }
    }),
    wrong("refusal 1 keeps the clock", |made, runs| {
        if made.number == 1 {
            leave(made, runs, CLOCK);
        }
    }),
    wrong("an id is listed past the count", |made, runs| {
        let count = runs.out()[6] as usize;
        if made.number == 0
            && matches!(made.record.op, Op::Snap | Op::Own | Op::Pin)
            && count < SLOTS
        {
            runs.ids_mut()[count] = 0;
        }
    }),
    wrong("a refusal clears the ids", |made, runs| {
        if made.number != 0 {
            runs.ids_mut().fill(0);
        }
    }),
    wrong("a refusal leaves out", |made, runs| {
        if made.number != 0 {
            runs.out_mut().copy_from_slice(made.before.out());
        }
    }),
    wrong("a refusal stores the clock", |made, runs| {
        if made.number == 8 {
            runs.table_mut()[CLOCK] = made.record.clock;
        }
    }),
    wrong("a refused finish ends", |made, runs| {
        if made.record.op == Op::Finish && matches!(made.number, 5 | 6 | 13) {
            runs.table_mut()[made.slot()] = 0;
        }
    }),
    wrong("the end keeps the txid", |made, runs| {
        if made.accepted(Op::End) {
            leave(made, runs, made.slot());
        }
    }),
    wrong("the end keeps the xmin", |made, runs| {
        if made.accepted(Op::End) {
            leave(made, runs, SLOTS + made.slot());
        }
    }),
    wrong("the finish keeps the slot", |made, runs| {
        if made.accepted(Op::Finish) {
            leave(made, runs, made.slot());
        }
    }),
    wrong("the begin stores no xmin", |made, runs| {
        if made.accepted(Op::Begin) {
            let slot = runs.out()[0] as usize;
            runs.table_mut()[SLOTS + slot] = 0;
        }
    }),
    wrong("the pin stores the sample", |made, runs| {
        if made.accepted(Op::Pin) {
            let pin = runs.out()[0] as usize;
            runs.table_mut()[2 * SLOTS + pin] = made.record.sample;
        }
    }),
    wrong(
        "the pinned snapshot is taken for the sample alone",
        |made, runs| {
            if made.accepted(Op::Pin) {
                let (xmin, sample) = (runs.out()[3], made.record.sample);
                runs.out_mut()[3] = xmin.min(sample);
            }
        },
    ),
    wrong("the pin is told as id", |made, runs| {
        if made.accepted(Op::Pin) {
            runs.out_mut().swap(0, 1);
        }
    }),
    wrong("the release keeps the pin", |made, runs| {
        if made.accepted(Op::Unpin) {
            leave(made, runs, 2 * SLOTS + made.slot());
        }
    }),
    wrong("xmin and xmax are exchanged", |_, runs| {
        runs.out_mut().swap(3, 4)
    }),
    wrong("the count is left out", |_, runs| runs.out_mut()[6] = 0),
    wrong("the holder is left out", |_, runs| runs.out_mut()[7] = 0),
    wrong("the txid seen is left out", |_, runs| runs.out_mut()[2] = 0),
    wrong("a ninth word of out is written", |_, runs| {
        if let Some(ninth) = runs.out_mut().get_mut(8) {
            *ninth = 0;
        }
    }),
    wrong("oldest moves the line", |made, runs| {
        if made.accepted(Op::Oldest) {
            let oldest = runs.out()[3];
            let line = &mut runs.table_mut()[LINE];
            *line = oldest.max(*line);
        }
    }),
];
