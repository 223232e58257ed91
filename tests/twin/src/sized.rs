//! Texts at the length limit and beyond it.

use crate::damage;
use crate::history::{History, Stride, plain};
use crate::random::Random;
use crate::text;
use crate::trace::{LIMIT, Op, Record, Version};

/// Length of the shortest record: one of an op of three letters, with every number 0.
const SHORTEST: usize = 44;

pub fn long_text(version: Version, random: &mut Random, jumps: bool) -> Vec<u8> {
    let limit = LIMIT as u64;
    let length = match random.below(10) {
        0 => limit,
        1 | 2 => limit + 1,
        3 => random.between(limit - 3, limit + 3),
        4 => random.between(limit + 1, 300_000),
        5 => return short_records(version, random),
        6 => return vec![random.pick(GARBAGE); LIMIT + random.place(2)],
        _ => return spoilt(version, random, jumps),
    };
    padded(version, random, jumps, length as usize)
}

const GARBAGE: &[u8] = b"\n0x=\0\xff";

/// A text as long as allowed, or a byte longer, with something wrong in it.
fn spoilt(version: Version, random: &mut Random, jumps: bool) -> Vec<u8> {
    let mut text = padded(version, random, jumps, LIMIT);
    match random.below(4) {
        0 => return damage::damaged(text, random),
        1 => text[LIMIT - 1] = random.pick(GARBAGE),
        2 => text.push(random.pick(GARBAGE)),
        _ => {
            text[0] = b'T';
            text.push(b'\n');
        }
    }
    text
}

/// As many records as a text can have, or one less.
fn short_records(version: Version, random: &mut Random) -> Vec<u8> {
    let count = 1_489 - random.place(2);
    let mut ops = vec![Op::Own, Op::End, Op::Pin];
    ops.retain(|op| version.allows(*op));
    text::of_records(version, &vec![plain(random.pick(&ops)); count])
}

/// A text with good grammar of exactly `length` bytes.
fn padded(version: Version, random: &mut Random, jumps: bool, length: usize) -> Vec<u8> {
    let own = Random::new(random.draw());
    let mut history = History::new(version, own, Stride::Wide, jumps);
    for _ in 0..random.below(200) {
        let op = history.op(&Op::ALL);
        let faults = history.faults(6);
        let record = history.record(op, faults);
        history.push(record);
    }
    let mut records = history.records;
    let mut rest = length - text::of_records(version, &records).len();
    while rest >= 2 * SHORTEST {
        records.push(plain(Op::Own));
        rest -= SHORTEST;
    }
    records.push(own_of_length(rest));
    text::of_records(version, &records)
}

/// An own record of `length` bytes, from 44 to 87.
fn own_of_length(length: usize) -> Record {
    let mut digits = length - SHORTEST;
    let mut widened = || {
        let more = digits.min(18);
        digits -= more;
        if more == 0 {
            0
        } else {
            10_u64.pow(more as u32)
        }
    };
    plain(Op::Own)
        .with_registration(0, widened())
        .with_clock(widened(), widened())
}
