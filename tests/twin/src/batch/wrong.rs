//! Wrong deciders: the comparison has to see each of them.

use super::{Batch, Seen, Version, decide, fault, letters, seen};

/// A decider by its name.
pub type Decider = (&'static str, fn(&Batch) -> Seen);

/// By the rule for one version alone: what is 1, and what is bad.
fn by(batch: &Batch, goes: fn(u64, Version) -> bool, bad: fn(Version) -> Option<u64>) -> Seen {
    let mut run = letters(batch.room);
    if batch.room < batch.versions.len() {
        return Seen {
            answer: (12, 0),
            run,
        };
    }
    let faults = batch.versions.iter().map(|&version| bad(version));
    if let Some((place, number)) = faults.enumerate().find_map(|(i, f)| Some((i, f?))) {
        return Seen {
            answer: (number, place),
            run,
        };
    }
    for (place, &version) in batch.versions.iter().enumerate() {
        run[place] = goes(batch.line, version).into();
    }
    Seen {
        answer: (0, 0),
        run,
    }
}

fn right(line: u64, [_, ender]: Version) -> bool {
    super::goes(line, ender)
}

/// By the place of the refusal that is given instead.
fn refused_at(batch: &Batch, answer: Option<(u64, usize)>) -> Seen {
    let mut told = seen(batch);
    if let (true, Some(answer)) = (matches!(told.answer.0, 4 | 17), answer) {
        told.answer = answer;
    }
    told
}

/// The first version that is bad by this number.
fn first(batch: &Batch, number: u64) -> Option<(u64, usize)> {
    let place = batch
        .versions
        .iter()
        .position(|&v| fault(v) == Some(number))?;
    Some((number, place))
}

/// A refusal after which decisions stand in the run, where they have room: as many as `count` says.
fn writes(batch: &Batch, of: &[u64], count: fn(&Batch, usize) -> usize) -> Seen {
    let mut told = seen(batch);
    let (number, place) = told.answer;
    if of.contains(&number) {
        let written = batch.versions.iter().take(count(batch, place));
        for (byte, &version) in told.run.iter_mut().zip(written) {
            *byte = right(batch.line, version).into();
        }
    }
    told
}

/// The right one first: no batch may tell it from the twin.
pub const RIGHT: Decider = ("the right rules", |b| by(b, right, fault));

pub const ALL: [Decider; 19] = [
    ("the line itself goes", |b| {
        by(b, |line, [_, e]| e != 0 && e <= line, fault)
    }),
    ("what is alive goes", |b| {
        by(b, |line, [_, e]| e < line, fault)
    }),
    ("the maker is held against the line", |b| {
        by(b, |line, [m, e]| e != 0 && m < line, fault)
    }),
    ("what is made below the line and is alive goes", |b| {
        by(
            b,
            |line, [m, e]| right(line, [m, e]) || (e == 0 && m < line),
            fault,
        )
    }),
    ("numbers have a sign", |b| {
        by(b, |line, [_, e]| e != 0 && (e as i64) < line as i64, fault)
    }),
    ("numbers have 32 bits", |b| {
        by(b, |line, [_, e]| e != 0 && (e as u32) < line as u32, fault)
    }),
    ("decisions exchanged", |b| {
        by(b, |line, v| !right(line, v), fault)
    }),
    ("an ender that is its maker is bad", |b| {
        by(b, right, |[m, e]| {
            fault([m, e]).or((e != 0 && e == m).then_some(17))
        })
    }),
    ("what is alive is bad", |b| {
        by(b, right, |[m, e]| fault([m, e]).or((e == 0).then_some(17)))
    }),
    ("maker 0 is 17", |b| by(b, right, |v| fault(v).map(|_| 17))),
    ("maker 0 is no fault", |b| {
        by(b, right, |v| fault(v).filter(|&n| n == 17))
    }),
    ("places count from 1", |b| {
        refused_at(
            b,
            decide(b).err().map(|(number, place)| (number, place + 1)),
        )
    }),
    ("any 17 before any 4", |b| {
        refused_at(b, first(b, 17).or(first(b, 4)))
    }),
    ("any 4 before any 17", |b| {
        refused_at(b, first(b, 4).or(first(b, 17)))
    }),
    ("a bad version before 12", |b| {
        let answer = decide(&Batch {
            room: b.versions.len(),
            ..b.clone()
        })
        .err();
        Seen {
            answer: answer.unwrap_or(seen(b).answer),
            ..seen(b)
        }
    }),
    ("a run exactly as long is 12", |b| {
        let exact = b.room == b.versions.len();
        if exact {
            Seen {
                answer: (12, 0),
                run: letters(b.room),
            }
        } else {
            seen(b)
        }
    }),
    ("writes while it judges", |b| {
        writes(b, &[4, 17], |_, place| place)
    }),
    ("writes what has room", |b| {
        writes(b, &[12], |batch, _| batch.room)
    }),
    ("clears the places past the versions", |b| {
        let mut told = seen(b);
        if told.answer.0 == 0 {
            told.run[b.versions.len()..].fill(0);
        }
        told
    }),
];
