//! Traces from seeds: a profile chosen by the seed says what kind.

use crate::damage;
use crate::damage_fields;
use crate::history::{History, Stride};
use crate::random::Random;
use crate::sized;
use crate::table::{PINS, SLOTS, Table};
use crate::trace::{Op, Version};

/// What is done to the table before the mixed records.
#[derive(Clone, Copy)]
enum Start {
    Fresh,
    /// Some slots filled.
    Some,
    /// All slots filled, but for this many at most.
    Full(u64),
    /// All slots filled and all numbers used up, but for this many at most.
    FullAndUsedUp(u64),
    /// Some slots filled, and all pins, but for this many at most.
    Pinned(u64),
    /// Some slots filled, and of the pins the last ones, this many at most.
    LastPinned(u64),
}

struct Profile {
    start: Start,
    stride: Stride,
    /// Ops are drawn from this list; one named twice comes twice as often.
    ops: &'static [Op],
    /// Each ground for a refusal is added once in so many records.
    faults: u64,
    most_records: u64,
}

const REGISTERING: &[Op] = &[
    Op::Begin,
    Op::Begin,
    Op::Begin,
    Op::End,
    Op::Finish,
    Op::Snap,
    Op::Own,
    Op::Vacuum,
    Op::Pin,
    Op::Unpin,
];

const OBSERVING: &[Op] = &[
    Op::Begin,
    Op::Begin,
    Op::End,
    Op::Snap,
    Op::Own,
    Op::Own,
    Op::Oldest,
    Op::Oldest,
    Op::Vacuum,
    Op::Vacuum,
    Op::Pin,
    Op::Pin,
    Op::Unpin,
];

const PINNING: &[Op] = &[
    Op::Begin,
    Op::End,
    Op::Own,
    Op::Snap,
    Op::Oldest,
    Op::Oldest,
    Op::Vacuum,
    Op::Vacuum,
    Op::Pin,
    Op::Pin,
    Op::Pin,
    Op::Unpin,
    Op::Unpin,
];

const PROFILES: &[Profile] = &[
    profile(Start::Fresh, Stride::Short, &Op::ALL, 12, 120),
    profile(Start::Some, Stride::Wide, &Op::ALL, 12, 60),
    profile(Start::Some, Stride::Last, &Op::ALL, 12, 60),
    profile(Start::Some, Stride::Short, &Op::ALL, 2, 60),
    profile(Start::Some, Stride::Short, OBSERVING, 30, 120),
];

/// These take a begin for each slot, most of the length that a text may have, so that they come once in `FULL_ONCE_IN`.
const FULL: &[Profile] = &[
    profile(Start::Full(2), Stride::Short, REGISTERING, 12, 60),
    profile(Start::FullAndUsedUp(3), Stride::Last, REGISTERING, 3, 30),
];

const FULL_ONCE_IN: u64 = 10;

/// These are for traces that have pins.
const PINS_HELD: &[Profile] = &[
    profile(Start::Pinned(2), Stride::Short, PINNING, 12, 60),
    profile(Start::Pinned(2), Stride::Wide, PINNING, 3, 60),
    profile(Start::Pinned(64), Stride::Short, PINNING, 30, 120),
    profile(Start::LastPinned(2), Stride::Short, PINNING, 30, 30),
    profile(Start::Fresh, Stride::Short, PINNING, 20, 120),
    profile(Start::Some, Stride::Last, PINNING, 12, 60),
];

const fn profile(
    start: Start,
    stride: Stride,
    ops: &'static [Op],
    faults: u64,
    most_records: u64,
) -> Profile {
    Profile {
        start,
        stride,
        ops,
        faults,
        most_records,
    }
}

/// The trace of a seed. Even seeds reserve no number too far above the clock, so that one half of all runs on.
pub fn generate(seed: u64) -> Vec<u8> {
    let mut random = Random::new(seed);
    let jumps = !seed.is_multiple_of(2);
    let version = random.pick(&Version::ALL);
    match random.below(20) {
        0..=9 => {
            let profile = any_profile(version, &mut random);
            history(version, profile, random, jumps).text()
        }
        10..=15 => {
            let text = small_history(version, &mut random, jumps).text();
            damage::damaged(text, &mut random)
        }
        16..=18 => {
            let text = small_history(version, &mut random, jumps).text();
            damage_fields::unread_field(text, &mut random)
        }
        _ => sized::long_text(version, &mut random, jumps),
    }
}

/// A table that calls have led to, of some profile.
pub fn table(random: &mut Random) -> Table {
    let version = Version::Proc3;
    let profile = any_profile(version, random);
    let jumps = random.place(2) == 1;
    let own = Random::new(random.draw());
    let history = history(version, profile, own, jumps);
    history.table().clone()
}

fn any_profile(version: Version, random: &mut Random) -> &'static Profile {
    let pins = version.allows(Op::Pin);
    let profiles = if random.once_in(FULL_ONCE_IN) {
        FULL
    } else if pins && random.once_in(2) {
        PINS_HELD
    } else {
        PROFILES
    };
    &profiles[random.place(profiles.len())]
}

fn history(version: Version, profile: &Profile, random: Random, jumps: bool) -> History {
    let mut history = History::new(version, random, profile.stride, jumps);
    start(&mut history, profile.start);
    let records = history.random.between(1, profile.most_records);
    for _ in 0..records {
        let op = history.op(profile.ops);
        let faults = history.faults(profile.faults);
        let record = history.record(op, faults);
        history.push(record);
    }
    history
}

fn start(history: &mut History, start: Start) {
    match start {
        Start::Fresh => {}
        Start::Some => {
            let count = history.random.place(6);
            history.fill(count);
        }
        Start::Full(room) => {
            let free = history.random.below(room + 1) as usize;
            history.fill(SLOTS - free);
        }
        Start::FullAndUsedUp(left) => {
            history.fill(SLOTS);
            let left = history.random.below(left + 1);
            history.use_up(left);
        }
        Start::Pinned(room) => {
            let slots = history.random.place(6);
            history.fill(slots);
            let free = history.random.below(room + 1) as usize;
            history.fill_pins(PINS - free);
        }
        Start::LastPinned(most) => {
            let slots = history.random.place(3);
            history.fill(slots);
            history.fill_pins(PINS);
            let held = history.random.between(1, most) as usize;
            history.release_pins(PINS - held);
        }
    }
}

/// A few records of every kind, for a text that will be damaged.
fn small_history(version: Version, random: &mut Random, jumps: bool) -> History {
    let own = Random::new(random.draw());
    let mut history = History::new(version, own, Stride::Wide, jumps);
    let records = if random.once_in(20) {
        0
    } else {
        random.between(1, 4)
    };
    for _ in 0..records {
        let op = history.op(&Op::ALL);
        let faults = history.faults(8);
        let record = history.record(op, faults);
        history.push(record);
    }
    history
}
