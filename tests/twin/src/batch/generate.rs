//! Batches from a seed, good and bad, and at the borders.

use super::{Batch, Version};
use crate::random::Random;

/// The most versions, and the longest run, that the program under test takes.
pub const MOST: usize = 2_048;

/// A line: small, at some border, or any.
fn any_line(random: &mut Random) -> u64 {
    match random.below(6) {
        0 => random.below(3),
        1 => u64::MAX - random.below(2),
        2 => (1 << random.below(64)) + random.below(2),
        3 => random.draw(),
        _ => random.between(3, 60),
    }
}

/// A number from 1 on near the line, or any.
fn near(random: &mut Random, line: u64) -> u64 {
    let number = match random.below(6) {
        0 => line.saturating_sub(random.below(4)),
        1 => line.saturating_add(random.below(4)),
        2 => random.between(1, line.max(1)),
        3 => random.draw(),
        4 => u64::MAX - random.below(2),
        _ => random.between(1, 60),
    };
    number.max(1)
}

/// A version that is alive, ended by its maker, or ended by a later id: at, before or after the line.
fn good_version(random: &mut Random, line: u64) -> Version {
    let (one, other) = (near(random, line), near(random, line));
    let (maker, later) = (one.min(other), one.max(other));
    let ender = match random.below(5) {
        0 => 0,
        1 => maker,
        2 => line.max(maker),
        _ => later,
    };
    [maker, ender]
}

/// A version with maker 0, or with an ender from 1 to below its maker.
fn bad_version(random: &mut Random, line: u64) -> Version {
    if random.once_in(2) {
        let ender = near(random, line);
        return [0, random.pick(&[0, ender, 1])];
    }
    let maker = near(random, line).max(2);
    let ender = random.between(1, maker - 1);
    [maker, random.pick(&[ender, maker - 1, 1])]
}

/// Two thirds of the batches are good, the others have one to three bad versions; the run is about as long as the batch.
pub fn generate(seed: u64) -> Batch {
    let mut random = Random::new(seed ^ 0x0062_6174_6368);
    let line = any_line(&mut random);
    let count = match random.below(16) {
        0 => MOST as u64 - random.below(2),
        1 => random.below(MOST as u64),
        2 => 0,
        _ => random.below(30),
    };
    let mut versions: Vec<Version> = (0..count)
        .map(|_| good_version(&mut random, line))
        .collect();
    if random.once_in(3) && !versions.is_empty() {
        for _ in 0..random.between(1, 3) {
            let place = random.place(versions.len());
            versions[place] = bad_version(&mut random, line);
        }
    }
    let length = versions.len();
    let room = match random.below(8) {
        0 => length.saturating_sub(1),
        1 => random.place(length + 1),
        2 => 0,
        3 => length + 1,
        4 => length + random.place(40),
        _ => length,
    };
    Batch {
        line,
        versions,
        room: room.min(MOST),
    }
}

/// Batches at the borders, each with its name.
pub fn borders() -> Vec<(&'static str, Batch)> {
    const TOP: u64 = u64::MAX;
    const HALF: u64 = 1 << 63;
    let good = [3, 5];
    let all: [(&'static str, u64, Vec<Version>, usize); 30] = [
        ("no versions, no run", 10, vec![], 0),
        ("no versions", 10, vec![], 3),
        ("alive", 10, vec![[3, 0]], 1),
        ("below the line", 10, vec![[3, 9]], 1),
        ("at the line", 10, vec![[3, 10]], 1),
        ("above the line", 10, vec![[3, 11]], 1),
        ("by its own maker, below", 10, vec![[9, 9]], 1),
        ("by its own maker, at the line", 10, vec![[10, 10]], 1),
        ("line 0", 0, vec![[1, 0], [1, 1]], 2),
        ("line 1", 1, vec![[1, 0], [1, 1]], 2),
        ("line 2", 2, vec![[1, 0], [1, 1]], 2),
        ("the largest line", TOP, vec![[1, TOP - 1], [1, TOP]], 2),
        ("the largest ids", 10, vec![[TOP, TOP], [TOP, 0]], 2),
        ("around 2^63", HALF, vec![[1, HALF - 1], [1, HALF]], 2),
        ("across 2^63", HALF + 1, vec![[1, HALF], [1, 1]], 2),
        ("2^32 above", 5, vec![[1, (1 << 32) + 1]], 1),
        ("maker above the line", 10, vec![[11, 0], [11, 12]], 2),
        ("maker 0, alive", 10, vec![[0, 0]], 1),
        ("maker 0, ended", 10, vec![good, [0, 5]], 2),
        ("one below its maker", 10, vec![good, [5, 4]], 2),
        ("far below its maker", 10, vec![[TOP, 1]], 1),
        ("4, then 17", 10, vec![good, [0, 0], [5, 4]], 3),
        ("17, then 4", 10, vec![good, [5, 4], [0, 0]], 3),
        ("the last is bad", 10, vec![good, good, [0, 1]], 5),
        ("12 before 4", 10, vec![[0, 0], good], 1),
        ("12 before 17", 10, vec![[5, 4], good], 1),
        ("12, all good", 10, vec![good; 4], 3),
        ("12, no run", 10, vec![good], 0),
        ("the most versions", 10, vec![good; MOST], MOST),
        ("one place short", 10, vec![good; MOST], MOST - 1),
    ];
    all.into_iter()
        .map(|(name, line, versions, room)| {
            (
                name,
                Batch {
                    line,
                    versions,
                    room,
                },
            )
        })
        .collect()
}
