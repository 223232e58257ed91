//! Questions from a seed: images that are good, damaged in one condition of the table check, short, long and random; lists of
//! every length, whole and torn.

use sockhurdle::{Refusal, SnapshotRef, Txid, check_image};
use twin::random::Random;
use twin::table::{PINS, SLOTS, Table};
use twin::waits::tables;

#[derive(Clone, Debug)]
pub enum Question {
    Check(Vec<u8>),
    Settled {
        xmax: u64,
        list: Vec<u8>,
        id: u64,
    },
    Usable {
        xmax: u64,
        list: Vec<u8>,
        id: u64,
        own: u64,
    },
}

impl Question {
    pub fn bytes(&self) -> &[u8] {
        match self {
            Question::Check(bytes) => bytes,
            Question::Settled { list, .. } | Question::Usable { list, .. } => list,
        }
    }

    /// What the linked library answers where the bytes lie at this place of their memory.
    pub fn asked(&self, place: usize) -> u64 {
        let mut memory = vec![0xa5; place];
        memory.extend_from_slice(self.bytes());
        let bytes = &memory[place..];
        let answer = match self {
            Question::Check(_) => check_image(bytes),
            Question::Settled { xmax, id, .. } => {
                SnapshotRef::of_bytes(*xmax, bytes).settled(Txid(*id))
            }
            Question::Usable { xmax, id, own, .. } => {
                let own = (*own != 0).then_some(Txid(*own));
                SnapshotRef::of_bytes(*xmax, bytes).usable(Txid(*id), own)
            }
        };
        match answer {
            Ok(yes) => yes.into(),
            Err(refusal) => Refusal::number(refusal),
        }
    }
}

/// The numbers of a table in the order of its image.
pub fn numbers(table: &Table) -> Vec<u64> {
    let slots = table.slots().iter();
    let mut all: Vec<u64> = slots
        .flat_map(|slot| [slot.txid, slot.snapshot_xmin])
        .collect();
    all.extend_from_slice(table.pins());
    all.extend([table.clock(), table.sampled_clock(), table.vacuum_line()]);
    all
}

/// Numbers as bytes, written digit by digit.
pub fn bytes(numbers: &[u64]) -> Vec<u8> {
    let mut all = Vec::new();
    for number in numbers {
        let mut rest = *number;
        for _ in 0..8 {
            all.push((rest % 256) as u8);
            rest /= 256;
        }
    }
    all
}

/// The three questions of a seed.
pub fn of(seed: u64) -> [Question; 3] {
    let mut random = Random::new(seed);
    let image = image(&mut random);
    let (xmax, list, id) = list(&mut random);
    let own = match random.below(4) {
        0 => 0,
        1 => id,
        _ => random.pick(&[1, 7, id.wrapping_add(1), xmax, u64::MAX]),
    };
    [
        Question::Check(image),
        Question::Settled {
            xmax,
            list: list.clone(),
            id,
        },
        Question::Usable {
            xmax,
            list,
            id,
            own,
        },
    ]
}

/// The numbers of a table that passes, with some pins taken where it has none: from the line to the clock.
fn pinned(table: &Table, random: &mut Random) -> Vec<u64> {
    let mut all = numbers(table);
    let (line, clock) = (table.vacuum_line(), table.clock());
    if table.pins().iter().all(|xmin| *xmin == 0) && random.once_in(2) {
        for _ in 0..random.pick(&[1, 2, PINS]) {
            all[2 * SLOTS + random.place(PINS)] = random.pick(&[line, clock, line.midpoint(clock)]);
        }
    }
    all
}

/// One pin below the line, or above the clock, where there is room for that; often the last.
fn pin_damaged(mut all: Vec<u64>, table: &Table, random: &mut Random) -> Vec<u64> {
    let (line, clock) = (table.vacuum_line(), table.clock());
    let any = random.place(PINS);
    let pin = random.pick(&[0, PINS - 1, any]);
    let low = random.pick(&[1, line.saturating_sub(1)]);
    let high = random.pick(&[clock.saturating_add(1), u64::MAX]);
    all[2 * SLOTS + pin] = random.pick(&[low, high]);
    all
}

fn image(random: &mut Random) -> Vec<u8> {
    let table = tables::good(random);
    let mut image = bytes(&pinned(&table, random));
    let length = image.len();
    match random.below(18) {
        0..=3 => {}
        4..=9 => image = bytes(&numbers(&tables::damaged(&table, random))),
        16 | 17 => image = bytes(&pin_damaged(numbers(&table), &table, random)),
        10 => {
            let place = random.place(length);
            image[place] ^= 1 << random.below(8);
        }
        11 => {
            let less = random.pick(&[1, 7, 8, 15, 16, 24, 512, length / 2, length]);
            image.truncate(length - less);
        }
        12 => {
            let more = random.pick(&[1, 7, 8, 15, 16, 24, 512, length]);
            image.resize(length + more, random.pick(&[0, 1, 255]));
        }
        13 => image
            .iter_mut()
            .for_each(|byte| *byte = random.draw() as u8),
        14 => image.fill(random.pick(&[0, 1, 255])),
        _ => {
            // all bytes are there, and one place off
            let by = random.pick(&[1, 8, 16]);
            if random.once_in(2) {
                image.rotate_left(by);
            } else {
                image.rotate_right(by);
            }
        }
    }
    image
}

fn list(random: &mut Random) -> (u64, Vec<u8>, u64) {
    let count = match random.below(12) {
        0 => 0,
        1 => 1,
        2 => SLOTS,
        3 => SLOTS - 1,
        4 => SLOTS + 1,
        5 => random.pick(&[2 * SLOTS, 4_000, 65_536]) / if random.once_in(8) { 1 } else { 2 },
        _ => random.place(20),
    };
    let base = random.pick(&[
        0,
        1,
        100,
        250,
        65_530,
        1 << 32,
        (1 << 40) - 5,
        u64::MAX - 40,
    ]);
    // few values, so that ids recur; or many, so that the last of a full list stands nowhere else
    let spread = random.pick(&[64, 64, 1 << 20]);
    let ids: Vec<u64> = (0..count)
        .map(|_| base.saturating_add(random.below(spread)))
        .collect();
    let listed = ids.get(random.place(count.max(1))).copied().unwrap_or(3);
    let last = ids.last().copied().unwrap_or(5);
    let id = match random.below(8) {
        0 => 0,
        1 | 2 => listed,
        3 => last,
        4 => listed.swap_bytes(),
        _ => base.saturating_add(random.below(64)),
    };
    let top = ids.iter().copied().max().unwrap_or(base);
    let xmax = match random.below(6) {
        0 => id,
        1 => random.pick(&[0, 1, u64::MAX]),
        2 => id.saturating_add(1),
        _ => top.saturating_add(random.below(9)),
    };
    let mut list = bytes(&ids);
    if random.once_in(5) {
        let more = random.between(1, 7) as usize;
        if random.once_in(2) && list.len() >= 8 {
            list.truncate(list.len() - more);
        } else {
            list.resize(list.len() + more, random.pick(&[0, 1, 255]));
        }
    }
    (xmax, list, id)
}
