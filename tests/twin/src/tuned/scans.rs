//! The scans of SPEC 4.2 over the columns, a block of places at a time.

use super::columns::Table;

/// How many places are looked at together.
const BLOCK: usize = 8;

/// What a snapshot says of the active ids before it lists them.
pub struct Tally {
    pub xmin: u64,
    pub xmax: u64,
    pub count: usize,
}

/// The oldest xmin, and who holds it.
pub struct Oldest {
    pub xmin: u64,
    pub holder: u64,
}

const NOBODY: u64 = 65_535;
const FIRST_PIN: u64 = 2_000;

/// The lowest place of a number.
pub fn place_of(column: &[u64], wanted: u64) -> Option<usize> {
    let held = |block: &[u64]| block.contains(&wanted);
    let start = column.chunks(4 * BLOCK).position(held)? * 4 * BLOCK;
    let place = column[start..].iter().position(|number| *number == wanted);
    place.map(|place| start + place)
}

/// xmin, xmax and the number of the active ids for a sample.
pub fn tally(txids: &[u64], sample: u64) -> Tally {
    let mut tally = Tally {
        xmin: sample,
        xmax: sample,
        count: 0,
    };
    each(txids, |txid| {
        tally.xmin = tally.xmin.min(txid);
        // no id is 2^64 - 1: a reservation refuses it
        tally.xmax = tally.xmax.max(txid + 1);
        tally.count += 1;
    });
    tally
}

/// The oldest xmin for a sample, and its holder.
pub fn oldest(table: &Table, sample: u64) -> Oldest {
    let xmin = least(&table.pins, least(&table.xmins, sample));
    let slot = place_of(&table.xmins, xmin).map(|slot| slot as u64);
    let pin = || place_of(&table.pins, xmin).map(|pin| FIRST_PIN + pin as u64);
    Oldest {
        xmin,
        holder: slot.or_else(pin).unwrap_or(NOBODY),
    }
}

/// The least of `most`, which is not 0, and the numbers of a column that are not 0.
fn least(column: &[u64], most: u64) -> u64 {
    // each less 1, so that 0 is above all; in lanes, so that none waits for the one before it
    let mut lanes = [most - 1; 4];
    let (blocks, rest) = column.as_chunks::<BLOCK>();
    for block in blocks {
        if block.iter().fold(0, |all, number| all | number) != 0 {
            for (place, number) in block.iter().enumerate() {
                lanes[place % 4] = lanes[place % 4].min(number.wrapping_sub(1));
            }
        }
    }
    let rest = rest.iter().map(|number| number.wrapping_sub(1));
    1 + rest.chain(lanes).fold(most - 1, u64::min)
}

/// Every number of a column that is not 0, in order. A block of zeros is seen at once.
#[inline(always)]
pub fn each(column: &[u64], mut see: impl FnMut(u64)) {
    let (blocks, rest) = column.as_chunks::<BLOCK>();
    for block in blocks {
        if block.iter().fold(0, |all, number| all | number) != 0 {
            block
                .iter()
                .filter(|number| **number != 0)
                .for_each(|number| see(*number));
        }
    }
    rest.iter()
        .filter(|number| **number != 0)
        .for_each(|number| see(*number));
}
