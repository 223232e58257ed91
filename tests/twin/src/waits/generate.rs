//! Waits from seeds: good ones, and such as have a ground for one refusal or for several.

use super::check::{Owner, Wait};
use super::maker::Maker;
use super::{damage, read, sized, tables};
use crate::random::Random;
use crate::table::{SLOTS, Table};

/// What a wait should be refused for; several may hold at once.
#[derive(Clone, Copy, Default)]
struct Grounds {
    text: bool,
    unread: bool,
    entry: bool,
    owner: bool,
    step: bool,
    long: bool,
}

fn grounds(random: &mut Random) -> Grounds {
    let none = Grounds::default();
    match random.below(20) {
        0..=3 => none,
        4..=8 => Grounds { step: true, ..none },
        9..=11 => Grounds { text: true, ..none },
        12..=13 => Grounds {
            unread: true,
            ..none
        },
        14 => Grounds {
            entry: true,
            ..none
        },
        15 => Grounds {
            owner: true,
            ..none
        },
        16..=18 => Grounds {
            text: random.once_in(3),
            entry: random.once_in(2),
            owner: random.once_in(2),
            step: random.once_in(2),
            ..none
        },
        _ => Grounds {
            long: true,
            owner: random.once_in(8),
            ..none
        },
    }
}

/// The wait of a seed.
pub fn generate(seed: u64) -> Wait {
    let mut random = Random::new(seed ^ 0x7761_6974);
    let grounds = grounds(&mut random);
    let mut entry = tables::good(&mut random);
    if grounds.entry {
        entry = tables::damaged(&entry, &mut random);
    }
    let owner = owner(&entry, grounds.owner, &mut random);
    let text = text(&entry, owner, grounds, &mut random);
    let mut table = read::text_of_table(&entry).into_bytes();
    if random.once_in(7) {
        table = damage::table(table, &mut random);
    }
    Wait { table, owner, text }
}

fn text(entry: &Table, owner: Owner, grounds: Grounds, random: &mut Random) -> Vec<u8> {
    if grounds.long {
        return sized::long_text(entry, owner, random);
    }
    let most = random.pick(&[1, 3, 5, 5, 12, 30]);
    let least = u64::from(grounds.text || grounds.unread || random.once_in(2));
    let (before, after) = (random.between(least, most), random.below(most + 1));
    let again = random.once_in(3);
    let mut maker = Maker::new(entry, owner, random);
    maker.good(before);
    if grounds.step {
        maker.bad();
        maker.good(after);
        if again {
            maker.bad();
        }
    }
    let text = read::text_of_events(&maker.events);
    match grounds {
        Grounds { text: true, .. } => damage::wait(text, random),
        Grounds { unread: true, .. } => damage::unread_field(text, random),
        _ => text,
    }
}

/// Nobody or somebody registered; or a registration that is none.
fn owner(table: &Table, bad: bool, random: &mut Random) -> Owner {
    let slots = table.slots().iter().zip(0..);
    let taken: Vec<(u16, u64)> = slots
        .filter(|(slot, _)| slot.txid != 0)
        .map(|(slot, place)| (place, slot.txid))
        .collect();
    let someone = match taken.first() {
        None => None,
        Some(first) => {
            let any = random.pick(&taken);
            Some(random.pick(&[*first, any, any]))
        }
    };
    if bad {
        return Some(no_owner(someone, &taken, random));
    }
    someone.filter(|_| random.once_in(2))
}

fn no_owner(someone: Owner, taken: &[(u16, u64)], random: &mut Random) -> (u16, u64) {
    let size = SLOTS as u16;
    let anywhere = random.below(SLOTS as u64) as u16;
    let (slot, id) = someone.unwrap_or((anywhere, 5));
    let other = taken.last().map_or(9, |last| last.1);
    match random.below(8) {
        0 => (random.pick(&[size, u16::MAX]), id),
        1 => (size + slot, id),
        2 => (random.pick(&[size, u16::MAX, size + slot]), 0),
        3 => (slot, 0),
        4 => (anywhere, 0),
        5 => (slot, random.pick(&[id.saturating_add(1), id - 1, u64::MAX])),
        6 => (slot, other.max(1)),
        _ => (anywhere, id),
    }
}
