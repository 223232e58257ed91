//! Waits at the length limit and beyond it.

use super::check::Owner;
use super::events::{Event, Kind};
use super::maker::Maker;
use super::{damage, read};
use crate::random::Random;
use crate::table::Table;
use crate::trace::LIMIT;

/// As many events as a wait can have: ends, of 46 bytes each.
pub const MOST: usize = 1_424;

const GARBAGE: &[u8] = b"\n0x=\0\xff";

pub fn long_text(table: &Table, owner: Owner, random: &mut Random) -> Vec<u8> {
    let limit = LIMIT as u64;
    let length = match random.below(10) {
        0 | 1 => limit,
        2 => limit + 1,
        3 => random.between(limit - 3, limit + 3),
        4 => random.between(limit + 1, 200_000),
        5 => return ends(MOST - random.place(2)),
        6 => return reserved(table, random),
        7 => return vec![random.pick(GARBAGE); LIMIT + random.place(2)],
        _ => return spoilt(table, owner, random),
    };
    padded(table, owner, length as usize, random)
}

fn ends(count: usize) -> Vec<u8> {
    read::text_of_events(&vec![Event::plain(Kind::End); count])
}

/// A text as long as allowed, or a byte longer, with something wrong in it.
fn spoilt(table: &Table, owner: Owner, random: &mut Random) -> Vec<u8> {
    let mut text = padded(table, owner, LIMIT, random);
    match random.below(4) {
        0 => return damage::wait(text, random),
        1 => text[LIMIT - 1] = random.pick(GARBAGE),
        2 => text.push(random.pick(GARBAGE)),
        _ => {
            text[0] = b'W';
            text.push(b'\n');
        }
    }
    text
}

/// Reservations one after the other, as many as fit; the last perhaps a number too late.
fn reserved(table: &Table, random: &mut Random) -> Vec<u8> {
    let mut events = Vec::new();
    let mut length = read::WAIT_HEADER.len();
    for number in table.clock()..=u64::MAX {
        let event = Event::reserve(number);
        length += read::text_of_event(&event).len();
        if length > LIMIT {
            break;
        }
        events.push(event);
    }
    if let (Some(last), true) = (events.last_mut(), random.once_in(2)) {
        last.id -= 1;
    }
    read::text_of_events(&events)
}

/// A text with good grammar of exactly `length` bytes: a few events, then observations of the last clock.
fn padded(table: &Table, owner: Owner, length: usize, random: &mut Random) -> Vec<u8> {
    let (before, bad) = (random.below(6), random.once_in(4));
    let mut maker = Maker::new(table, owner, random);
    maker.good(before);
    if bad {
        maker.bad();
    }
    let mut events = maker.events;
    let least = Event::observe(u64::MAX, 1);
    let shortest = read::text_of_event(&least).len();
    let rest = length - read::text_of_events(&events).len();
    let mut digits = rest % shortest;
    for _ in 0..rest / shortest {
        let more = digits.min(19);
        digits -= more;
        events.push(Event::observe(u64::MAX, 10_u64.pow(more as u32)));
    }
    read::text_of_events(&events)
}
