//! The traces of the race: close to 64 KiB each, with different work in them, under every header.

use crate::history::{History, Stride, plain};
use crate::random::Random;
use crate::table::{PINS, SLOTS};
use crate::text;
use crate::trace::Version;
use crate::trace::{Op, Record};

pub struct RaceTrace {
    pub name: String,
    pub text: Vec<u8>,
}

/// A kind of trace: its name, and its text under a header.
type Kind = (&'static str, fn(Version) -> Vec<u8>);

const KINDS: &[Kind] = &[
    ("header alone", |version| text::of_records(version, &[])),
    ("shortest records", |version| {
        until_full(version, 0, shortest)
    }),
    ("begin and end", |version| {
        until_full(version, 0, begin_and_end)
    }),
    ("all ops", |version| until_full(version, 0, any_op)),
    ("all ops, wide", wide),
    ("begins refused", |version| {
        until_full(version, SLOTS, begin_again)
    }),
    ("snapshots of 16", |version| {
        until_full(version, 16, snapshots)
    }),
    ("snapshots of every second", every_second),
    ("snapshots of all", |version| {
        until_full(version, SLOTS, snapshots)
    }),
    ("oldest, vacuum", |version| {
        until_full(version, SLOTS / 2, oldest_and_vacuum)
    }),
    ("unreadable at end", unreadable),
];

/// Those that only the header with pins has.
const PINNED: &[Kind] = &[
    ("pins", |version| until_full(version, 16, pinned)),
    ("oldest, vacuum, all pins taken", all_pinned),
];

pub fn all() -> Vec<RaceTrace> {
    let mut all = Vec::new();
    for version in Version::ALL {
        all.extend(KINDS.iter().map(|kind| under(version, *kind)));
    }
    all.extend(PINNED.iter().map(|kind| under(Version::Proc3, *kind)));
    all
}

fn under(version: Version, (name, text): Kind) -> RaceTrace {
    let header = version.header().trim_start_matches("trace=");
    RaceTrace {
        name: format!("{name}, {header}"),
        text: text(version),
    }
}

/// A table with `taken` slots, then records until the text is full.
fn until_full(
    version: Version,
    taken: usize,
    next: impl Fn(&mut History, usize) -> Record,
) -> Vec<u8> {
    let mut history = History::new(version, Random::new(1), Stride::Short, false);
    history.fill(taken);
    extend(&mut history, next);
    history.text()
}

fn extend(history: &mut History, next: impl Fn(&mut History, usize) -> Record) {
    let mut place = 0;
    loop {
        let record = next(history, place);
        if !history.push(record) {
            return;
        }
        place += 1;
    }
}

fn accepted(history: &mut History, op: Op) -> Record {
    history.record(op, Default::default())
}

/// Refused, since id 0 owns nothing.
fn shortest(_: &mut History, _: usize) -> Record {
    plain(Op::Own)
}

fn begin_and_end(history: &mut History, place: usize) -> Record {
    let op = [Op::Begin, Op::End][place % 2];
    accepted(history, op)
}

fn any_op(history: &mut History, _: usize) -> Record {
    let op = history.op(&Op::ALL);
    let faults = history.faults(20);
    history.record(op, faults)
}

fn wide(version: Version) -> Vec<u8> {
    let mut history = History::new(version, Random::new(2), Stride::Wide, false);
    extend(&mut history, any_op);
    history.text()
}

fn begin_again(history: &mut History, _: usize) -> Record {
    accepted(history, Op::Begin)
}

fn snapshots(history: &mut History, place: usize) -> Record {
    let op = [Op::Snap, Op::Own][place % 2];
    accepted(history, op)
}

/// The lower half is filled, and every second slot of it emptied again.
fn every_second(version: Version) -> Vec<u8> {
    let mut history = History::new(version, Random::new(1), Stride::Short, false);
    history.fill(SLOTS / 2);
    for slot in (0..SLOTS / 2).step_by(2) {
        let txid = history.table().slots()[slot].txid;
        history.push(plain(Op::End).with_registration(slot as u16, txid));
    }
    extend(&mut history, snapshots);
    history.text()
}

fn oldest_and_vacuum(history: &mut History, place: usize) -> Record {
    let op = [Op::Oldest, Op::Vacuum][place % 2];
    accepted(history, op)
}

/// Pins are taken until none is free, and then released and taken in turn; after each eight comes a vacuum.
fn pinned(history: &mut History, place: usize) -> Record {
    let (round, turn) = (place / 9, place % 9);
    let op = match turn {
        8 => Op::Vacuum,
        _ if round < PINS / 8 => Op::Pin,
        _ => [Op::Unpin, Op::Pin][turn % 2],
    };
    accepted(history, op)
}

fn all_pinned(version: Version) -> Vec<u8> {
    let mut history = History::new(version, Random::new(1), Stride::Short, false);
    history.fill(SLOTS / 2);
    history.fill_pins(PINS);
    extend(&mut history, oldest_and_vacuum);
    history.text()
}

/// All is read before the last line turns out to be broken.
fn unreadable(version: Version) -> Vec<u8> {
    let mut text = until_full(version, 0, any_op);
    text.pop();
    text
}
