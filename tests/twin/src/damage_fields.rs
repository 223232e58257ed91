//! Damage to the header, to keys, ops and numbers.

use crate::damage_lines::at_a_line;
use crate::random::Random;
use crate::table::SLOTS;
use crate::text::{HEADER_LENGTH, lines};
use crate::trace::{Op, Version};

pub fn other_header(text: &mut Vec<u8>, random: &mut Random) {
    // One named twice comes twice as often.
    let headers: [&[u8]; 17] = [
        b"trace=proc-4\n",
        b"trace=proc-4\n",
        b"trace=proc-4\n",
        b"trace=proc-0\n",
        b"trace=proc-13\n",
        b"trace=proc-0\n",
        b"trace=proc-01\n",
        b"trace=proc-12\n",
        b"trace=proc-1 \n",
        b" trace=proc-1\n",
        b"trace=proc-1\r\n",
        b"trace=proc-1\0\n",
        b"TRACE=PROC-1\n",
        b"trace=proc-1\ntrace=proc-1\n",
        b"trace=proc-2\ntrace=proc-1\n",
        b"trace\n",
        b"",
    ];
    if text.starts_with(b"trace=proc-") && text.len() >= HEADER_LENGTH {
        text.splice(..HEADER_LENGTH, random.pick(&headers).iter().copied());
    }
}

/// Another of the headers that are known: pins are no ops of the earlier ones.
pub fn known_header(text: &mut Vec<u8>, random: &mut Random) {
    if text.starts_with(b"trace=proc-") && text.len() >= HEADER_LENGTH {
        let header = random.pick(&Version::ALL).header();
        text.splice(..HEADER_LENGTH - 1, header.bytes());
    }
}

pub fn other_key(text: &mut Vec<u8>, random: &mut Random) {
    let keys: [&[u8]; 9] = [
        b"op=0\n",
        b"slot=0\n",
        b"id=0\n",
        b"stamp=0\n",
        b"clock=0\n",
        b"sample=0\n",
        b"slot0\n",
        b"=0\n",
        b"slot==0\n",
    ];
    let key = random.pick(&keys);
    at_a_line(text, random, |list, place| list[place] = key.to_vec());
}

/// Changes an `op` line.
fn at_an_op(text: &mut Vec<u8>, random: &mut Random, line: &[u8]) {
    let mut list = lines(text);
    let records = list.len().saturating_sub(1) / 6;
    if records > 0 {
        let chosen = random.place(records);
        list[chosen * 6 + 1] = line.to_vec();
        *text = list.concat();
    }
}

/// An op that only the latest version has.
pub fn pin_op(text: &mut Vec<u8>, random: &mut Random) {
    let ops: [&[u8]; 2] = [b"op=pin\n", b"op=unpin\n"];
    let op = random.pick(&ops);
    at_an_op(text, random, op);
}

pub fn unknown_op(text: &mut Vec<u8>, random: &mut Random) {
    let ops: [&[u8]; 15] = [
        b"op=pins\n",
        b"op=unpi\n",
        b"op=Pin\n",
        b"op=commit\n",
        b"op=\n",
        b"op=begi\n",
        b"op=begins\n",
        b"op=begin \n",
        b"op= begin\n",
        b"op=Begin\n",
        b"op=END\n",
        b"op=1\n",
        b"op=snap\0\n",
        b"op=snapown\n",
        b"op=op=snap\n",
    ];
    let op = random.pick(&ops);
    at_an_op(text, random, op);
}

/// Changes the value of a numeric field.
fn at_a_number(
    text: &mut Vec<u8>,
    random: &mut Random,
    change: impl FnOnce(&[u8], &[u8]) -> Vec<u8>,
) {
    let mut list = lines(text);
    let fields = list.len().saturating_sub(1) / 6 * 5;
    if fields == 0 {
        return;
    }
    let chosen = random.place(fields);
    change_value(&mut list[chosen / 5 * 6 + chosen % 5 + 2], change);
    *text = list.concat();
}

/// Changes what stands after the line's first `=`, by its key and its value.
pub fn change_value(line: &mut Vec<u8>, change: impl FnOnce(&[u8], &[u8]) -> Vec<u8>) {
    if let Some(equals) = line.iter().position(|&byte| byte == b'=') {
        let value = line[equals + 1..].trim_ascii_end().to_vec();
        let value = change(&line[..equals], &value);
        line.truncate(equals + 1);
        line.extend(value);
        line.push(b'\n');
    }
}

pub fn spoil_number(text: &mut Vec<u8>, random: &mut Random) {
    let spoil = spoiler(random);
    at_a_number(text, random, |_, value| spoil(value));
}

/// Makes a number's text something else.
pub fn spoiler(random: &mut Random) -> impl FnOnce(&[u8]) -> Vec<u8> + use<> {
    // One named twice comes twice as often.
    let befores: [&[u8]; 9] = [b"+", b"+", b"-", b"0", b"00", b" ", b"\t", b"0x", b"="];
    let afters: [&[u8]; 13] = [
        b" ", b"\t", b"\r", b".0", b"e1", b"_0", b"\0", b"\0", b"\xb2", b",000", b"x", b"=", b";",
    ];
    let before = random.pick(&befores);
    let after = random.pick(&afters);
    let way = random.below(5);
    move |value| match way {
        0 | 1 => [before, value].concat(),
        2 | 3 => [value, after].concat(),
        _ => Vec::new(),
    }
}

pub fn one_too_large(text: &mut Vec<u8>, random: &mut Random) {
    at_a_number(text, random, |key, _| match key {
        b"slot" => b"65536".to_vec(),
        _ => b"18446744073709551616".to_vec(),
    });
}

/// Numbers above 2^64, none of them by one.
pub const TOO_LARGE: [&[u8]; 6] = [
    b"18446744073709551617",
    b"18446744073709551625",
    b"36893488147419103232",
    b"99999999999999999999",
    b"184467440737095516150",
    b"340282366920938463463374607431768211456",
];

pub fn far_too_large(text: &mut Vec<u8>, random: &mut Random) {
    let slots: [&[u8]; 4] = [b"65537", b"65791", b"131072", b"4294967296"];
    let number = random.pick(&TOO_LARGE);
    let slot = random.pick(&slots);
    at_a_number(text, random, |key, _| {
        let large = if key == b"slot" { slot } else { number };
        large.to_vec()
    });
}

/// Good numbers, among them the last slot and the last slot number.
pub const UNREAD_NUMBERS: [usize; 4] = [1, 7, SLOTS - 1, 65_535];

/// The text with a good number in a field that its op doesn't read.
pub fn unread_field(text: Vec<u8>, random: &mut Random) -> Vec<u8> {
    let mut list = lines(&text);
    let mut unread = Vec::new();
    for (record, op) in list.iter().skip(1).step_by(6).enumerate() {
        let op = Op::ALL
            .into_iter()
            .find(|each| op[3..].starts_with(each.name().as_bytes()));
        let places = op.map(unread_places).unwrap_or_default();
        unread.extend(places.iter().map(|place| 6 * record + 1 + place));
    }
    if !unread.is_empty() {
        let line = &mut list[random.pick(&unread)];
        line.truncate(line.len() - 2);
        let number = random.pick(&UNREAD_NUMBERS);
        line.extend(format!("{number}\n").bytes());
    }
    list.concat()
}

/// The places, from 1, of the fields that the op doesn't read.
fn unread_places(op: Op) -> Vec<usize> {
    let reads = op.reads();
    (1..=5).filter(|place| !reads[place - 1]).collect()
}
