//! Damaged texts of waits and of tables.

use super::events::Kind;
use super::read::{TABLE_HEADER, WAIT_HEADER};
use crate::damage::{self, Damage};
use crate::random::Random;
use crate::table::PINS;
use crate::text::lines as lines_of;
use crate::{damage_fields as fields, damage_lines as lines};

/// Damage to bytes and lines, whatever they say.
const ANY_TEXT: [Damage; 14] = [
    lines::truncate,
    lines::truncate_at_line,
    lines::truncate_before_newline,
    lines::change_byte,
    lines::insert_byte,
    lines::remove_byte,
    lines::drop_line,
    lines::double_line,
    lines::swap_lines,
    lines::insert_blank_line,
    lines::end_line_in_crlf,
    lines::end_all_in_crlf,
    lines::drop_last_newline,
    lines::upper_case,
];

/// Damage to what a wait says; one named twice comes twice as often.
const WAIT: [Damage; 18] = [
    lines::truncate_at_line,
    lines::truncate_at_line,
    lines::truncate_before_newline,
    lines::truncate_before_newline,
    wait_header,
    wait_header,
    wait_header,
    wait_key,
    unknown_kind,
    trailing_text,
    lone_text,
    fields::spoil_number,
    fields::spoil_number,
    fields::spoil_number,
    fields::spoil_number,
    fields::one_too_large,
    fields::one_too_large,
    fields::far_too_large,
];

/// Damage to what a table says.
const TABLE: [Damage; 12] = [
    table_header,
    table_key,
    table_tail,
    table_tail,
    table_number,
    table_number,
    table_number,
    table_large,
    table_large,
    table_cut,
    table_cut,
    table_cut,
];

pub fn wait(text: Vec<u8>, random: &mut Random) -> Vec<u8> {
    let any = random.once_in(3);
    let kinds = if any { &ANY_TEXT[..] } else { &WAIT };
    damage::damaged_by(kinds, text, random)
}

pub fn table(text: Vec<u8>, random: &mut Random) -> Vec<u8> {
    let any = random.once_in(3);
    let kinds = if any { &ANY_TEXT[..] } else { &TABLE };
    damage::damaged_by(kinds, text, random)
}

fn other_header(text: &mut Vec<u8>, header: &str, others: &[&str], random: &mut Random) {
    if let Some(rest) = text.strip_prefix(header.as_bytes()) {
        *text = [random.pick(others).as_bytes(), rest].concat();
    }
}

fn wait_header(text: &mut Vec<u8>, random: &mut Random) {
    let headers = [
        "trace=proc-1\n",
        "trace=proc-1\n",
        "table=proc-1\n",
        "wait=proc-2\n",
        "wait=proc-0\n",
        "wait=proc-01\n",
        "wait=proc-1 \n",
        " wait=proc-1\n",
        "wait=proc-1\r\n",
        "WAIT=PROC-1\n",
        "\u{feff}wait=proc-1\n",
        "wait=proc-1\nwait=proc-1\n",
        "wait\n",
        "",
    ];
    other_header(text, WAIT_HEADER, &headers, random);
}

fn table_header(text: &mut Vec<u8>, random: &mut Random) {
    let headers = [
        "wait=proc-1\n",
        "trace=proc-1\n",
        "table=proc-2\n",
        "table=proc-1 \n",
        " table=proc-1\n",
        "TABLE=PROC-1\n",
        "table=proc-1\ntable=proc-1\n",
        "",
    ];
    other_header(text, TABLE_HEADER, &headers, random);
}

fn wait_key(text: &mut Vec<u8>, random: &mut Random) {
    let keys = [
        "event=0\n",
        "op=end\n",
        "slot=0\n",
        "id=0\n",
        "xmin=0\n",
        "stamp=0\n",
        "clock=0\n",
        "sample=0\n",
        "slot0\n",
        "=0\n",
        "slot==0\n",
    ];
    let key = random.pick(&keys);
    lines::at_a_line(text, random, |list, place| list[place] = key.into());
}

fn table_key(text: &mut Vec<u8>, random: &mut Random) {
    let keys = [
        "txid=0\n",
        "xmin=0\n",
        "pin=0\n",
        "pins=0\n",
        "clock=1\n",
        "sample=1\n",
        "line=1\n",
        "id=0\n",
        "txid0\n",
    ];
    let key = random.pick(&keys);
    at_an_edge(text, random, |line| *line = key.into());
}

fn unknown_kind(text: &mut Vec<u8>, random: &mut Random) {
    let kinds = [
        "",
        "begin",
        "stamp",
        "snap",
        "finish",
        "vacuum",
        "regist",
        "registers",
        "Register",
        "END",
        "end ",
        " end",
        "horizon\0",
        "ends",
        "endreserve",
        "1",
        "event=end",
    ];
    let mut list = lines_of(text);
    let events = list.len().saturating_sub(1) / 6;
    if events > 0 {
        let line = format!("event={}\n", random.pick(&kinds));
        list[random.place(events) * 6 + 1] = line.into();
        *text = list.concat();
    }
}

fn trailing_text(text: &mut Vec<u8>, random: &mut Random) {
    let tails = [
        "\n",
        " ",
        "\0",
        "event",
        "event=end",
        "event=end\n",
        "event=end\nslot=0\nid=0\n",
        "events=1\n",
        "op=end\n",
        "wait=proc-1\n",
    ];
    text.extend(random.pick(&tails).bytes());
}

fn lone_text(text: &mut Vec<u8>, random: &mut Random) {
    let texts = ["", "\n", "\n\n", "\0", "wait=", "wait=proc-1"];
    *text = random.pick(&texts).into();
}

fn table_tail(text: &mut Vec<u8>, random: &mut Random) {
    let tails = [
        "\n",
        " ",
        "x",
        "txid=0\n",
        "pin=0\n",
        "line=1\n",
        "table=proc-1\n",
    ];
    text.extend(random.pick(&tails).bytes());
    if random.once_in(12) {
        text.extend([b'x'; 70_000]);
    }
}

/// The text up to one of its last lines or a line about the pins, with or without its newline.
fn table_cut(text: &mut Vec<u8>, random: &mut Random) {
    let mut list = lines_of(text);
    let few = random.between(1, 5) as usize;
    let pins = PINS - 1 + random.between(1, 8) as usize;
    let kept = list.len().saturating_sub(random.pick(&[few, few, pins]));
    list.truncate(kept);
    *text = list.concat();
    if random.once_in(2) {
        text.pop();
    }
}

/// Changes a line of the first slots, of the last ones or the first pins, of the last pins or of the counters, sometimes
/// any; never the first line.
fn at_an_edge(text: &mut Vec<u8>, random: &mut Random, change: impl FnOnce(&mut Vec<u8>)) {
    let mut list = lines_of(text);
    let few = list.len().saturating_sub(1).min(5);
    if few == 0 {
        return;
    }
    // Where the pins begin, if the text is whole.
    let pins = list.len().saturating_sub(PINS + 3).max(1);
    let place = match random.below(6) {
        0 => 1 + random.place(few),
        1 => 1 + random.place(list.len() - 1),
        2 => (pins - 2).max(1) + random.place(few),
        _ => list.len() - 1 - random.place(few),
    };
    let place = place.min(list.len() - 1);
    change(&mut list[place]);
    *text = list.concat();
}

fn table_number(text: &mut Vec<u8>, random: &mut Random) {
    let spoil = fields::spoiler(random);
    at_an_edge(text, random, |line| {
        fields::change_value(line, |_, value| spoil(value));
    });
}

fn table_large(text: &mut Vec<u8>, random: &mut Random) {
    let one: &[u8] = b"18446744073709551616";
    let far = random.pick(&fields::TOO_LARGE);
    let number = random.pick(&[one, one, one, far]).to_vec();
    at_an_edge(text, random, |line| {
        fields::change_value(line, |_, _| number);
    });
}

/// The wait's text with a good number in a field that its event doesn't read.
pub fn unread_field(text: Vec<u8>, random: &mut Random) -> Vec<u8> {
    let mut list = lines_of(&text);
    let mut unread = Vec::new();
    for (event, line) in list.iter().skip(1).step_by(6).enumerate() {
        let name = line.strip_prefix(b"event=").unwrap_or_default();
        let reads = Kind::from_name(name.trim_ascii_end()).map(Kind::reads);
        let places = (1..=5).filter(|place| reads.is_some_and(|reads| !reads[place - 1]));
        unread.extend(places.map(|place| 6 * event + 1 + place));
    }
    if !unread.is_empty() {
        let number = random.pick(&fields::UNREAD_NUMBERS);
        let line = &mut list[random.pick(&unread)];
        fields::change_value(line, |_, _| number.to_string().into());
    }
    list.concat()
}
