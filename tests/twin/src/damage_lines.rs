//! Damage to bytes and lines, whatever they say.

use crate::random::Random;
use crate::text::lines;

pub fn truncate(text: &mut Vec<u8>, random: &mut Random) {
    let length = random.place(text.len() + 1);
    text.truncate(length);
}

pub fn truncate_at_line(text: &mut Vec<u8>, random: &mut Random) {
    at_a_line(text, random, |list, place| list.truncate(place));
}

pub fn truncate_before_newline(text: &mut Vec<u8>, random: &mut Random) {
    at_a_line(text, random, |list, place| {
        list.truncate(place + 1);
        list[place].pop();
    });
}

const BYTES: &[u8] = b"\n\r \t\0=+-_.,0123456789abcopsx\x7f\x80\xb2\xff";

pub fn change_byte(text: &mut Vec<u8>, random: &mut Random) {
    if !text.is_empty() {
        let place = random.place(text.len());
        text.splice(place..=place, [random.pick(BYTES)]);
    }
}

pub fn insert_byte(text: &mut Vec<u8>, random: &mut Random) {
    let place = random.place(text.len() + 1);
    text.insert(place, random.pick(BYTES));
}

pub fn remove_byte(text: &mut Vec<u8>, random: &mut Random) {
    if !text.is_empty() {
        text.remove(random.place(text.len()));
    }
}

/// Changes the list of lines at a place of its own choice.
pub fn at_a_line(
    text: &mut Vec<u8>,
    random: &mut Random,
    change: impl FnOnce(&mut Vec<Vec<u8>>, usize),
) {
    let mut list = lines(text);
    if !list.is_empty() {
        let place = random.place(list.len());
        change(&mut list, place);
        *text = list.concat();
    }
}

pub fn drop_line(text: &mut Vec<u8>, random: &mut Random) {
    at_a_line(text, random, |list, place| {
        list.remove(place);
    });
}

pub fn double_line(text: &mut Vec<u8>, random: &mut Random) {
    at_a_line(text, random, |list, place| {
        list.insert(place, list[place].clone());
    });
}

pub fn swap_lines(text: &mut Vec<u8>, random: &mut Random) {
    let other = random.draw() as usize;
    at_a_line(text, random, |list, place| {
        let other = if other.is_multiple_of(2) {
            place + 1
        } else {
            other / 2
        };
        let other = other % list.len();
        list.swap(place, other);
    });
}

pub fn insert_blank_line(text: &mut Vec<u8>, random: &mut Random) {
    at_a_line(text, random, |list, place| {
        list.insert(place, b"\n".to_vec())
    });
}

pub fn end_line_in_crlf(text: &mut Vec<u8>, random: &mut Random) {
    at_a_line(text, random, |list, place| {
        let end = list[place].len() - 1;
        list[place].insert(end, b'\r');
    });
}

pub fn end_all_in_crlf(text: &mut Vec<u8>, random: &mut Random) {
    let from = random.place(3);
    let mut list = lines(text);
    for line in list.iter_mut().skip(from) {
        line.insert(line.len() - 1, b'\r');
    }
    *text = list.concat();
}

pub fn drop_last_newline(text: &mut Vec<u8>, _: &mut Random) {
    text.pop();
}

pub fn lone_text(text: &mut Vec<u8>, random: &mut Random) {
    let texts: [&[u8]; 8] = [
        b"",
        b"\n",
        b"\n\n",
        b"\0",
        b"trace=",
        b"trace=proc-1\n",
        b"trace=proc-2\n",
        b"trace=proc-3\n",
    ];
    *text = random.pick(&texts).to_vec();
}

pub fn upper_case(text: &mut Vec<u8>, random: &mut Random) {
    let whole = random.once_in(2);
    at_a_line(text, random, |list, place| {
        let line = &mut list[place];
        let letters = if whole { line.len() } else { 1 };
        line[..letters].make_ascii_uppercase();
    });
}

pub fn trailing_text(text: &mut Vec<u8>, random: &mut Random) {
    let tails: [&[u8]; 9] = [
        b"\n",
        b" ",
        b"\0",
        b"op",
        b"op=end",
        b"op=end\n",
        b"op=end\nslot=0\nid=0\n",
        b"records=1\n",
        b"trace=proc-1\n",
    ];
    text.extend(random.pick(&tails));
}
