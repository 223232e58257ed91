//! Damaged texts: a good trace text with a fault or two put in.

use crate::random::Random;
use crate::{damage_fields as fields, damage_lines as lines};

pub type Damage = fn(&mut Vec<u8>, &mut Random);

/// One named twice comes twice as often.
const KINDS: &[Damage] = &[
    lines::truncate,
    lines::truncate_at_line,
    lines::truncate_at_line,
    lines::truncate_before_newline,
    lines::truncate_before_newline,
    lines::change_byte,
    lines::insert_byte,
    lines::remove_byte,
    lines::drop_line,
    lines::double_line,
    lines::swap_lines,
    lines::insert_blank_line,
    lines::end_line_in_crlf,
    lines::end_all_in_crlf,
    lines::drop_last_newline,
    lines::upper_case,
    lines::trailing_text,
    lines::lone_text,
    fields::other_header,
    fields::other_header,
    fields::known_header,
    fields::known_header,
    fields::other_key,
    fields::unknown_op,
    fields::pin_op,
    fields::spoil_number,
    fields::spoil_number,
    fields::spoil_number,
    fields::spoil_number,
    fields::one_too_large,
    fields::one_too_large,
    fields::far_too_large,
];

pub fn damaged(text: Vec<u8>, random: &mut Random) -> Vec<u8> {
    damaged_by(KINDS, text, random)
}

/// The text with one fault of these kinds, rarely two.
pub fn damaged_by(kinds: &[Damage], mut text: Vec<u8>, random: &mut Random) -> Vec<u8> {
    let faults = if random.once_in(5) { 2 } else { 1 };
    for _ in 0..faults {
        random.pick(kinds)(&mut text, random);
    }
    text
}
