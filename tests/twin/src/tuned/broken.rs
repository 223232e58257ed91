//! Which line of a record breaks a rule, SPEC 9.3: asked once, of a record that could not be read.

use super::calls::Header;

/// The keys of a record's lines after the op's, each with its largest number and the ops that read it.
const FIELDS: [(&[u8], u64, &[&[u8]]); 5] = [
    (b"slot=", 65_535, &[b"end", b"own", b"finish", b"unpin"]),
    (b"id=", u64::MAX, &[b"end", b"own", b"finish"]),
    (b"stamp=", u64::MAX, &[b"begin", b"stamp", b"finish"]),
    (b"clock=", u64::MAX, OBSERVING),
    (b"sample=", u64::MAX, OBSERVING),
];

const OBSERVING: &[&[u8]] = &[b"snap", b"own", b"oldest", b"vacuum", b"pin"];

const OPS: [&[u8]; 8] = [
    b"begin", b"end", b"snap", b"own", b"oldest", b"vacuum", b"stamp", b"finish",
];

const OPS_OF_PINS: [&[u8]; 2] = [b"pin", b"unpin"];

/// The first of the lines, from 0, that breaks a rule; `text` starts where a record should, and none stands there.
#[cold]
pub fn line(text: &[u8], header: Header) -> usize {
    let mut lines = text.split_inclusive(|byte| *byte == b'\n');
    let mut next = || lines.next().and_then(|line| line.strip_suffix(b"\n"));
    let known = |op: &&[u8]| OPS.contains(op) || (header.has_pins() && OPS_OF_PINS.contains(op));
    let op = next().and_then(|line| line.strip_prefix(b"op="));
    let Some(op) = op.filter(known) else {
        return 0;
    };
    let breaks = |(key, largest, readers): (&[u8], u64, &[&[u8]])| {
        let value = next().and_then(|line| line.strip_prefix(key));
        let largest = if readers.contains(&op) { largest } else { 0 };
        value
            .and_then(decimal)
            .is_none_or(|number| number > largest)
    };
    let field = FIELDS.into_iter().position(breaks);
    1 + field.expect("what is no record has a line that breaks a rule")
}

/// A number as SPEC 9.1 writes it.
fn decimal(text: &[u8]) -> Option<u64> {
    let digits = str::from_utf8(text).ok()?;
    let number: u64 = digits.parse().ok()?;
    // what is written otherwise than the number's own text has a sign or a leading zero
    (number.to_string() == digits).then_some(number)
}
