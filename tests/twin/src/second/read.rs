//! Reading of a text of items of six lines: every line is judged by its number.

use super::Fault;

/// What stands in such a text.
pub struct Grammar {
    /// The first line, one of these, and how many of the items may follow it.
    pub headers: &'static [(&'static str, usize)],
    pub keys: [&'static str; 6],
    /// What an item may be, and which of its five numbers it then reads.
    pub items: &'static [(&'static str, [bool; 5])],
    /// As many items as the length allows.
    pub most: usize,
}

/// The trace's, with the ops in their order.
pub const TRACE: Grammar = Grammar {
    headers: &[
        ("trace=proc-1", 8),
        ("trace=proc-2", 8),
        ("trace=proc-3", 10),
    ],
    keys: ["op=", "slot=", "id=", "stamp=", "clock=", "sample="],
    items: &[
        ("begin", [false, false, true, false, false]),
        ("end", [true, true, false, false, false]),
        ("snap", [false, false, false, true, true]),
        ("own", [true, true, false, true, true]),
        ("oldest", [false, false, false, true, true]),
        ("vacuum", [false, false, false, true, true]),
        ("stamp", [false, false, true, false, false]),
        ("finish", [true, true, true, false, false]),
        ("pin", [false, false, false, true, true]),
        ("unpin", [true, false, false, false, false]),
    ],
    most: 1_489,
};

/// Which item it is, from 0 in the grammar's order, and its five numbers.
#[derive(Clone, Copy)]
pub struct Line6 {
    pub item: usize,
    pub numbers: [u128; 5],
}

/// The complete items, and the line that breaks a rule if one does.
pub fn items(input: &[u8], grammar: &Grammar, fault: Fault) -> (Vec<Line6>, Option<usize>) {
    let mut items = Vec::new();
    let broken = broken_line(input, grammar, fault, &mut items);
    let shift = usize::from(fault.is("lines-from-0"));
    (items, broken.map(|line| line.saturating_sub(shift)))
}

/// How many of the items may follow the first line, without a newline, if it is one.
fn allowed(line: &[u8], grammar: &Grammar, fault: Fault) -> Option<usize> {
    let all = grammar.items.len();
    let named = |(header, _): &&(&str, usize)| line == header.as_bytes();
    let known = grammar.headers.iter().find(named).map(|header| header.1);
    match line {
        b"trace=proc-2" if fault.is("proc-2-refused") => None,
        b"trace=proc-3" if fault.is("proc-3-refused") => None,
        b"trace=proc-4" if fault.is("proc-4-accepted") => Some(all),
        b"trace=proc-1" if fault.is("pins-under-proc-1") => Some(all),
        b"trace=proc-2" if fault.is("pins-under-proc-2") => Some(all),
        b"trace=proc-3" if fault.is("pins-nowhere") => Some(8),
        _ if fault.is("header-unread") => known.or(Some(all)),
        _ => known,
    }
}

fn broken_line(
    input: &[u8],
    grammar: &Grammar,
    fault: Fault,
    items: &mut Vec<Line6>,
) -> Option<usize> {
    if too_long(input, grammar, fault) {
        return Some(0);
    }
    let (lines, rest) = split(input, fault);
    let mut most = 0;
    if let Some(header) = lines.first() {
        let Some(allowed) = allowed(header, grammar, fault) else {
            return Some(1);
        };
        most = allowed;
    }
    let mut item = 0;
    let mut numbers = [0; 5];
    for (place, line) in lines.iter().enumerate().skip(1) {
        let field = (place - 1) % 6;
        if field == 0 {
            match item_of(line, grammar, fault) {
                Some(known) if known < most => item = known,
                _ => return Some(place + 1 + usize::from(fault.is("unknown-op-at-next"))),
            }
            continue;
        }
        match number(line, field, grammar, item, fault) {
            Ok(number) => numbers[field - 1] = number,
            Err(back) => return Some(place + 1 - back),
        }
        if field == 5 {
            items.push(Line6 { item, numbers });
        }
    }
    let none = fault.is("header-alone-refused") && items.is_empty();
    let many = fault.is("most-refused") && items.len() >= grammar.most;
    let ending = ending(lines.len(), rest, fault);
    ending.or((none || many).then_some(lines.len() + 1))
}

fn too_long(input: &[u8], grammar: &Grammar, fault: Fault) -> bool {
    let limit = match fault {
        _ if fault.is("limit-65535") => 65_535,
        _ if fault.is("limit-65537") => 65_537,
        _ => 65_536,
    };
    let headed = |header: &(&str, _)| input.starts_with(format!("{}\n", header.0).as_bytes());
    let header_first = fault.is("limit-after-header") && !grammar.headers.iter().any(headed);
    input.len() > limit && !header_first
}

/// What the end of the text makes of `complete` good lines and an unterminated rest.
fn ending(complete: usize, rest: bool, fault: Fault) -> Option<usize> {
    if rest {
        return Some(complete + 1 + usize::from(fault.is("unterminated-next-line")));
    }
    if complete == 0 && fault.is("empty-accepted") {
        return None;
    }
    let early = usize::from(fault.is("missing-at-last-line") && complete > 0);
    (complete % 6 != 1).then_some(complete + 1 - early)
}

/// The terminated lines, and whether bytes follow them.
pub fn split(input: &[u8], fault: Fault) -> (Vec<Vec<u8>>, bool) {
    let mut lines: Vec<Vec<u8>> = input
        .split(|byte| *byte == b'\n')
        .map(<[u8]>::to_vec)
        .collect();
    let rest = lines.pop().unwrap_or_default();
    let mut unterminated = !rest.is_empty();
    if unterminated && fault.is("unterminated") {
        lines.push(rest);
        unterminated = false;
    }
    for line in &mut lines {
        if fault.is("crlf") && line.ends_with(b"\r") {
            line.pop();
        }
        if fault.is("trailing-space") && line.ends_with(b" ") {
            line.pop();
        }
        if fault.is("upper-case") {
            line.make_ascii_lowercase();
        }
    }
    if fault.is("blank-line-skipped") {
        lines.retain(|line| !line.is_empty());
    }
    (lines, unterminated)
}

fn item_of(line: &[u8], grammar: &Grammar, fault: Fault) -> Option<usize> {
    let given = line.strip_prefix(grammar.keys[0].as_bytes())?;
    let named = |(name, _): &(&str, _)| match fault {
        _ if fault.is("op-prefix") => given.starts_with(name.as_bytes()),
        _ => given == name.as_bytes(),
    };
    grammar.items.iter().position(named)
}

/// The number of the line at `place` in its item; if broken, how far back to report it.
fn number(
    line: &[u8],
    place: usize,
    grammar: &Grammar,
    item: usize,
    fault: Fault,
) -> Result<u128, usize> {
    let key = grammar.keys[place];
    let digits = line.strip_prefix(key.as_bytes()).ok_or(0_usize)?;
    let number = decimal(digits, fault).ok_or(0_usize)?;
    let largest = if place == 1 {
        65_535
    } else {
        u128::from(u64::MAX)
    };
    let number = match fault {
        _ if fault.is("number-wraps") && place > 1 => number & u128::from(u64::MAX),
        _ if fault.is("slot-wraps") && place == 1 => number & 65_535,
        _ => number,
    };
    let unlimited = fault.is("slot-unlimited") && place == 1;
    if number > largest && !unlimited {
        return Err(0);
    }
    let (name, reads) = grammar.items[item];
    let read = reads[place - 1] != (fault == Fault::Field(name, place));
    if number != 0 && !read && !fault.is("unread-ignored") {
        return Err(if fault.is("unread-at-op") { place } else { 0 });
    }
    Ok(number)
}

pub fn decimal(digits: &[u8], fault: Fault) -> Option<u128> {
    let mut text = std::str::from_utf8(digits).ok()?;
    if fault.is("plus-sign") {
        text = text.strip_prefix('+').unwrap_or(text);
    }
    if text.is_empty() && fault.is("empty-is-0") {
        return Some(0);
    }
    let plain = text.chars().all(|digit| digit.is_ascii_digit());
    let leads = text.len() > 1 && text.starts_with('0') && !fault.is("leading-zero");
    if !plain || leads || text.len() > 38 {
        return None;
    }
    text.parse().ok()
}
