//! Coverage of the text: where and how a trace breaks its grammar, and the lengths.

use crate::coverage::Coverage;
use crate::damage_fields::UNREAD_NUMBERS;
use crate::trace::{self, LIMIT, Op, Version};

const KEYS: [&str; 6] = ["op", "slot", "id", "stamp", "clock", "sample"];

/// Headers that are not known, as good as they look.
const OTHER_HEADERS: [&str; 3] = ["trace=proc-0", "trace=proc-4", "trace=proc-12"];

/// How a line looks, and the test for it.
pub type Look = (&'static str, fn(&[u8]) -> bool);

/// Looks that the line reported has to have somewhere.
pub const LOOKS: [Look; 9] = [
    ("a sign", |line| {
        contains(line, b"=+") || contains(line, b"=-")
    }),
    ("a leading zero", leads_with_zero),
    ("a carriage return", |line| line.ends_with(b"\r\n")),
    ("a blank line", |line| line == b"\n"),
    ("a space", |line| line.contains(&b' ')),
    ("a zero byte", |line| line.contains(&0)),
    ("a high byte", |line| line.iter().any(|byte| *byte > 127)),
    ("upper case", |line| line.iter().any(u8::is_ascii_uppercase)),
    ("an empty number", |line| line.ends_with(b"=\n")),
];

pub fn required() -> Vec<String> {
    let mut cells: Vec<String> = [
        "text: at the header",
        "text: empty",
        "text: header alone, accepted",
        "text: unknown op",
        "text: 65,536 bytes, accepted",
        "text: 65,536 bytes, refused",
        "text: 65,537 bytes, at 0",
        "text: far too long, at 0",
        "text: long without header, at 0",
        "text: 1,489 records",
    ]
    .map(String::from)
    .into();
    for version in Version::ALL {
        cells.push(format!("text: {}, accepted", version.header()));
        for op in Op::ALL.into_iter().filter(|op| !version.allows(*op)) {
            cells.push(no_such_op(version, op));
        }
    }
    for header in OTHER_HEADERS {
        cells.push(format!("text: {header}, refused"));
    }
    for key in KEYS {
        cells.push(format!("text: at {key}"));
        cells.push(format!("text: unterminated {key}"));
    }
    for key in &KEYS[1..] {
        cells.push(format!("text: missing {key}"));
        cells.push(format!("text: one too large {key}"));
    }
    for (look, _) in LOOKS {
        cells.push(format!("text: {look}"));
    }
    for op in Op::ALL {
        for key in &KEYS[1..] {
            if !reads(op, key) {
                cells.push(format!("text: {} with unread {key}", op.name()));
            }
        }
    }
    cells
}

/// The cell of a text that has an op of a later version.
fn no_such_op(version: Version, op: Op) -> String {
    format!("text: {}, refused at {}", version.header(), op.name())
}

pub fn count(text: &[u8], coverage: &mut Coverage) {
    match trace::read(text) {
        Ok(trace) => {
            let records = trace.records;
            coverage.hit(&format!("text: {}, accepted", trace.version.header()));
            coverage.hit_if(records.is_empty(), "text: header alone, accepted");
            coverage.hit_if(text.len() == LIMIT, "text: 65,536 bytes, accepted");
            coverage.hit_if(records.len() == 1_489, "text: 1,489 records");
        }
        Err(broken) if broken.line == 0 => {
            let headed = text.starts_with(b"trace=proc-");
            coverage.hit_if(text.len() == LIMIT + 1, "text: 65,537 bytes, at 0");
            coverage.hit_if(text.len() > 2 * LIMIT, "text: far too long, at 0");
            coverage.hit_if(!headed, "text: long without header, at 0");
        }
        Err(broken) => {
            coverage.hit_if(text.len() == LIMIT, "text: 65,536 bytes, refused");
            coverage.hit_if(text.is_empty(), "text: empty");
            count_broken(text, broken.line, coverage);
        }
    }
}

fn count_broken(text: &[u8], number: usize, coverage: &mut Coverage) {
    let lines: Vec<&[u8]> = text.split_inclusive(|&byte| byte == b'\n').collect();
    let line = lines.get(number - 1).copied().unwrap_or_default();
    for (look, fits) in LOOKS {
        coverage.hit_if(fits(line), &format!("text: {look}"));
    }
    if number == 1 {
        coverage.hit("text: at the header");
        for header in OTHER_HEADERS {
            let named = line == format!("{header}\n").as_bytes();
            coverage.hit_if(named, &format!("text: {header}, refused"));
        }
        return;
    }
    let place = (number - 2) % 6;
    let key = KEYS[place];
    coverage.hit(&format!("text: at {key}"));
    if line.is_empty() {
        coverage.hit(&format!("text: missing {key}"));
    } else if !line.ends_with(b"\n") {
        coverage.hit(&format!("text: unterminated {key}"));
    } else if key == "op" {
        coverage.hit_if(line.starts_with(b"op="), "text: unknown op");
        count_later_op(lines[0], line, coverage);
    } else {
        count_field(lines[number - 1 - place], key, line, coverage);
    }
}

/// An op that only a later version has, after one of the first lines.
fn count_later_op(header: &[u8], line: &[u8], coverage: &mut Coverage) {
    for version in Version::ALL {
        let headed = header == format!("{}\n", version.header()).as_bytes();
        for op in Op::ALL.into_iter().filter(|op| !version.allows(*op)) {
            let named = line == format!("op={}\n", op.name()).as_bytes();
            coverage.hit_if(headed && named, &no_such_op(version, op));
        }
    }
}

fn count_field(op_line: &[u8], key: &str, line: &[u8], coverage: &mut Coverage) {
    let first_too_large = if key == "slot" {
        "65536"
    } else {
        "18446744073709551616"
    };
    let too_large = format!("{key}={first_too_large}\n");
    coverage.hit_if(
        line == too_large.as_bytes(),
        &format!("text: one too large {key}"),
    );
    let good_numbers = UNREAD_NUMBERS.map(|number| format!("{key}={number}\n"));
    let good = good_numbers.iter().any(|good| good.as_bytes() == line);
    for op in Op::ALL {
        let named = op_line == format!("op={}\n", op.name()).as_bytes();
        let cell = format!("text: {} with unread {key}", op.name());
        coverage.hit_if(good && named && !reads(op, key), &cell);
    }
}

fn reads(op: Op, key: &str) -> bool {
    let mut fields = KEYS[1..].iter().zip(op.reads());
    fields.any(|(each, reads)| *each == key && reads)
}

fn contains(line: &[u8], part: &[u8]) -> bool {
    line.windows(part.len()).any(|window| window == part)
}

fn leads_with_zero(line: &[u8]) -> bool {
    let mut windows = line.windows(3);
    windows.any(|window| window.starts_with(b"=0") && window[2].is_ascii_digit())
}
