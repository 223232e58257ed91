//! Coverage of the two texts of a wait: where and how each breaks its grammar, and the lengths.

use super::events::Kind;
use super::{read, sized};
use crate::cells_of_texts::LOOKS;
use crate::coverage::Coverage;
use crate::damage_fields::UNREAD_NUMBERS;
use crate::table::{PINS, SLOTS};
use crate::text::lines;
use crate::trace::LIMIT;

const KEYS: [&str; 6] = ["event", "slot", "id", "xmin", "clock", "sample"];
const TABLE_KEYS: [&str; 6] = ["txid", "xmin", "pin", "clock", "sample", "line"];

const WHOLE: [&str; 11] = [
    "wait: at the header",
    "wait: empty",
    "wait: a trace's header",
    "wait: unknown kind",
    "wait: 65,536 bytes, accepted",
    "wait: 65,536 bytes, refused",
    "wait: 65,537 bytes, at 0",
    "wait: far too long, at 0",
    "wait: long without header, at 0",
    "wait: 1,424 events",
    "table: at the header",
];

const TAILS: [&str; 2] = ["table: a line too many", "table: far too long"];

pub fn required() -> Vec<String> {
    let mut cells: Vec<String> = [&WHOLE[..], &TAILS]
        .concat()
        .iter()
        .map(|c| c.to_string())
        .collect();
    for key in KEYS {
        cells.push(format!("wait: at {key}"));
        cells.push(format!("wait: unterminated {key}"));
    }
    for key in &KEYS[1..] {
        cells.push(format!("wait: missing {key}"));
        cells.push(format!("wait: one too large {key}"));
    }
    for key in TABLE_KEYS {
        for how in ["at", "missing", "unterminated", "one too large"] {
            cells.push(format!("table: {how} {key}"));
        }
    }
    for (look, _) in LOOKS {
        cells.push(format!("wait: {look}"));
        cells.push(format!("table: {look}"));
    }
    for kind in Kind::ALL {
        let unread = KEYS[1..].iter().zip(kind.reads()).filter(|field| !field.1);
        cells.extend(unread.map(|(key, _)| format!("wait: {} with unread {key}", kind.name())));
    }
    cells
}

pub fn count_wait(text: &[u8], coverage: &mut Coverage) {
    match read::events(text) {
        Ok(events) => {
            coverage.hit_if(text.len() == LIMIT, "wait: 65,536 bytes, accepted");
            coverage.hit_if(events.len() == sized::MOST, "wait: 1,424 events");
        }
        Err(broken) if broken.line == 0 => {
            let headed = text.starts_with(read::WAIT_HEADER.as_bytes());
            coverage.hit_if(text.len() == LIMIT + 1, "wait: 65,537 bytes, at 0");
            coverage.hit_if(text.len() > 2 * LIMIT, "wait: far too long, at 0");
            coverage.hit_if(!headed, "wait: long without header, at 0");
        }
        Err(broken) => {
            coverage.hit_if(text.len() == LIMIT, "wait: 65,536 bytes, refused");
            coverage.hit_if(text.is_empty(), "wait: empty");
            count_broken(text, broken.line, coverage);
        }
    }
}

fn count_broken(text: &[u8], number: usize, coverage: &mut Coverage) {
    let list = lines(text);
    let line = list.get(number - 1).cloned().unwrap_or_default();
    if number == 1 {
        coverage.hit("wait: at the header");
        coverage.hit_if(line == b"trace=proc-1\n", "wait: a trace's header");
        return;
    }
    let place = (number - 2) % 6;
    let key = KEYS[place];
    let named = key == "event" && line.starts_with(b"event=") && line.ends_with(b"\n");
    coverage.hit_if(named, "wait: unknown kind");
    count_line("wait", key, &line, coverage);
    if place > 0 {
        count_unread(&list[number - 1 - place], key, &line, coverage);
    }
}

/// How the line of a key is broken.
fn count_line(text: &str, key: &str, line: &[u8], coverage: &mut Coverage) {
    for (look, fits) in LOOKS {
        coverage.hit_if(fits(line), &format!("{text}: {look}"));
    }
    coverage.hit(&format!("{text}: at {key}"));
    let first_too_large = if key == "slot" {
        "65536"
    } else {
        "18446744073709551616"
    };
    let too_large = format!("{key}={first_too_large}\n");
    if line.is_empty() {
        coverage.hit(&format!("{text}: missing {key}"));
    } else if !line.ends_with(b"\n") {
        coverage.hit(&format!("{text}: unterminated {key}"));
    } else if line == too_large.as_bytes() {
        coverage.hit(&format!("{text}: one too large {key}"));
    }
}

fn count_unread(event: &[u8], key: &str, line: &[u8], coverage: &mut Coverage) {
    let good_numbers = UNREAD_NUMBERS.map(|number| format!("{key}={number}\n"));
    let good = good_numbers.iter().any(|good| good.as_bytes() == line);
    let name = event.strip_prefix(b"event=").unwrap_or_default();
    if let (true, Some(kind)) = (good, Kind::from_name(name.trim_ascii_end())) {
        coverage.hit(&format!("wait: {} with unread {key}", kind.name()));
    }
}

pub fn count_table(text: &[u8], coverage: &mut Coverage) {
    let Err(broken) = read::table(text) else {
        return;
    };
    let list = lines(text);
    let line = list.get(broken.line - 1).cloned().unwrap_or_default();
    let slots_end = 1 + 2 * SLOTS;
    let pins_end = slots_end + PINS;
    match broken.line {
        1 => coverage.hit("table: at the header"),
        number if number > pins_end + 3 => {
            coverage.hit("table: a line too many");
            coverage.hit_if(text.len() > LIMIT, "table: far too long");
        }
        number if number > pins_end => {
            let key = TABLE_KEYS[number - pins_end + 2];
            count_line("table", key, &line, coverage);
        }
        number if number > slots_end => count_line("table", "pin", &line, coverage),
        number => count_line("table", TABLE_KEYS[number % 2], &line, coverage),
    }
}
