//! Why a line breaks a rule of its text. Which line it is the library says; nothing here decides whether it breaks.

/// A text of items of six lines: the word and the versions of line 1, what an item is called, its first key, its kinds with
/// the fields that each reads, those of them that one version alone has, and its fourth key.
struct Items {
    text: &'static str,
    versions: &'static [&'static str],
    item: &'static str,
    key: &'static str,
    kinds: &'static [(&'static str, &'static [&'static str])],
    only: &'static [(&'static str, &'static str)],
    fourth: &'static str,
    rules: &'static str,
}

const TRACE: Items = Items {
    text: "trace",
    versions: &["proc-1", "proc-2", "proc-3"],
    item: "record",
    key: "op",
    kinds: &[
        ("begin", &["stamp"]),
        ("end", &["slot", "id"]),
        ("snap", &["clock", "sample"]),
        ("own", &["slot", "id", "clock", "sample"]),
        ("oldest", &["clock", "sample"]),
        ("vacuum", &["clock", "sample"]),
        ("stamp", &["stamp"]),
        ("finish", &["slot", "id", "stamp"]),
        ("pin", &["clock", "sample"]),
        ("unpin", &["slot"]),
    ],
    only: &[("pin", "proc-3"), ("unpin", "proc-3")],
    fourth: "stamp",
    rules: "docs/TRACE.md",
};

const WAIT: Items = Items {
    text: "wait",
    versions: &["proc-1"],
    item: "event",
    key: "event",
    kinds: &[
        ("register", &["slot", "id"]),
        ("end", &["slot"]),
        ("horizon", &["slot", "xmin"]),
        ("reserve", &["id"]),
        ("observe", &["clock", "sample"]),
    ],
    only: &[],
    fourth: "xmin",
    rules: "SPEC 16.1",
};

/// The reason in one sentence; `line` counts from 1, and 0 is a long input.
pub fn of_trace(text: &[u8], line: usize) -> String {
    TRACE.why(text, line)
}

pub fn of_wait(text: &[u8], line: usize) -> String {
    WAIT.why(text, line)
}

/// Of a table, whose slots end before the line `after`.
pub fn of_table(text: &[u8], line: usize, after: usize) -> String {
    if line == after + 3 {
        let found = Line::of(text, line).found;
        return format!(
            "Line {line} is {}, but a table ends with the line before it.",
            quoted(found)
        );
    }
    let key = match line {
        0 | 1 => return first_line(text, "table", &["proc-1"]),
        _ if line >= after => ["clock", "sample", "line"][(line - after).min(2)],
        _ => ["txid", "xmin"][line % 2],
    };
    let expected = if line < after {
        format!("`{key}=` of slot {}", (line - 2) / 2)
    } else {
        format!("`{key}=`")
    };
    Line::of(text, line).why(text, &expected, |found| {
        let reason = number_of(found, key).err();
        reason.unwrap_or_else(|| "it breaks a rule of SPEC 16.4".to_string())
    })
}

/// Why a wait is refused before its first event, by the refusal's number and values.
pub fn of_entry(number: u64, slot: u64, id: u64, seen: u64) -> String {
    match (number, seen) {
        (2, _) => format!("the table has no slot {slot}, which is the owner's"),
        (3, 0) => format!("slot {slot}, which is the owner's, is empty and does not hold {id}"),
        (3, _) => format!("slot {slot}, which is the owner's, holds {seen} and not {id}"),
        (4, _) => "the owner's id is 0".to_string(),
        (21, _) => "the table does not pass the table check (SPEC 6.1)".to_string(),
        _ => format!("by {number} (SPEC 3.1)"),
    }
}

/// Which event of a wait breaks its rule, from 1, and what the rule is (SPEC 16.2).
pub fn of_step(text: &[u8], step: usize) -> String {
    let line = |place| Line::of(text, 6 * step - 4 + place).found;
    let number = |place| {
        value(line(place), WAIT.keys()[place])
            .unwrap_or(b"")
            .escape_ascii()
    };
    let kind = value(line(0), WAIT.key)
        .unwrap_or(b"")
        .escape_ascii()
        .to_string();
    let (event, rule) = match kind.as_str() {
        "register" => (
            format!("register of slot {}, id {}", number(1), number(2)),
            "the table has to have the slot, it has to be empty and not the owner's, and the id fit for reservation",
        ),
        "end" => (
            format!("end of slot {}", number(1)),
            "the table has to have the slot, and it has to be taken and not the owner's",
        ),
        "horizon" => (
            format!("horizon of slot {}, xmin {}", number(1), number(3)),
            "the slot has to be one of the table's, taken and not the owner's, and xmin from 1 to the least active id",
        ),
        "reserve" => (
            format!("reserve of {}", number(2)),
            "the id has to be fit for reservation: at least 1 and the clock, and below 2^64 - 1",
        ),
        _ => (
            format!("observe of clock {}, sample {}", number(4), number(5)),
            "the clock may not fall, and the sample has to be from 1 to it",
        ),
    };
    format!("event {step}, {event}, breaks its rule: {rule}")
}

/// A line of a text.
struct Line<'a> {
    line: usize,
    found: &'a [u8],
    ends: bool,
}

impl Line<'_> {
    fn of(text: &[u8], line: usize) -> Line<'_> {
        let lines: Vec<&[u8]> = text.split(|&byte| byte == b'\n').collect();
        // What follows the last newline is a line only if it is not empty.
        let ends = line < lines.len();
        let found = lines.get(line - 1).copied().unwrap_or(b"");
        Line { line, found, ends }
    }

    /// Why it breaks a rule, where `expected` has to stand; `reason` says it of a line that has its newline.
    fn why(&self, text: &[u8], expected: &str, reason: impl Fn(&[u8]) -> String) -> String {
        let (line, found) = (self.line, self.found);
        if !self.ends && found.is_empty() {
            return if text.is_empty() {
                format!("It is empty: line 1 has to be {expected}.")
            } else {
                format!("It is cut short: line {line} is missing, where {expected} has to stand.")
            };
        }
        let reason = if self.ends {
            reason(found)
        } else {
            "it is cut short, or its newline is missing".to_string()
        };
        format!(
            "Line {line}, where {expected} has to stand, is {}: {reason}.",
            quoted(found)
        )
    }
}

impl Items {
    fn keys(&self) -> [&'static str; 6] {
        [self.key, "slot", "id", self.fourth, "clock", "sample"]
    }

    fn why(&self, text: &[u8], line: usize) -> String {
        if line == 0 {
            return "It is longer than 65,536 bytes.".to_string();
        }
        if line == 1 {
            return first_line(text, self.text, self.versions);
        }
        let place = (line - 2) % 6;
        let key = self.keys()[place];
        let expected = format!("`{key}=` of {} {}", self.item, (line - 2) / 6 + 1);
        Line::of(text, line).why(text, &expected, |found| {
            if place == 0 {
                self.name(found, Line::of(text, 1).found)
            } else {
                self.field(found, key, Line::of(text, line - place).found)
            }
        })
    }

    /// The name of an item under the first line `header`.
    fn name(&self, found: &[u8], header: &[u8]) -> String {
        let Some(name) = value(found, self.key) else {
            return other_key(found, self.key);
        };
        if name.is_empty() {
            return format!("it names no {}", self.key);
        }
        if self
            .kinds
            .iter()
            .any(|(known, _)| name.starts_with(known.as_bytes()) && is_space(&name[known.len()..]))
        {
            return space(name);
        }
        let version = |kind: &[u8]| {
            let mut only = self.only.iter();
            only.find(|(name, _)| name.as_bytes() == kind)
                .map(|(_, version)| format!("{}={version}", self.text))
        };
        if let Some(header) = version(name) {
            return format!("this {} stands under `{header}` alone", self.key);
        }
        let mut names: Vec<&str> = self.kinds.iter().map(|(name, _)| *name).collect();
        names.retain(|name| version(name.as_bytes()).is_none_or(|it| it.as_bytes() == header));
        format!(
            "no {} has this name; they are {}",
            self.key,
            names.join(", ")
        )
    }

    /// A field of the item whose first line is `first`.
    fn field(&self, found: &[u8], key: &str, first: &[u8]) -> String {
        let number = match number_of(found, key) {
            Ok(number) => number,
            Err(reason) => return reason,
        };
        if key == "slot" && number > 65_535 {
            return "a slot is at most 65535".to_string();
        }
        let name = value(first, self.key).unwrap_or(b"");
        if number != 0
            && self
                .kinds
                .iter()
                .any(|(known, reads)| known.as_bytes() == name && !reads.contains(&key))
        {
            return format!("{} reads no {key}, so it has to be 0", name.escape_ascii());
        }
        format!("it breaks a rule of {}", self.rules)
    }
}

/// Line 1 of a text, a word and one of its versions.
fn first_line(text: &[u8], word: &str, versions: &[&str]) -> String {
    let headers: Vec<String> = versions
        .iter()
        .map(|version| format!("{word}={version}"))
        .collect();
    let near = |found: &[u8], right: &[u8]| found.starts_with(right) || found.trim_ascii() == right;
    let expected = match headers.as_slice() {
        [first @ .., last] if !first.is_empty() => format!("`{}` or `{last}`", first.join("`, `")),
        _ => format!("`{}`", headers.join("")),
    };
    Line::of(text, 1).why(text, &expected, |found| {
        let mut rights = headers.iter().map(String::as_bytes);
        if found.starts_with(b"\xef\xbb\xbf") {
            "it begins with a byte order mark".to_string()
        } else if let Some(right) = rights.find(|right| near(found, right)) {
            after(found, right)
        } else if value(found, word).is_some() {
            "no such version is known".to_string()
        } else {
            format!("it is not the first line of a {word}")
        }
    })
}

/// What stands after a key and its `=`.
fn value<'a>(found: &'a [u8], key: &str) -> Option<&'a [u8]> {
    found.strip_prefix(key.as_bytes())?.strip_prefix(b"=")
}

/// The number of a line of this key, or why it has none of 64 bits.
fn number_of(found: &[u8], key: &str) -> Result<u64, String> {
    let Some(value) = value(found, key) else {
        return Err(other_key(found, key));
    };
    let Some(&head) = value.first() else {
        return Err("it has no number".to_string());
    };
    if head == b'+' || head == b'-' {
        return Err("a number has no sign".to_string());
    }
    if let Some(&byte) = value.iter().find(|byte| !byte.is_ascii_digit()) {
        return Err(if is_space(&[byte]) {
            space(value)
        } else {
            format!("{} is no digit", quoted(&[byte]))
        });
    }
    if head == b'0' && value.len() > 1 {
        return Err("a number has no leading zero".to_string());
    }
    let number = value.iter().try_fold(0u64, |sum, digit| {
        sum.checked_mul(10)?.checked_add(u64::from(digit - b'0'))
    });
    number.ok_or_else(|| "a number is at most 18446744073709551615".to_string())
}

/// A line with another key than the one that has to stand there.
fn other_key(found: &[u8], key: &str) -> String {
    if found.is_empty() {
        return "it is empty".to_string();
    }
    if found == b"\r" {
        return "it is empty but for a carriage return".to_string();
    }
    let name = found.split(|&byte| byte == b'=').next().unwrap_or(b"");
    if name == found {
        return "it has no `=`".to_string();
    }
    if name.trim_ascii() == key.as_bytes() {
        return "a key has no space".to_string();
    }
    if name.eq_ignore_ascii_case(key.as_bytes()) {
        return "a key is in lower case".to_string();
    }
    format!("its key is not {key}")
}

/// What stands after a text that would be right without it.
fn after(found: &[u8], right: &[u8]) -> String {
    let rest = found.strip_prefix(right).unwrap_or(found);
    if is_space(rest) || rest.len() == found.len() {
        space(found)
    } else {
        "more stands on the line".to_string()
    }
}

fn is_space(text: &[u8]) -> bool {
    !text.is_empty() && text.iter().all(|byte| matches!(byte, b' ' | b'\t' | b'\r'))
}

fn space(text: &[u8]) -> String {
    if text.ends_with(b"\r") {
        "it ends in a carriage return; a line ends in one newline alone".to_string()
    } else {
        "it has a space".to_string()
    }
}

/// The first 60 bytes of a line, with what can't be printed written as an escape.
fn quoted(text: &[u8]) -> String {
    const MOST: usize = 60;
    let shown = text[..text.len().min(MOST)].escape_ascii();
    format!("`{shown}`{}", if text.len() > MOST { ".." } else { "" })
}
