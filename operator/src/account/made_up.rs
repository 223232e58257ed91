//! Traces and outputs that tests make up, with pins before a replay knows them.

use super::story::Story;

/// A trace from records written as `op slot id stamp clock sample`.
pub fn trace(version: &str, records: &[&str]) -> String {
    let mut text = format!("trace={version}\n");
    for record in records {
        let words: Vec<&str> = record.split(' ').collect();
        for (key, word) in ["op", "slot", "id", "stamp", "clock", "sample"]
            .iter()
            .zip(words)
        {
            text.push_str(&format!("{key}={word}\n"));
        }
    }
    text
}

/// An output from answers written as `answer slot id seen xmin xmax vacuum count holder`.
pub fn output(answers: &[&str]) -> String {
    const KEYS: [&str; 9] = [
        "answer", "slot", "id", "seen", "xmin", "xmax", "vacuum", "count", "holder",
    ];
    let mut said = String::new();
    for answer in answers {
        for (key, word) in KEYS.iter().zip(answer.split(' ')) {
            said.push_str(&format!("{key}={word}\n"));
        }
    }
    format!("{said}records={}\n", answers.len())
}

/// A page is registered, a reader pins, and the vacuum is held by the pin, then by the slot, then by nobody.
pub const WITH_PINS: [(&str, &str); 9] = [
    ("begin 0 0 1 0 0", "0 0 1 0 0 0 1 0 0"),
    ("pin 0 0 0 2 2", "0 0 0 0 1 2 1 1 0"),
    ("begin 0 0 2 0 0", "0 1 2 0 0 0 1 0 0"),
    ("finish 0 1 3 0 0", "0 0 3 0 0 0 1 0 0"),
    ("vacuum 0 0 0 6 6", "0 0 0 0 0 0 1 0 2000"),
    ("unpin 0 0 0 0 0", "0 0 0 0 0 0 1 0 0"),
    ("unpin 0 0 0 0 0", "16 0 0 0 0 0 1 0 0"),
    ("vacuum 0 0 0 6 6", "0 0 0 0 0 0 2 0 1"),
    ("vacuum 0 0 0 6 2", "0 0 0 0 0 0 2 0 1"),
];

pub fn with_pins() -> (String, String) {
    let records: Vec<&str> = WITH_PINS.iter().map(|(record, _)| *record).collect();
    let answers: Vec<&str> = WITH_PINS.iter().map(|(_, answer)| *answer).collect();
    (trace("proc-3", &records), output(&answers))
}

pub fn story_of<'a>(text: &'a str, said: &str) -> Story<'a> {
    Story::of(text.as_bytes(), said.as_bytes()).unwrap()
}
