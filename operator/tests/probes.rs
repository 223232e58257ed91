//! The story's own numbers against the proved replay. A story follows the answers of a run; here each beginning of a run is
//! replayed with questions at its end, and what the story says of that moment has to be what is answered: where the clock
//! stands, the oldest retained xmin, and who holds it.

use operator::account::culprits;
use operator::account::places::Place;
use operator::account::records;
use operator::account::story::{Step, Story};
use operator::library;
use std::fs;
use std::path::{Path, PathBuf};

const MOST: usize = 65_536;
const TOP: u64 = u64::MAX;
const NOBODY: u64 = 65_535;

#[test]
fn the_story_is_what_the_replay_answers() {
    let mut asked = 0;
    for file in traces() {
        let text = records::telling(&fs::read(&file).unwrap());
        let said = library::replay(&text);
        if said.starts_with(b"answer=9\n") {
            continue;
        }
        let story = Story::of(&text, &said).unwrap();
        for step in &story.steps {
            asked += usize::from(agrees(&text, &story, step, &file));
        }
    }
    assert!(asked > 400, "only {asked} records were asked about");
}

/// While the one whom a vacuum named keeps that xmin, the line stands still (docs/PROMISE.md).
#[test]
fn a_culprit_keeps_the_line_where_it_was() {
    let mut held = 0;
    for file in traces() {
        let text = records::telling(&fs::read(&file).unwrap());
        let Ok(story) = Story::of(&text, &library::replay(&text)) else {
            continue;
        };
        for one in culprits::culprits(&story) {
            let until = one.hold.to.unwrap_or(story.steps.len());
            let during = &story.steps[one.vacuums[0] - 1..until];
            assert!(
                during.iter().all(|step| step.answer.line == one.line),
                "{}",
                file.display()
            );
            held += 1;
        }
    }
    assert!(held >= 10, "only {held} held the line");
}

/// Asks at the end of the records up to this one; false where the questions have no room in a trace.
fn agrees(text: &[u8], story: &Story, step: &Step, file: &Path) -> bool {
    let lines: Vec<&[u8]> = text.split_inclusive(|byte| *byte == b'\n').collect();
    let mut asked = lines[..1 + 6 * step.number].concat();
    // Refused, as the clock is higher; accepted, as it is no higher; then the oldest that no sample hides.
    asked.extend(question("snap", step.clock - 1, 1));
    asked.extend(question("snap", step.clock, 1));
    asked.extend(question("oldest", TOP, TOP));
    if asked.len() > MOST {
        return false;
    }
    let said = String::from_utf8(library::replay(&asked)).unwrap();
    let answers = records::answers(&said).unwrap();
    let [.., low, right, oldest] = answers.as_slice() else {
        panic!("no answers");
    };
    let found = (
        low.number,
        right.number,
        oldest.number,
        oldest.xmin,
        oldest.holder,
    );
    let told = (7, 0, 0, step.oldest.unwrap_or(TOP), holder(story, step));
    assert_eq!(told, found, "{}, record {}", file.display(), step.number);
    true
}

/// The holder's number for the lowest place that retains the oldest xmin after a record, slots before pins.
fn holder(story: &Story, step: &Step) -> u64 {
    let after = |from: usize, to: Option<usize>| {
        from <= step.number && to.is_none_or(|to| to > step.number)
    };
    let open = story.stays.iter().filter(|stay| {
        let hold = stay.holds.iter().find(|hold| after(hold.from, hold.to));
        hold.is_some_and(|hold| Some(hold.xmin) == step.oldest)
    });
    match open.map(|stay| stay.place).min() {
        None => NOBODY,
        Some(Place::Slot(number)) => number,
        Some(Place::Pin(number)) => 2_000 + number,
    }
}

fn question(op: &str, clock: u64, sample: u64) -> Vec<u8> {
    format!("op={op}\nslot=0\nid=0\nstamp=0\nclock={clock}\nsample={sample}\n").into_bytes()
}

/// The examples and the stored cases.
fn traces() -> Vec<PathBuf> {
    let root = Path::new(env!("CARGO_MANIFEST_DIR")).join("..");
    let mut folders = vec![root.join("examples"), root.join("tests/cases")];
    let mut found = Vec::new();
    while let Some(folder) = folders.pop() {
        for entry in fs::read_dir(folder).unwrap() {
            let path = entry.unwrap().path();
            if path.is_dir() {
                folders.push(path);
            } else if path.extension().is_some_and(|end| end == "trace") {
                found.push(path);
            }
        }
    }
    found
}
