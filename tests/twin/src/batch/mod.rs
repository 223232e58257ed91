//! Which versions of a batch the vacuum may remove (docs/SPEC.md, 17), in plain Rust: the decision, and batches to compare it on.

pub mod cells;
pub mod generate;
pub mod wrong;

/// A maker's id and an ender's, 0 for still alive.
pub type Version = [u64; 2];

/// A line, versions, and the length of the run of decisions.
#[derive(Clone, Debug, PartialEq)]
pub struct Batch {
    pub line: u64,
    pub versions: Vec<Version>,
    pub room: usize,
}

/// A refusal's number, and the place of the bad version, 0 for none.
pub type Refused = (u64, usize);

/// Refusal 4 or 17 of one version.
pub fn fault([maker, ender]: Version) -> Option<u64> {
    match maker {
        0 => Some(4),
        // an ender from 1 to below its maker
        _ if (1..maker).contains(&ender) => Some(17),
        _ => None,
    }
}

/// Whether a version may go: its ender is one of the ids from 1 to below the line.
pub fn goes(line: u64, ender: u64) -> bool {
    (1..line).contains(&ender)
}

/// The decisions of a batch, or its refusal.
pub fn decide(batch: &Batch) -> Result<Vec<u8>, Refused> {
    if batch.room < batch.versions.len() {
        return Err((12, 0));
    }
    let faults = batch.versions.iter().map(|&version| fault(version));
    if let Some((place, number)) = faults.enumerate().find_map(|(i, f)| Some((i, f?))) {
        return Err((number, place));
    }
    let enders = batch.versions.iter().map(|&[_, ender]| ender);
    Ok(enders.map(|ender| goes(batch.line, ender).into()).collect())
}

/// What the run held before: letters in turn.
pub fn letters(room: usize) -> Vec<u8> {
    (b'a'..=b'z').cycle().take(room).collect()
}

/// What is seen of a batch: the answer with its place, and the run afterwards.
#[derive(Clone, Debug, PartialEq)]
pub struct Seen {
    pub answer: Refused,
    pub run: Vec<u8>,
}

pub fn seen(batch: &Batch) -> Seen {
    let mut run = letters(batch.room);
    let answer = match decide(batch) {
        Ok(decisions) => {
            run[..decisions.len()].copy_from_slice(&decisions);
            (0, 0)
        }
        Err(refused) => refused,
    };
    Seen { answer, run }
}

/// What the program under test has to print of it: a decision is a digit.
pub fn printed(seen: &Seen) -> Vec<u8> {
    let (number, place) = seen.answer;
    let mut text = format!("answer={number}\nplace={place}\nrun=").into_bytes();
    text.extend(seen.run.iter().map(|&byte| match byte {
        0 => b'0',
        1 => b'1',
        letter => letter,
    }));
    text.push(b'\n');
    text
}

/// What the program under test is given: the line, the run's length, how many versions, and the versions.
pub fn input(batch: &Batch) -> Vec<u8> {
    let numbers = [batch.line, batch.room as u64, batch.versions.len() as u64]
        .into_iter()
        .chain(batch.versions.iter().flatten().copied());
    numbers
        .map(|n| format!("n={n}\n"))
        .collect::<String>()
        .into_bytes()
}
