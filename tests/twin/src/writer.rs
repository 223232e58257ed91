//! Writing a trace from rows of six numbers (op, slot, id, stamp, clock, sample): its own text, or refusal 20 or 12.

use crate::random::Random;
use crate::trace::{self, Op, Version};

pub type Row = [u64; 6];

/// The largest buffer that the program under test has.
pub const ROOM: usize = 65_600;

/// The most rows that the program under test takes.
pub const MOST: usize = 1_600;

/// The op that a number names: 1 to 8, and under the latest header 9 and 10.
fn op_of(version: Version, number: u64) -> Option<Op> {
    let mut numbered = Op::ALL.into_iter().zip(1..);
    let named = numbered.find(|&(_, n)| n == number);
    named.map(|(op, _)| op).filter(|op| version.allows(*op))
}

/// The six lines of a row, or none where no text with this header can express it.
fn record_text(version: Version, row: &Row) -> Option<String> {
    let [op, slot, id, stamp, clock, sample] = *row;
    let op = op_of(version, op)?;
    let mut fields = op.reads().into_iter().zip(&row[1..]);
    if slot > 65_535 || fields.any(|(reads, number)| !reads && *number != 0) {
        return None;
    }
    let name = op.name();
    Some(format!(
        "op={name}\nslot={slot}\nid={id}\nstamp={stamp}\nclock={clock}\nsample={sample}\n"
    ))
}

/// The text of a run of rows for a buffer of `size` bytes, or the number of its refusal.
pub fn write(version: Version, rows: &[Row], size: usize) -> Result<String, u64> {
    let records = rows.iter().map(|row| record_text(version, row));
    let records: Option<Vec<String>> = records.collect();
    let text = format!("{}\n{}", version.header(), records.ok_or(20u64)?.concat());
    if text.len() > trace::LIMIT || text.len() > size {
        return Err(12);
    }
    Ok(text)
}

/// What the program under test has to print: the answer, then the buffer, in which dots stood.
pub fn expected(version: Version, rows: &[Row], size: usize) -> Vec<u8> {
    let (answer, text) = match write(version, rows, size) {
        Ok(text) => (format!("length={}\n", text.len()), text),
        Err(number) => (format!("refused={number}\n"), String::new()),
    };
    let mut printed = answer.into_bytes();
    printed.extend(text.bytes());
    printed.extend(std::iter::repeat_n(b'.', size - text.len()));
    printed
}

/// What the program under test is given: the header's number, the size, how many rows, and the rows.
pub fn input(version: Version, rows: &[Row], size: usize) -> Vec<u8> {
    let header = match version {
        Version::Proc1 => 1,
        Version::Proc2 => 2,
        Version::Proc3 => 3,
    };
    let numbers = [header, size as u64, rows.len() as u64]
        .into_iter()
        .chain(rows.iter().flatten().copied());
    numbers
        .map(|n| format!("n={n}\n"))
        .collect::<String>()
        .into_bytes()
}

/// A number: small, at some border, or any.
fn number(random: &mut Random) -> u64 {
    match random.below(6) {
        0 => random.below(10),
        1 => 10u64.pow(random.below(20) as u32) - random.below(2),
        2 => u64::MAX - random.below(3),
        3 => (1 << random.below(64)) - random.below(2),
        4 => 0,
        _ => random.draw(),
    }
}

/// The number of an op that the header allows; ops are numbered in their order.
fn op_number(version: Version, random: &mut Random) -> u64 {
    let allowed = Op::ALL.into_iter().filter(|op| version.allows(*op));
    random.between(1, allowed.count() as u64)
}

/// A row that a text with this header can express.
fn good_row(version: Version, random: &mut Random) -> Row {
    let number_of_op = op_number(version, random);
    let op = op_of(version, number_of_op).expect("these are ops");
    let [slot, id, stamp, clock, sample] = op
        .reads()
        .map(|reads| if reads { number(random) } else { 0 });
    [number_of_op, slot % 65_536, id, stamp, clock, sample]
}

/// A row that may be bad: one number of a good row is another.
fn any_row(version: Version, random: &mut Random) -> Row {
    let mut row = good_row(version, random);
    let place = random.place(6);
    row[place] = match place {
        0 => random.pick(&[0, 9, 10, 11, u64::MAX, 1, 8]),
        1 => random.pick(&[65_535, 65_536, 1, u64::MAX, 0]),
        _ => number(random),
    };
    row
}

/// A header, rows and a buffer's size, by a seed: most runs good, some with a bad row at some place, some with the ops of
/// a later header, some too long, and buffers around the text's own length.
pub fn generate(seed: u64) -> (Version, Vec<Row>, usize) {
    let mut random = Random::new(seed ^ 0x7772_6974_6572);
    let version = Version::ALL[(seed % 3) as usize];
    let ops = if random.once_in(20) {
        Version::Proc3
    } else {
        version
    };
    let long = random.once_in(8);
    let count = if long {
        random.between(600, MOST as u64)
    } else {
        random.below(30)
    };
    let mut rows: Vec<Row> = (0..count).map(|_| good_row(ops, &mut random)).collect();
    if random.once_in(3) && !rows.is_empty() {
        for _ in 0..random.between(1, 2) {
            let place = random.place(rows.len());
            rows[place] = any_row(ops, &mut random);
        }
    }
    let length = write(version, &rows, usize::MAX).map_or(1_000, |text| text.len());
    let size = match random.below(6) {
        0 => length.saturating_sub(1),
        1 => length,
        2 => length + 1,
        3 => random.place(length + 1),
        4 => random.place(ROOM + 1),
        _ => ROOM,
    };
    (version, rows, size.min(ROOM))
}

/// Runs at the borders, each with its name; every header is put to each of them.
pub fn borders() -> Vec<(&'static str, Vec<Row>, usize)> {
    let least: Row = [2, 0, 0, 0, 0, 0];
    let bad: Row = [2, 0, 0, 1, 0, 0];
    // 1,489 of the least records have 65,529 bytes with the header; seven digits more make 65,536.
    let most = vec![least; 1_489];
    let mut full = most.clone();
    full[0] = [2, 0, 10_000_000, 0, 0, 0];
    let mut over = most.clone();
    over[700] = [2, 0, 100_000_000, 0, 0, 0];
    let mut over_and_bad = over.clone();
    over_and_bad[1_488] = bad;
    let mut pinned_at_the_end = most.clone();
    pinned_at_the_end[1_488] = [9, 0, 0, 0, 1, 1];
    vec![
        ("no rows", vec![], ROOM),
        ("no rows, 13 bytes", vec![], 13),
        ("no rows, 12 bytes", vec![], 12),
        ("no rows, no buffer", vec![], 0),
        ("a bad row, no buffer", vec![bad], 0),
        ("one row, exactly full", vec![least], 57),
        ("one row, one byte short", vec![least], 56),
        ("1,489 rows", most.clone(), ROOM),
        ("1,489 rows, exactly full", most.clone(), 65_529),
        ("1,489 rows, one byte short", most, 65_528),
        ("65,536 bytes", full.clone(), ROOM),
        ("65,536 bytes, exactly full", full.clone(), 65_536),
        ("65,536 bytes, one byte short", full, 65_535),
        ("65,537 bytes", over, ROOM),
        ("65,537 bytes and a bad row at the end", over_and_bad, ROOM),
        ("1,490 rows", vec![least; 1_490], ROOM),
        ("zeros", vec![[0; 6]], ROOM),
        ("slot 65,535", vec![[2, 65_535, 1, 0, 0, 0]], ROOM),
        ("slot 65,536", vec![[2, 65_536, 1, 0, 0, 0]], ROOM),
        ("a pin", vec![[9, 0, 0, 0, 9, 3]], ROOM),
        ("a pin, exactly full", vec![[9, 0, 0, 0, 9, 3]], 57),
        ("a pin, one byte short", vec![[9, 0, 0, 0, 9, 3]], 56),
        ("a pin with a slot", vec![[9, 1, 0, 0, 9, 3]], ROOM),
        ("a pin with an id", vec![[9, 0, 1, 0, 9, 3]], ROOM),
        ("a pin with a stamp", vec![[9, 0, 0, 1, 9, 3]], ROOM),
        ("a release", vec![[10, 63, 0, 0, 0, 0]], ROOM),
        ("a release of 65,535", vec![[10, 65_535, 0, 0, 0, 0]], ROOM),
        ("a release of 65,536", vec![[10, 65_536, 0, 0, 0, 0]], ROOM),
        ("a release with an id", vec![[10, 63, 1, 0, 0, 0]], ROOM),
        ("a release with a clock", vec![[10, 63, 0, 0, 1, 0]], ROOM),
        ("a release with a sample", vec![[10, 63, 0, 0, 0, 1]], ROOM),
        ("op 11", vec![[11, 0, 0, 0, 0, 0]], ROOM),
        ("a pin after 1,488 rows", pinned_at_the_end, ROOM),
        (
            "all at the top",
            vec![[4, 65_535, u64::MAX, 0, u64::MAX, u64::MAX]],
            ROOM,
        ),
    ]
}
