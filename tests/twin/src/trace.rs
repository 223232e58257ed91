//! Reading a trace: the whole text becomes records, or the line that breaks a rule.

/// The longest input that is read.
pub const LIMIT: usize = 65_536;

/// What the first line says: which ops there are, and which lines a record prints.
#[derive(Clone, Copy, Debug, PartialEq, Eq)]
pub enum Version {
    Proc1,
    Proc2,
    Proc3,
}

impl Version {
    pub const ALL: [Version; 3] = [Version::Proc1, Version::Proc2, Version::Proc3];

    /// The first line, without its newline.
    pub fn header(self) -> &'static str {
        match self {
            Version::Proc1 => "trace=proc-1",
            Version::Proc2 => "trace=proc-2",
            Version::Proc3 => "trace=proc-3",
        }
    }

    fn from_header(line: &[u8]) -> Option<Version> {
        Version::ALL
            .into_iter()
            .find(|version| version.header().as_bytes() == line)
    }

    /// Whether records print a ninth line, `holder`.
    pub fn prints_holder(self) -> bool {
        matches!(self, Version::Proc2 | Version::Proc3)
    }

    /// Whether the output ends with what the second engine says, `agree`.
    pub fn prints_agree(self) -> bool {
        matches!(self, Version::Proc2 | Version::Proc3)
    }

    /// Whether a trace with this first line may have the op.
    pub fn allows(self, op: Op) -> bool {
        self == Version::Proc3 || !matches!(op, Op::Pin | Op::Unpin)
    }
}

#[derive(Clone, Copy, Debug, PartialEq, Eq, PartialOrd, Ord)]
pub enum Op {
    Begin,
    End,
    Snap,
    Own,
    Oldest,
    Vacuum,
    Stamp,
    Finish,
    Pin,
    Unpin,
}

impl Op {
    pub const ALL: [Op; 10] = [
        Op::Begin,
        Op::End,
        Op::Snap,
        Op::Own,
        Op::Oldest,
        Op::Vacuum,
        Op::Stamp,
        Op::Finish,
        Op::Pin,
        Op::Unpin,
    ];

    pub fn name(self) -> &'static str {
        match self {
            Op::Begin => "begin",
            Op::End => "end",
            Op::Snap => "snap",
            Op::Own => "own",
            Op::Oldest => "oldest",
            Op::Vacuum => "vacuum",
            Op::Stamp => "stamp",
            Op::Finish => "finish",
            Op::Pin => "pin",
            Op::Unpin => "unpin",
        }
    }

    fn from_name(name: &[u8]) -> Option<Op> {
        Op::ALL.into_iter().find(|op| op.name().as_bytes() == name)
    }

    /// Whether the op reads `slot` and `id` as a registration.
    pub fn reads_registration(self) -> bool {
        matches!(self, Op::End | Op::Own | Op::Finish)
    }

    /// Whether the op reads `slot`: a registration's, or a pin's number.
    pub fn reads_slot(self) -> bool {
        self.reads_registration() || self == Op::Unpin
    }

    /// Whether the op reads `stamp`.
    pub fn reads_stamp(self) -> bool {
        matches!(self, Op::Begin | Op::Stamp | Op::Finish)
    }

    /// Whether the op reads `clock` and `sample`.
    pub fn reads_clock(self) -> bool {
        matches!(self, Op::Snap | Op::Own | Op::Oldest | Op::Vacuum | Op::Pin)
    }

    /// Whether the op reads slot, id, stamp, clock and sample.
    pub fn reads(self) -> [bool; 5] {
        let clock = self.reads_clock();
        [
            self.reads_slot(),
            self.reads_registration(),
            self.reads_stamp(),
            clock,
            clock,
        ]
    }
}

#[derive(Clone, Copy, Debug, PartialEq, Eq)]
pub struct Record {
    pub op: Op,
    pub slot: u16,
    pub id: u64,
    pub stamp: u64,
    pub clock: u64,
    pub sample: u64,
}

#[derive(Clone, Debug, PartialEq, Eq)]
pub struct Trace {
    pub version: Version,
    pub records: Vec<Record>,
}

/// Refusal 9: the first line that breaks a rule, or 0 for a long input.
#[derive(Clone, Copy, Debug, PartialEq, Eq)]
pub struct BadTrace {
    pub line: usize,
}

pub fn read(input: &[u8]) -> Result<Trace, BadTrace> {
    if input.len() > LIMIT {
        return Err(BadTrace { line: 0 });
    }
    let mut lines = Lines::of(input);
    let version = Version::from_header(lines.line()?).ok_or(lines.broken())?;
    let mut records = Vec::new();
    while !lines.is_empty() {
        records.push(read_record(version, &mut lines)?);
    }
    Ok(Trace { version, records })
}

fn read_record(version: Version, lines: &mut Lines) -> Result<Record, BadTrace> {
    let name = lines.value(b"op=")?;
    let op = Op::from_name(name).filter(|op| version.allows(*op));
    let op = op.ok_or(lines.broken())?;
    let slot = lines.field(b"slot=", u16::MAX.into(), op.reads_slot())?;
    Ok(Record {
        op,
        slot: slot as u16,
        id: lines.field(b"id=", u64::MAX, op.reads_registration())?,
        stamp: lines.field(b"stamp=", u64::MAX, op.reads_stamp())?,
        clock: lines.field(b"clock=", u64::MAX, op.reads_clock())?,
        sample: lines.field(b"sample=", u64::MAX, op.reads_clock())?,
    })
}

/// The lines not yet read, and the number of the line last asked for.
pub struct Lines<'a> {
    rest: &'a [u8],
    number: usize,
}

impl<'a> Lines<'a> {
    pub fn of(text: &'a [u8]) -> Self {
        Lines {
            rest: text,
            number: 0,
        }
    }

    pub fn is_empty(&self) -> bool {
        self.rest.is_empty()
    }

    pub fn broken(&self) -> BadTrace {
        BadTrace { line: self.number }
    }

    /// The next line without its newline; a missing or unterminated one breaks a rule.
    pub fn line(&mut self) -> Result<&'a [u8], BadTrace> {
        self.number += 1;
        let end = self.rest.iter().position(|&byte| byte == b'\n');
        let end = end.ok_or(self.broken())?;
        let line = &self.rest[..end];
        self.rest = &self.rest[end + 1..];
        Ok(line)
    }

    pub fn value(&mut self, key: &[u8]) -> Result<&'a [u8], BadTrace> {
        self.line()?.strip_prefix(key).ok_or(self.broken())
    }

    pub fn field(&mut self, key: &[u8], largest: u64, is_read: bool) -> Result<u64, BadTrace> {
        let number = decimal(self.value(key)?).ok_or(self.broken())?;
        if number > largest || (number != 0 && !is_read) {
            return Err(self.broken());
        }
        Ok(number)
    }
}

/// A decimal number to 2^64 - 1, with no sign and no leading zero.
fn decimal(text: &[u8]) -> Option<u64> {
    if text.is_empty() || (text.len() > 1 && text[0] == b'0') {
        return None;
    }
    let mut number: u64 = 0;
    for &byte in text {
        if !byte.is_ascii_digit() {
            return None;
        }
        let digit = u64::from(byte - b'0');
        number = number.checked_mul(10)?.checked_add(digit)?;
    }
    Some(number)
}
