//! Reading a trace, SPEC 9: a good record is a few numbers between spans of bytes that its op fixes.

use super::calls::{Call, Header, Observed, Registration};
use super::text::Text;
use super::{LIMIT, broken};

/// The header's length with its newline; the shortest record's.
const HEADER: usize = 13;
const SHORTEST: usize = 44;

pub struct Trace {
    pub header: Header,
    pub calls: Vec<Call>,
}

/// The whole text's records, or the number of the first line that breaks a rule.
pub fn trace(input: &[u8]) -> Result<Trace, usize> {
    if input.len() > LIMIT {
        return Err(0);
    }
    let header = match input.get(..HEADER) {
        Some(b"trace=proc-1\n") => Header::Proc1,
        Some(b"trace=proc-2\n") => Header::Proc2,
        Some(b"trace=proc-3\n") => Header::Proc3,
        _ => return Err(1),
    };
    let mut text = Text {
        rest: &input[HEADER..],
    };
    let mut calls = Vec::with_capacity(text.rest.len() / SHORTEST);
    while !text.rest.is_empty() {
        let start = text.rest;
        match text.call(header) {
            Some(call) => calls.push(call),
            None => return Err(2 + 6 * calls.len() + broken::line(start, header)),
        }
    }
    Ok(Trace { header, calls })
}

impl Text<'_> {
    /// The next record, or none where it breaks a rule.
    fn call(&mut self, header: Header) -> Option<Call> {
        // two letters tell the ops apart; the span that is read next has all of them
        match self.rest.get(3..5)? {
            b"be" => self
                .reserved(b"op=begin\nslot=0\nid=0\nstamp=")
                .map(Call::Begin),
            b"en" => self.end(),
            b"sn" => self
                .observed(b"op=snap\nslot=0\nid=0\nstamp=0\nclock=")
                .map(Call::Snap),
            b"ow" => self.own(),
            b"ol" => self
                .observed(b"op=oldest\nslot=0\nid=0\nstamp=0\nclock=")
                .map(Call::Oldest),
            b"va" => self
                .observed(b"op=vacuum\nslot=0\nid=0\nstamp=0\nclock=")
                .map(Call::Vacuum),
            b"st" => self
                .reserved(b"op=stamp\nslot=0\nid=0\nstamp=")
                .map(Call::Stamp),
            b"fi" => self.finish(),
            b"pi" if header.has_pins() => self
                .observed(b"op=pin\nslot=0\nid=0\nstamp=0\nclock=")
                .map(Call::Pin),
            b"un" if header.has_pins() => self.unpin(),
            _ => None,
        }
    }

    fn end(&mut self) -> Option<Call> {
        let owner = self.registration(b"op=end\nslot=")?;
        self.span(b"\nstamp=0\nclock=0\nsample=0\n")?;
        Some(Call::End(owner))
    }

    fn own(&mut self) -> Option<Call> {
        let owner = self.registration(b"op=own\nslot=")?;
        let observed = self.observed(b"\nstamp=0\nclock=")?;
        Some(Call::Own(owner, observed))
    }

    fn finish(&mut self) -> Option<Call> {
        let owner = self.registration(b"op=finish\nslot=")?;
        let stamp = self.reserved(b"\nstamp=")?;
        Some(Call::Finish(owner, stamp))
    }

    fn unpin(&mut self) -> Option<Call> {
        let pin = self.slot(b"op=unpin\nslot=")?;
        self.span(b"\nid=0\nstamp=0\nclock=0\nsample=0\n")?;
        Some(Call::Unpin(pin))
    }

    /// From `opening` to the record's end: a stamp, and no clock.
    #[inline(always)]
    fn reserved(&mut self, opening: &[u8]) -> Option<u64> {
        self.span(opening)?;
        let stamp = self.number()?;
        self.span(b"\nclock=0\nsample=0\n")?;
        Some(stamp)
    }

    /// From `opening` to the record's end: a clock and a sample.
    #[inline(always)]
    fn observed(&mut self, opening: &[u8]) -> Option<Observed> {
        self.span(opening)?;
        let clock = self.number()?;
        self.span(b"\nsample=")?;
        let sample = self.number()?;
        self.span(b"\n")?;
        Some(Observed { clock, sample })
    }

    /// From `opening` on: a slot and an id.
    #[inline(always)]
    fn registration(&mut self, opening: &[u8]) -> Option<Registration> {
        let slot = self.slot(opening)?;
        self.span(b"\nid=")?;
        let id = self.number()?;
        Some(Registration { slot, id })
    }

    #[inline(always)]
    fn slot(&mut self, opening: &[u8]) -> Option<u16> {
        self.span(opening)?;
        u16::try_from(self.number()?).ok()
    }
}
