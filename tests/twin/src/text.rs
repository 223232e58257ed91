//! Records as trace text, and a text as lines.

use crate::trace::{Record, Version};

/// The length of a header with its newline, whichever it is.
pub const HEADER_LENGTH: usize = 13;

pub fn of_record(record: &Record) -> String {
    format!(
        "op={}\nslot={}\nid={}\nstamp={}\nclock={}\nsample={}\n",
        record.op.name(),
        record.slot,
        record.id,
        record.stamp,
        record.clock,
        record.sample
    )
}

pub fn of_records(version: Version, records: &[Record]) -> Vec<u8> {
    let mut text = format!("{}\n", version.header());
    for record in records {
        text.push_str(&of_record(record));
    }
    text.into_bytes()
}

/// The lines of a text, each with its newline.
pub fn lines(text: &[u8]) -> Vec<Vec<u8>> {
    let pieces = text.split_inclusive(|&byte| byte == b'\n');
    pieces.map(<[u8]>::to_vec).collect()
}
