//! Which versions a reader may use, and which bytes a tile's decoder gets, in plain Rust.

use crate::table::SLOTS;

/// What a reader was shown; it may be badly formed.
pub struct Seen<'a> {
    pub xmax: u64,
    pub ids: &'a [u64],
    pub count: usize,
}

/// Refusal 10 or 4, or whether the id is settled.
pub fn settled(seen: &Seen, id: u64) -> Result<bool, u8> {
    if seen.count > SLOTS {
        return Err(10);
    }
    if id == 0 {
        return Err(4);
    }
    let listed = seen.ids.iter().take(seen.count).any(|&other| other == id);
    Ok(id < seen.xmax && !listed)
}

/// Refusal 10 or 4, or whether the id is settled or the reader's own (0 for none).
pub fn usable(seen: &Seen, own: u64, id: u64) -> Result<bool, u8> {
    Ok(settled(seen, id)? || own == id)
}

/// The used part of the newer coding if the reader may use it, else of the older; or refusal 10, 4 or 11.
pub fn right_bytes<'a>(
    seen: &Seen,
    own: u64,
    maker: u64,
    (older, older_used): (&'a [u8], usize),
    (newer, newer_used): (&'a [u8], usize),
) -> Result<&'a [u8], u8> {
    let from_newer = usable(seen, own, maker)?;
    let older = older.get(..older_used).ok_or(11)?;
    let newer = newer.get(..newer_used).ok_or(11)?;
    Ok(if from_newer { newer } else { older })
}
