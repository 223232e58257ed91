//! A replay tuned by hand, written from docs/SPEC.md: what the race shows beside the plain twin, to tell how far a
//! replay is from the limit.
//!
//! The table is two columns and the pins; a record is read by the spans of bytes between its numbers, its answer written
//! by such spans too, with a printer of numbers of its own, into a buffer that the caller prepared. Room for the records
//! is asked for once, and nothing is allocated while they are read or run. It keeps no more state than SPEC 2 has: no list
//! of empty slots, no text of an id; so it makes the scans that every replay makes. No vector instructions, no `unsafe`.

mod answers;
mod broken;
mod calls;
mod columns;
mod page;
mod read;
mod run;
mod scans;
mod text;

use columns::Table;
use page::Page;
use read::Trace;

pub use answers::ROOM;

/// The longest input that is read.
pub const LIMIT: usize = 65_536;

/// Replays into `out` and answers the length of the output; nothing where fewer than `ROOM` bytes were left for a record.
pub fn replay(input: &[u8], out: &mut [u8]) -> Option<usize> {
    fill(input, out, |_| Err(())).ok()
}

/// Replays into `buffer`, which has `ROOM` bytes at least. What stands in it is handed to `empty` where a record may
/// need more than is left. Answers how many bytes of the output stand in it at the end, not handed out yet.
pub fn fill<E>(
    input: &[u8],
    buffer: &mut [u8],
    mut empty: impl FnMut(&[u8]) -> Result<(), E>,
) -> Result<usize, E> {
    let mut page = Page::on(buffer);
    match read::trace(input) {
        Err(line) => answers::broken(&mut page, line),
        Ok(trace) => {
            if !trace.calls.is_empty() {
                run_all(&trace, &mut page, &mut empty)?;
            }
            answers::end(&mut page, trace.calls.len());
        }
    }
    Ok(page.written().len())
}

fn run_all<E>(
    trace: &Trace,
    page: &mut Page,
    empty: &mut impl FnMut(&[u8]) -> Result<(), E>,
) -> Result<(), E> {
    let mut table = Table::fresh();
    for call in &trace.calls {
        if page.left() < ROOM {
            empty(page.written())?;
            page.clear();
        }
        run::run(&mut table, *call, trace.header.prints_holder(), page);
    }
    Ok(())
}
