//! Replays the trace on standard input by the replay tuned by hand.

use std::io::{self, Read, Write};
use twin::tuned::{self, LIMIT, ROOM};

/// What is written at once.
const PIECE: usize = 65_536;

fn main() -> io::Result<()> {
    let mut input = Vec::with_capacity(LIMIT + 64);
    // One byte past the limit is asked for, so that a long input is seen as one.
    let most = LIMIT as u64 + 1;
    io::stdin().lock().take(most).read_to_end(&mut input)?;
    let mut out = io::stdout().lock();
    let mut buffer = vec![0; PIECE + ROOM];
    let rest = tuned::fill(&input, &mut buffer, |piece| out.write_all(piece))?;
    out.write_all(&buffer[..rest])?;
    out.flush()
}
